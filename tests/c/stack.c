/* How much stack the C call takes: each case is judged on a thread whose stack lies in memory that was painted before, and the lowest byte
 * that the call changed tells how deep it went. A case is a file with a model followed by a question in its last 512 bytes.
 *
 *   stack measure KIND BYTES FILE.. [-- KIND BYTES FILE..]..   prints for each kind the most that one of its files takes; fails if that is
 *                                                              over its bytes; the last line has the first kind's, and the most of all
 *   stack run BYTES FILE..                                     makes the calls with just so many bytes of stack below them, and a page
 *                                                              below that which cannot be touched, so that whoever needs more is killed
 *
 * A thread needs some stack of its own, before the call and on top of it: its control block and its thread-local data lie there, and the
 * frames of the functions that start it. That is none of the call's: bytes are counted from the frame that makes the call. */
#define _GNU_SOURCE
#include "plan_judge.h"

#include <alloca.h>
#include <pthread.h>
#include <stdio.h>
#include <stdlib.h>
#include <string.h>
#include <sys/mman.h>
#include <unistd.h>

#define PAINT 0xC7
#define STACK (5 * 256 * 1024)
/* More than any thread needs for itself. */
#define OWN (64 * 1024)

struct call {
    uint8_t input[PLAN_JUDGE_MODEL_MAX + PLAN_JUDGE_BLOCK];
    size_t len;
    uint8_t sheet[PLAN_JUDGE_SHEET_MAX];
    uint32_t answer;
    /* The lowest byte of the stack, and how much of it the call is to have: all if 0. */
    uint8_t *bottom;
    size_t left;
    /* The frame that makes the call, and how many bytes the thread took above it. */
    uint8_t *top;
    size_t own;
};

__attribute__((noinline)) static void make(struct call *c) {
    c->top = __builtin_frame_address(0);
    size_t model = c->len < PLAN_JUDGE_BLOCK ? 0 : c->len - PLAN_JUDGE_BLOCK;
    c->answer = plan_judge(c->input, model, c->input + model, c->len - model, c->sheet, sizeof c->sheet);
}

static void *on_thread(void *argument) {
    struct call *c = argument;
    if (c->left) {
        /* Takes away what is too much, so that just the bytes asked for are left below. */
        size_t here = (size_t)((uint8_t *)__builtin_frame_address(0) - c->bottom);
        c->own = c->left + OWN - here;
        size_t away = here > c->left ? here - c->left : 0;
        memset(alloca(away + 1), 0, away);
        make(c);
    } else {
        make(c);
    }
    return NULL;
}

static void die(const char *what) {
    fprintf(stderr, "stack: %s\n", what);
    exit(2);
}

/* Makes the call on a thread with a painted stack of so many bytes, with a page below that kills whoever touches it; gives the bytes that
 * the call took. */
static size_t run(struct call *c, size_t bytes) {
    size_t page = (size_t)sysconf(_SC_PAGESIZE);
    uint8_t *area = mmap(NULL, page + bytes, PROT_READ | PROT_WRITE, MAP_PRIVATE | MAP_ANONYMOUS, -1, 0);
    if (area == MAP_FAILED || mprotect(area, page, PROT_NONE))
        die("no memory for a stack");
    c->bottom = area + page;
    memset(c->bottom, PAINT, bytes);
    pthread_attr_t attributes;
    pthread_t thread;
    if (pthread_attr_init(&attributes) || pthread_attr_setstack(&attributes, c->bottom, bytes) ||
        pthread_create(&thread, &attributes, on_thread, c) || pthread_join(thread, NULL))
        die("no thread");
    pthread_attr_destroy(&attributes);
    uint8_t *lowest = c->bottom;
    while (lowest < c->top && *lowest == PAINT)
        lowest++;
    size_t took = (size_t)(c->top - lowest);
    munmap(area, page + bytes);
    return took;
}

static void read_case(struct call *c, const char *file) {
    memset(c, 0, sizeof *c);
    FILE *f = fopen(file, "rb");
    if (!f)
        die(file);
    c->len = fread(c->input, 1, sizeof c->input, f);
    fclose(f);
}

static const char *base(const char *file) {
    const char *slash = strrchr(file, '/');
    return slash ? slash + 1 : file;
}

struct kind {
    const char *name;
    size_t limit, most;
};

/* Makes the calls of one kind, from its name on; prints which took the most. Gives the word after its files. */
static char **measure_kind(struct kind *kind, char **words) {
    static struct call c;
    if (!words[0] || !words[1] || !words[2])
        die("a kind without files");
    const char *file = "";
    uint32_t answer = 0;
    int files = 0;
    kind->name = words[0], kind->limit = strtoul(words[1], NULL, 10), kind->most = 0;
    for (words += 2; *words && strcmp(*words, "--"); words++, files++) {
        read_case(&c, *words);
        size_t took = run(&c, STACK);
        if (took > kind->most)
            kind->most = took, file = base(*words), answer = c.answer;
    }
    printf("%8zu bytes  %-32s the most of %d (%s, answer %u)%s\n", kind->most, kind->name, files, file, answer,
           kind->most > kind->limit ? ": TOO MUCH" : "");
    return words;
}

static int measure(char **words) {
    struct kind first = {0}, worst = {0}, kind;
    int failed = 0;
    for (int i = 0; *words; i++) {
        words = measure_kind(&kind, words);
        if (*words)
            words++;
        failed |= kind.most > kind.limit;
        if (i == 0)
            first = kind;
        if (kind.most > worst.most)
            worst.most = kind.most;
        if (kind.limit > worst.limit)
            worst.limit = kind.limit;
    }
    printf("stack: %s takes %zu bytes of %zu; the worst takes %zu of %zu\n", first.name, first.most, first.limit, worst.most, worst.limit);
    return failed;
}

static int run_with(char **words) {
    static struct call c;
    size_t bytes = strtoul(words[0], NULL, 10);
    for (words++; *words; words++) {
        read_case(&c, *words);
        c.left = bytes;
        run(&c, bytes + OWN);
        printf("answer %u with %zu bytes of stack and %zu of the thread's own: %s\n", c.answer, bytes, c.own, base(*words));
        fflush(stdout);
    }
    return 0;
}

int main(int argc, char **argv) {
    if (argc > 3 && !strcmp(argv[1], "measure"))
        return measure(argv + 2);
    if (argc > 3 && !strcmp(argv[1], "run"))
        return run_with(argv + 2);
    die("usage: stack measure KIND BYTES FILE.. [-- KIND BYTES FILE..].. | stack run BYTES FILE..");
}
