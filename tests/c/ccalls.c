/* Makes the C call on what a stream of calls loads and puts (second/README.md has the stream's form), and prints a line for each call, so
 * that it can be compared with `second ccalls`. Model and question lie in blocks of memory of just their size, and the sheet buffer
 * between canary bytes; a length of 0 is passed with a null pointer. Exits with 1 if a canary changed. */
#include "plan_judge.h"

#include <stdio.h>
#include <stdlib.h>
#include <string.h>

#define CANARY 0xA5
#define MARGIN 64

static const size_t LENGTHS[] = {0, 1, 511, 512, 513, 1023, 1024, 1025, 1535, 1536, 1537, 1700};

struct bytes {
    uint8_t *at;
    size_t len;
};

/* The stream's own Adler sums: 65521 is the largest prime below 65536. */
static void print_sums(const uint8_t *p, size_t n) {
    uint32_t a = 1, b = 0;
    for (size_t i = 0; i < n; i++) {
        a = (a + p[i]) % 65521;
        b = (b + a) % 65521;
    }
    printf(" %u %u\n", a, b);
}

static int canaries_hold(const uint8_t *space, size_t len) {
    for (size_t i = 0; i < MARGIN; i++)
        if (space[i] != CANARY || space[MARGIN + len + i] != CANARY)
            return 0;
    return 1;
}

static int call(struct bytes model, struct bytes question, size_t len) {
    uint8_t *space = malloc(len + 2 * MARGIN);
    if (!space)
        return 0;
    memset(space, CANARY, len + 2 * MARGIN);
    uint8_t *sheet = space + MARGIN;
    for (size_t i = 0; i < len; i++)
        sheet[i] = (uint8_t)(7 * i + 3);
    uint32_t answer = plan_judge(model.at, model.len, question.at, question.len, len ? sheet : NULL, len);
    printf("call %zu %u", len, answer);
    print_sums(sheet, len);
    int held = canaries_hold(space, len);
    free(space);
    return held;
}

/* The next record's input into memory of just its size; 0 at the end of the stream. */
static int next(int *operation, struct bytes *input) {
    uint8_t head[5];
    if (fread(head, 1, 5, stdin) < 5)
        return 0;
    *operation = head[0];
    input->len = head[1] | (size_t)head[2] << 8 | (size_t)head[3] << 16 | (size_t)head[4] << 24;
    input->at = input->len ? malloc(input->len) : NULL;
    return input->len == 0 || (input->at && fread(input->at, 1, input->len, stdin) == input->len);
}

int main(void) {
    struct bytes model = {NULL, 0}, nothing = {NULL, 0}, input;
    int operation, held = 1;
    while (next(&operation, &input)) {
        if (operation == 1) {
            free(model.at);
            model = input;
            held &= call(model, nothing, 0);
            continue;
        }
        if (operation == 2)
            for (size_t i = 0; i < sizeof LENGTHS / sizeof *LENGTHS; i++)
                held &= call(model, input, LENGTHS[i]);
        free(input.at);
    }
    free(model.at);
    if (!held)
        fprintf(stderr, "ccalls: a byte beside the sheet buffer changed\n");
    return !held;
}
