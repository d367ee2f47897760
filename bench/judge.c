/* The best time of the C call on each case: a file with a model followed by a question in its last 512 bytes. Prints microseconds, the
 * answer and the file's name, as `second bench` does for the second implementation. */
#include "plan_judge.h"

#include <stdio.h>
#include <stdlib.h>
#include <time.h>

static double now_us(void) {
    struct timespec t;
    clock_gettime(CLOCK_MONOTONIC, &t);
    return 1e6 * (double)t.tv_sec + 1e-3 * (double)t.tv_nsec;
}

static uint8_t input[PLAN_JUDGE_MODEL_MAX + PLAN_JUDGE_BLOCK];
static uint8_t sheet[PLAN_JUDGE_SHEET_MAX];

/* Repeats until a quarter of a second has passed, three times at least where that takes no longer than a second. */
static void time_case(const char *name, size_t len) {
    double best = 1e18, begun = now_us();
    uint32_t answer = 0;
    for (int i = 0; i == 0 || now_us() - begun < (i < 3 ? 1e6 : 0.25e6); i++) {
        double start = now_us();
        answer = plan_judge(input, len - PLAN_JUDGE_BLOCK, input + len - PLAN_JUDGE_BLOCK, PLAN_JUDGE_BLOCK, sheet, sizeof sheet);
        double took = now_us() - start;
        if (took < best)
            best = took;
    }
    printf("%.2f %u %s\n", best, answer, name);
}

int main(int argc, char **argv) {
    for (int i = 1; i < argc; i++) {
        FILE *f = fopen(argv[i], "rb");
        size_t len = f ? fread(input, 1, sizeof input, f) : 0;
        if (f)
            fclose(f);
        if (len < PLAN_JUDGE_BLOCK) {
            fprintf(stderr, "judge: %s: no case\n", argv[i]);
            return 1;
        }
        time_case(argv[i], len);
    }
    return 0;
}
