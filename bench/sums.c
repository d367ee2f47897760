/* The time of the word sums alone, in the product and in plain C, three rounds by turns. The C call on zero blocks of which the last has a
 * last word of 1 is refused (102) once the sums of all of them are made, and before anything else is looked at. So calls on 12 and on 2
 * blocks, the most and the fewest that a model has, differ by ten sums, of which twelve take 1.2 times the time. */
#include "plan_judge.h"

#include <stdio.h>
#include <time.h>

#define CALLS 20000

static uint8_t blocks[PLAN_JUDGE_MODEL_MAX];
static uint8_t sheet[PLAN_JUDGE_BLOCK];
static volatile uint32_t told;

static double now_us(void) {
    struct timespec t;
    clock_gettime(CLOCK_MONOTONIC, &t);
    return 1e6 * (double)t.tv_sec + 1e-3 * (double)t.tv_nsec;
}

/* Whether the words of all blocks sum to 0, as a C programmer would write it. */
static uint32_t plain(const uint8_t *b, size_t count) {
    for (size_t k = 0; k < count; k++) {
        uint32_t sum = 0;
        for (size_t j = 0; j < 512; j += 2)
            sum += b[512 * k + j] + 256u * b[512 * k + j + 1];
        if (sum % 65536 != 0)
            return 102;
    }
    return 0;
}

static uint32_t proved(const uint8_t *b, size_t count) { return plan_judge(b, 512 * count, b, 512, sheet, sizeof sheet); }

/* The best time of a call on so many blocks, in microseconds. */
static double best(uint32_t (*call)(const uint8_t *, size_t), size_t count) {
    double least = 1e18;
    blocks[512 * count - 2] = 1;
    for (int round = 0; round < 40; round++) {
        double start = now_us();
        for (int i = 0; i < CALLS; i++)
            told = call(blocks, count);
        double took = (now_us() - start) / CALLS;
        if (took < least)
            least = took;
    }
    if (told != 102)
        printf("sums: %u where 102 was to be told\n", told);
    blocks[512 * count - 2] = 0;
    return least;
}

static double twelve_sums(uint32_t (*call)(const uint8_t *, size_t)) { return 1.2 * (best(call, 12) - best(call, 2)); }

int main(void) {
    for (int i = 0; i < 3; i++) {
        double ours = twelve_sums(proved);
        double theirs = twelve_sums(plain);
        printf("the sums of 12 blocks: proved %.3f us, plain C %.3f us\n", ours, theirs);
    }
    return 0;
}
