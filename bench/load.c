/* The best time of a load alone, by the C call: with no question, the call loads the model and then refuses the question for its length
 * (101). Prints microseconds. */
#include "plan_judge.h"

#include <stdio.h>
#include <time.h>

static double now_us(void) {
    struct timespec t;
    clock_gettime(CLOCK_MONOTONIC, &t);
    return 1e6 * (double)t.tv_sec + 1e-3 * (double)t.tv_nsec;
}

static uint8_t model[PLAN_JUDGE_MODEL_MAX];

int main(void) {
    size_t len = fread(model, 1, sizeof model, stdin);
    double best = 1e18;
    uint32_t answer = 0;
    for (int i = 0; i < 20000; i++) {
        double start = now_us();
        answer = plan_judge(model, len, NULL, 0, NULL, 0);
        double took = now_us() - start;
        if (took < best)
            best = took;
    }
    if (answer != 101)
        printf("load: %u where 101 was to be told\n", answer);
    printf("%.2f\n", best);
    return answer != 101;
}
