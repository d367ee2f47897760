/* The judge before this one, on the pharmacist's shelf of document 00: it adds products of chances in doubles. tests/shelf builds it twice,
 * the second time letting the compiler fuse the multiply and the add in `best`, and gets two answers: 0.85 * 0.95 + 0.15 * 0.85 is 0.935
 * where both products are rounded before they are added, and just under it where one of them is not, whichever that is.
 *
 * The table is that of fixtures/shelf.model, the question that of fixtures/shelf/two-tries-at-least-935-1000.question. Both are printed in
 * the words of these files, so that the test can lay them side by side. */
#include <stdio.h>

/* For a machine that cannot fuse: what the compiler would make of it, by the C library's fma. */
#ifdef FUSED_BY_HAND
#include <math.h>
#define PLUS_PRODUCT(total, a, b) fma(a, b, total)
#else
#define PLUS_PRODUCT(total, a, b) ((total) + (a) * (b))
#endif

enum { D = 100, STATES = 2, ACTIONS = 3 };

struct outcome {
    int weight, target;
};

/* Outcomes end with a weight of 0. The table is open to other files, so that the compiler does not take it for known and compute the answer
 * itself, which it would do without fusing. */
struct outcome table[STATES][ACTIONS][3] = {
    {{{85, 1}, {15, 0}}, {{100, 0}}, {{0, 0}}},
    {{{0, 0}}, {{0, 0}}, {{95, 1}, {5, 0}}},
};
int steps = 2, p = 935, q = 1000;

static const char *const states[STATES] = {"empty", "full"};
static const char *const actions[ACTIONS] = {"grip", "leave", "lift"};

/* The best chance that the pack is held after so many moves. */
static double best(int state, int left) {
    double greatest = 0;
    if (left == 0)
        return state == 1;
    for (int action = 0; action < ACTIONS; action++) {
        double total = 0;
        for (const struct outcome *o = table[state][action]; o->weight > 0; o++)
            total = PLUS_PRODUCT(total, (double)o->weight / D, best(o->target, left - 1));
        if (total > greatest)
            greatest = total;
    }
    return greatest;
}

static void print_outcomes(int state, int action) {
    const struct outcome *o = table[state][action];
    if (o->weight == 0)
        return;
    printf("outcome %s %s: %s weight %d", states[state], actions[action], states[o->target], o->weight);
    for (o++; o->weight > 0; o++)
        printf(", %s weight %d", states[o->target], o->weight);
    printf("\n");
}

int main(void) {
    double total = best(0, steps);
    printf("model D %d\n", D);
    for (int state = 0; state < STATES; state++)
        for (int action = 0; action < ACTIONS; action++)
            print_outcomes(state, action);
    printf("steps %d equal %d/%d\nsteps %d greater %d/%d\n", steps, p, q, steps, p, q);
    printf("%.17g %s\n", total, total >= (double)p / q ? "yes" : "no");
    return 0;
}
