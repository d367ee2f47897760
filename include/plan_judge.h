/* The plan judge for C: one call, proved in Rattle (crates/plan_judge; crates/plan_judge_c makes the archive).
 *
 * Build:   bash tests/archive             writes target/staticlib/libplan_judge.a
 * Link:    cc caller.c -Iinclude target/staticlib/libplan_judge.a
 */
#ifndef PLAN_JUDGE_H
#define PLAN_JUDGE_H

#include <stddef.h>
#include <stdint.h>

#ifdef __cplusplus
extern "C" {
#endif

/* Limits: a model is 2 to 12 blocks, a question 1 block, a sheet 1 to 3 blocks. */
#define PLAN_JUDGE_BLOCK 512
#define PLAN_JUDGE_MODEL_MAX (12 * PLAN_JUDGE_BLOCK)
#define PLAN_JUDGE_SHEET_MAX (3 * PLAN_JUDGE_BLOCK)

/* Answers. Everything from PLAN_JUDGE_REFUSED on is a refusal: 100 plus its number. */
#define PLAN_JUDGE_NO 0
#define PLAN_JUDGE_YES 1
#define PLAN_JUDGE_REFUSED 100

/* The choice byte of the silent move: in a state where no action is enabled the arm stays, with certainty and reward 0. */
#define PLAN_JUDGE_SILENT 255

/* The numbers of refusals that this call can give. (8 is not among them: a state with no enabled action is no ground any more.)
 *    1  length: model not 2 to 12 whole blocks, question not 1
 *    2  a block's words do not sum to 0
 *    3  wrong kind, or number out of sequence
 *    4  states, actions, propositions, denominator or the block count wrong; the question's start or node count wrong
 *    5  a used field beyond its range
 *    6  a spare byte not zero
 *    7  postconditions that do not contradict, a target where its postcondition is false, weights not summing to the denominator
 *    9  the question's root is a path formula, or the child of a "plan" (operator 8) looks further than the plan's steps
 *   12  the sheet buffer is shorter than the sheet
 *   13  a node of the question is not reached from its root by following the children of "not", "and", "next" and "plan": a leftover
 *       that nobody reads
 *   24  over 1,000,000 paths for some node of operator 8 or 9 and some state
 *   25  over 65,536 plans for some such node with relation "equal" and some state
 * The model's grounds are tested before the question's, those before 24 and 25, and 12 last.
 * Of the question's, 13 is tested last, after 9. */

/* Judges the question on the model. On yes to a question whose root asks for a plan (operator 8 by its chance, operator 9 by its
 * expected gain), the sheet of the shown plan fills the first blocks of `sheet` (1 to 3 blocks: byte 1 of each is its number, and every
 * block but the last holds exactly 490 choices); a buffer of PLAN_JUDGE_SHEET_MAX bytes is always long enough. In every other case, and
 * beyond the sheet, no byte of `sheet` changes. A choice is the number of an action, or PLAN_JUDGE_SILENT where no action is enabled.
 * Bytes 8 to 15 of each block are the plan's total, a whole number, little-endian: its chance (operator 8) or its expected gain
 * (operator 9) times the denominator to the steps. It is below 0 only for operator 9, and then in two's complement (an int64_t).
 * The answer does not say whether that total is below, at or above the question's bound p/q (the program verdict prints it): compare
 * total times q with p times the denominator to the steps; both fit an int64_t.
 *
 * The three slices may have any length and any contents; a pointer may be null where its length is 0. `sheet` must not overlap the
 * others. Nothing is allocated, nothing is kept between calls, and calls on different buffers may run at the same time. The call uses
 * under 1 MiB of stack; measured (tests/stack): 92 KB for "less" and "greater", 104 KB for "equal" where plans are few, 620 KB at most.
 *
 * Gives PLAN_JUDGE_NO, PLAN_JUDGE_YES, or PLAN_JUDGE_REFUSED plus a number from the list above. */
uint32_t plan_judge(const uint8_t *model, size_t model_len, const uint8_t *question, size_t question_len, uint8_t *sheet, size_t sheet_len);

#ifdef __cplusplus
}
#endif

#endif
