/* ruphenqo.h - integer fleet tasks, restricted tasks, and the plans between them.
 *
 * Link with libruphenqo.a: cc my.c -Iinclude libruphenqo.a. Every function is proved to answer as said here for every input: true, cut
 * short or scrambled. None keeps anything between calls, allocates, or reads or writes beyond what it is handed. docs/FORMAT.md has the
 * files, the plans and the meaning of each refusal, with a worked file. (Stack and times below are measured and the largest sizes counted,
 * not proved. Files named here are those of the library's repository.)
 *
 * MACHINE. x86-64 Linux. Of the C library the archive needs memcpy and memset, and nothing else.
 *
 * THREADS. The archive has no variables of its own, so calls may run in several threads at once, so long as none writes what another is
 * handed.
 *
 * STACK. What a call takes, measured with the worked file of docs/FORMAT.md and with a file that has K (bench/stack.c), the larger of the two
 * rounded up; 1 KB is 1,000 bytes.
 * Where memcpy and memset are bound at their first call, as by default in a program that is linked dynamically, that call takes some 2.5 KB
 * more.
 *
 *    reading, the place of an action, a start, a refusal's text        1 KB
 *    a step of a source task, the price of a step                      4 KB
 *    a restricted step                                                 6 KB
 *    lowering                                                          8 KB
 *    judging or pricing a source plan, expanding, listing             19 KB
 *    projecting                                                       23 KB
 *    judging a restricted plan                                       420 KB
 *
 * TIME. Every call reads the task's file anew, which is most of what a step by itself takes: 5 to 6 microseconds with a source file
 * of 4,534 bytes, 33 to 37 with its lowering of 28,297 (docs/PERFORMANCE.md). To check a plan judge it whole; don't take its steps one by one.
 *
 * ANSWERS. A function returns 0, or the number of the refusal:
 *
 *    1  a byte is unknown, or not allowed there           at the offset of the command
 *    2  the file ends before Z or inside operands         at the file's length
 *    3  bytes follow Z                                    at the offset after Z
 *    4  one more than a limit                             at the offset of the command, as are 5, 6 and 7
 *    5  undeclared variable or mode, value or start of a mode not below its size, relation over 4 (restricted: over 3)
 *    6  operand out of range, zero where barred, lower above upper, start of a variable outside its bounds
 *    7  second numeric effect on a target, second effect on a mode, a variable twice in the T of an L or a K
 *    8  the lent output is shorter than the result        the place is the bytes needed
 *    9  the expansion has over 1,000,000 steps            at the first source step passing it
 *   10  the plan's length is odd or over 2,000,000 bytes  the place is that length
 *   11  no such action                                    at the step (0 for a step by itself; k for the place of action k)
 *   12  the action does not apply                         at the step (0 for a step by itself)
 *   13  the goal is not met                               the place is the count of steps
 *   14  a K has no T                                      at the offset of the next command
 *
 * The place of the refusal is stored in *place, and 0 where there is none. On a refusal nothing else is written: outputs, states,
 * counts and lengths are as they were.
 *
 * DUTIES OF THE CALLER. A pointer that comes with a length is valid for that many bytes; the others point to one element, or to as many as
 * the array has. What a function writes overlaps nothing else that it is handed. A pointer is never null, also where its length is 0:
 * what is proved says nothing of null. malloc(0) and, in C++, data() of an empty vector may be null; hand over the address of any byte in
 * their place.
 *
 * EXAMPLE. To lower a task into a buffer of one's own (examples/console.c asks for the length first):
 *
 *     uint64_t length, place;
 *     uint32_t number = ruphenqo_lower(task, task_length, out, out_length, &length, &place);
 *     if (number == RUPHENQO_NO_SPACE)
 *         ..  out is too short: place bytes are needed, and out is as it was
 *     else if (number)
 *         ..  the task is refused: number, at place
 *     else
 *         ..  the first length bytes of out are the restricted file
 *
 * BYTES. A task is a file as docs/FORMAT.md has it. A plan is action numbers of 16 bits, least byte first. A state is the values of the
 * variables and of the modes, in the order of their declarations; entries past the declared ones are not read. Where a source task has n
 * variables and m modes, a state of its lowering has these first, then A as variable n, B as variable n + 1, where some action has two or
 * more numeric effects three holds as variables n + 2 to n + 4, and control as mode m; between source steps all of these are 0. Behind them
 * stands a variable for each K, in file order: its value is the K's sum at every state that a plan reaches.
 *
 * A PLAN UNDER WAY. Pricing, expanding, projecting and listing ask for the goal, as judging does (13). To list or price the steps taken so
 * far, hand over the task with an empty goal: its bytes up to G, then G and Z. G stands at *end of the last action (ruphenqo_source_action), and
 * where there is no action behind the declarations, at 13 * variables + 5 * modes.
 */
#ifndef RUPHENQO_H
#define RUPHENQO_H
#include <stddef.h>
#include <stdint.h>

#ifdef __cplusplus
extern "C" {
#endif

/* The version of this header: major * 10000 + minor * 100 + patch. ruphenqo_version() answers that of the archive. */
#define RUPHENQO_VERSION 10300

/* The answers by name; what each means stands above, and in a line of text by ruphenqo_refusal_text. */
enum {
    RUPHENQO_OK = 0,
    RUPHENQO_BAD_BYTE = 1,
    RUPHENQO_CUT_SHORT = 2,
    RUPHENQO_TRAILING_BYTES = 3,
    RUPHENQO_OVER_LIMIT = 4,
    RUPHENQO_UNDECLARED = 5,
    RUPHENQO_BAD_OPERAND = 6,
    RUPHENQO_NAMED_TWICE = 7,
    RUPHENQO_NO_SPACE = 8,
    RUPHENQO_TOO_MANY_STEPS = 9,
    RUPHENQO_BAD_PLAN_LENGTH = 10,
    RUPHENQO_NO_ACTION = 11,
    RUPHENQO_NOT_APPLICABLE = 12,
    RUPHENQO_GOAL_NOT_MET = 13,
    RUPHENQO_NO_TERM = 14
};

/* The sizes of the arrays that hold a state. */
enum {
    RUPHENQO_SOURCE_VARIABLES = 8,
    RUPHENQO_SOURCE_MODES = 4,
    RUPHENQO_RESTRICTED_VARIABLES = 64,
    RUPHENQO_RESTRICTED_MODES = 8
};

/* ---- version ---- */
uint32_t ruphenqo_version(void);

/* ---- reading ----
 * Whether a file is accepted. counts: its variables, modes and actions. Refusals 1 to 7, and 14 of a source file; wherever `1 to 7` is said
 * below of a source task, 14 is among them. */
uint32_t ruphenqo_read_source(const uint8_t *task, size_t task_length, uint64_t counts[3], uint64_t *place);
uint32_t ruphenqo_read_restricted(const uint8_t *task, size_t task_length, uint64_t counts[3], uint64_t *place);

/* Where the bytes of action k stand, from its A at *start up to the next A or G at *end. Refusals 1 to 7, then 11 at k. */
uint32_t ruphenqo_source_action(const uint8_t *task, size_t task_length, uint64_t k, uint64_t *start, uint64_t *end, uint64_t *place);
uint32_t ruphenqo_restricted_action(const uint8_t *task, size_t task_length, uint64_t k, uint64_t *start, uint64_t *end, uint64_t *place);

/* The state before any step, with zeros behind the declared entries; of a source task also the bounds of its variables and the sizes of
 * its modes, likewise in front of zeros. Refusals 1 to 7. */
uint32_t ruphenqo_source_start(const uint8_t *task, size_t task_length,
                               int64_t values[RUPHENQO_SOURCE_VARIABLES], uint16_t modes[RUPHENQO_SOURCE_MODES],
                               int64_t lower[RUPHENQO_SOURCE_VARIABLES], int64_t upper[RUPHENQO_SOURCE_VARIABLES],
                               uint16_t sizes[RUPHENQO_SOURCE_MODES], uint64_t *place);
uint32_t ruphenqo_restricted_start(const uint8_t *task, size_t task_length,
                                   int64_t values[RUPHENQO_RESTRICTED_VARIABLES], uint16_t modes[RUPHENQO_RESTRICTED_MODES], uint64_t *place);

/* ---- steps ----
 * Takes action k in the state that the arrays hold; afterwards they hold the state after it, entries past the declared ones as before.
 * Refusals 1 to 7, then 11 and 12 at 0. In a state with a variable outside its bounds (source) or past 2,000,000,000,000,000 either way
 * (restricted), or a mode not below its size, no action applies. */
uint32_t ruphenqo_step_source(const uint8_t *task, size_t task_length,
                              int64_t values[RUPHENQO_SOURCE_VARIABLES], uint16_t modes[RUPHENQO_SOURCE_MODES], uint64_t k, uint64_t *place);
uint32_t ruphenqo_step_restricted(const uint8_t *task, size_t task_length,
                                  int64_t values[RUPHENQO_RESTRICTED_VARIABLES], uint16_t modes[RUPHENQO_RESTRICTED_MODES],
                                  uint64_t k, uint64_t *place);

/* ---- judging ----
 * Whether a plan is valid: the count of its steps, and the end state with zeros behind the declared entries. Refusals 1 to 7, 10, then 11 and
 * 12 at the step, 13. */
uint32_t ruphenqo_judge_source(const uint8_t *task, size_t task_length, const uint8_t *plan, size_t plan_length,
                               uint64_t *steps, int64_t values[RUPHENQO_SOURCE_VARIABLES], uint16_t modes[RUPHENQO_SOURCE_MODES],
                               uint64_t *place);
uint32_t ruphenqo_judge_restricted(const uint8_t *task, size_t task_length, const uint8_t *plan, size_t plan_length,
                                   uint64_t *steps, int64_t values[RUPHENQO_RESTRICTED_VARIABLES],
                                   uint16_t modes[RUPHENQO_RESTRICTED_MODES], uint64_t *place);

/* ---- prices ----
 * How many restricted steps a source step, or a whole source plan, becomes. They refuse as the step and the judge do. */
uint32_t ruphenqo_price_step(const uint8_t *task, size_t task_length,
                             const int64_t values[RUPHENQO_SOURCE_VARIABLES], const uint16_t modes[RUPHENQO_SOURCE_MODES], uint64_t k,
                             uint64_t *price, uint64_t *place);
uint32_t ruphenqo_price_plan(const uint8_t *task, size_t task_length, const uint8_t *plan, size_t plan_length, uint64_t *price, uint64_t *place);

/* ---- into lent output ----
 * The result stands at the front of `out`, *length is its length in bytes, and what lies beyond it is untouched. 8 comes last, with the
 * bytes needed: a call with out_length 0 asks for the length; it answers 0, with length 0, where the result is empty. Text has no byte 0 behind
 * it. */

/* The restricted task's file, of at most 132,100 bytes. Refusals 1 to 7, 8. */
uint32_t ruphenqo_lower(const uint8_t *task, size_t task_length, uint8_t *out, size_t out_length, uint64_t *length, uint64_t *place);

/* The restricted plan that a source plan becomes, of at most 2,000,000 bytes: a longer one gives 9. Refusals 1 to 7, 10 to 13 as by judging
 * the source plan, 9, 8. */
uint32_t ruphenqo_expand(const uint8_t *task, size_t task_length, const uint8_t *plan, size_t plan_length,
                         uint8_t *out, size_t out_length, uint64_t *length, uint64_t *place);

/* The source plan that a restricted plan comes from, whoever wrote it. It is never longer than the restricted plan: plan_length bytes are
 * room enough. Refusals 1 to 7 of the source task, 10 to 13 as by judging the restricted plan against the lowered file (steps of the
 * restricted plan), 8. */
uint32_t ruphenqo_project(const uint8_t *task, size_t task_length, const uint8_t *plan, size_t plan_length,
                          uint8_t *out, size_t out_length, uint64_t *length, uint64_t *place);

/* The listing of a source plan as text, at most 73 bytes a step and 42 more, which is proved. Lent so many bytes the call takes a quarter less
 * time than lent fewer: it need not count the text first. A refused task or plan is a result too, its one line `refused`, number, place, and
 * the answer is 0; the only refusal is 8. */
uint32_t ruphenqo_list(const uint8_t *task, size_t task_length, const uint8_t *plan, size_t plan_length,
                       uint8_t *out, size_t out_length, uint64_t *length, uint64_t *place);

/* A line of text for an answer's number, without a line feed or a terminator: "no refusal" for 0, "no such refusal number" for a number
 * past the last. The longest has 47 bytes. The only refusal is 8. */
uint32_t ruphenqo_refusal_text(uint32_t number, uint8_t *out, size_t out_length, uint64_t *length, uint64_t *place);

#ifdef __cplusplus
}
#endif
#endif
