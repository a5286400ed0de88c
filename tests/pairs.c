/* pairs.c - all restricted plans up to a length, of small tasks: each is judged against the lowered file and projected, the two answers are
 * compared, and a valid one makes a pair: the source plan is valid, has the same end state and as many steps as its price, helpers are at
 * rest, and it expands to the same bytes. At every state that a plan reaches, in mid-macro too, the kept sums are true. A plan that is refused
 * at a step is not made longer, since every longer one is refused there too.
 *
 *   cc -std=c11 -O2 -Wall -Wextra -Werror -Iinclude tests/pairs.c target/staticlib/libruphenqo.a -o pairs && ./pairs
 */
#include "ruphenqo.h"
#include <stdio.h>
#include <stdlib.h>
#include <string.h>

enum { MOST = 64, ROOM = 65536 };

static uint8_t task[256], lowered[ROOM];
static size_t task_length;
static uint64_t lowered_length, variables, modes, lowered_variables, actions;
static uint64_t plans, valid, states;

/* The K of a task: the weights of its two variables in each. The kept sums are R's last variables. */
static int sums, weights[4][2];

struct state {
    int64_t values[64];
    uint16_t modes[8];
};

static void fault(const char *what, const uint8_t *plan, size_t steps)
{
    printf("%s, plan of %zu steps:", what, steps);
    for (size_t i = 0; i < steps; i++)
        printf(" %d", plan[2 * i] + 256 * plan[2 * i + 1]);
    printf("\n");
    exit(1);
}

/* A valid restricted plan and its source plan are a pair. */
static void pair(const uint8_t *plan, size_t steps, const int64_t *values, const uint16_t *controls, const uint8_t *source, uint64_t length)
{
    uint64_t place, count, price, written;
    int64_t source_values[8];
    uint16_t source_modes[4];
    uint8_t again[2 * MOST];
    if (ruphenqo_judge_source(task, task_length, source, length, &count, source_values, source_modes, &place) || count != length / 2)
        fault("the source plan is not valid", plan, steps);
    if (ruphenqo_price_plan(task, task_length, source, length, &price, &place) || price != steps)
        fault("another price", plan, steps);
    if (memcmp(values, source_values, variables * sizeof *values) || memcmp(controls, source_modes, modes * sizeof *controls))
        fault("another end state", plan, steps);
    for (uint64_t i = variables; i < lowered_variables - sums; i++)
        if (values[i] || controls[modes])
            fault("helpers are not at rest", plan, steps);
    if (ruphenqo_expand(task, task_length, source, length, again, sizeof again, &written, &place) || written != 2 * steps || memcmp(again, plan, written))
        fault("another plan back", plan, steps);
    valid++;
}

/* The state behind a plan's last step, whose sums are true. */
static void reach(const uint8_t *plan, size_t steps, struct state *x)
{
    uint64_t place;
    if (steps && ruphenqo_step_restricted(lowered, lowered_length, x->values, x->modes, plan[2 * steps - 2] + 256 * plan[2 * steps - 1], &place))
        fault("a step by itself is refused", plan, steps);
    for (int j = 0; j < sums; j++)
        if (x->values[lowered_variables - sums + j] != weights[j][0] * x->values[0] + weights[j][1] * x->values[1])
            fault("a kept sum is not true", plan, steps);
    states++;
}

static void try_plan(uint8_t *plan, size_t steps, const struct state *before)
{
    struct state x = *before;
    uint64_t place, project_place, count, length = 0;
    int64_t values[64];
    uint16_t controls[8];
    uint8_t source[2 * MOST];
    uint32_t number = ruphenqo_judge_restricted(lowered, lowered_length, plan, 2 * steps, &count, values, controls, &place);
    uint32_t other = ruphenqo_project(task, task_length, plan, 2 * steps, source, sizeof source, &length, &project_place);
    plans++;
    if (number != other || place != project_place)
        fault("judged and projected otherwise", plan, steps);
    if (!number || number == 13)
        reach(plan, steps, &x);
    if (!number)
        pair(plan, steps, values, controls, source, length);
    if (!number && (memcmp(values, x.values, sizeof values) || memcmp(controls, x.modes, sizeof controls)))
        fault("judged and stepped otherwise", plan, steps);
    if ((number && number != 13) || steps == MOST)
        return;
    for (uint64_t k = 0; k <= actions; k++) {
        plan[2 * steps] = k % 256;
        plan[2 * steps + 1] = k / 256;
        try_plan(plan, steps + 1, &x);
    }
}

static void put(const void *bytes, size_t n) { memcpy(task + task_length, bytes, n); task_length += n; }
static void put_byte(int b) { task[task_length++] = b; }
static void put_word(int32_t z) { for (int i = 0; i < 4; i++) put_byte((uint32_t)z >> 8 * i & 255); }
static void put_variable(int lower, int upper, int start) { put_byte('V'); put_word(lower); put_word(upper); put_word(start); }

/* A K over the two variables. */
static void put_sum(int relation, int constant, int first, int second)
{
    put_byte('K');
    put_byte(relation);
    put_word(constant);
    if (first) { put("T\0", 2); put_word(first); }
    if (second) { put("T\1", 2); put_word(second); }
    weights[sums][0] = first;
    weights[sums++][1] = second;
}

/* Two actions over two variables and a mode: a macro or + of every kind and sign, or two effects together, which swap, divide, or set; without
 * a goal, with ≤, with equal there and in an action, with a sum in the goal, or with sums in both actions and the goal. */
static void put_task(int kind, int c, int first, int second, int goal)
{
    task_length = 0;
    sums = 0;
    put_variable(-2, 2, first);
    put_variable(-1, 2, second);
    put("M\2\0\0\0", 5);
    put_byte('A');
    put("P\0\0\0E\0\1\0", 8);
    if (goal == 2) { put("C\1\4", 3); put_word(second); }
    if (goal == 4) put_sum(2, -3, c, 1);
    if (kind == 0) { put("+\0", 2); put_word(c); }
    if (kind == 1) { put("L\0", 2); put_word(c); put("T\0", 2); put_word(-1); put("T\1", 2); put_word(c); }
    if (kind == 2) { put("Q\0\1", 3); put_word(c); }
    if (kind == 3) { put("R\1\1", 3); put_word(c); }
    if (kind == 4) { put("Q\0\0", 3); put_word(c); }
    if (kind == 5) { put("L\0", 2); put_word(0); put("T\1", 2); put_word(1); put("L\1", 2); put_word(c); put("T\0", 2); put_word(1); }
    if (kind == 6) { put("R\1\1", 3); put_word(c); put("Q\0\1", 3); put_word(c); }
    if (kind == 7) { put("L\1", 2); put_word(c); put("+\0", 2); put_word(c); }
    put("AP\0\1\0E\0\0\0", 9);
    if (goal == 4) put_sum(1, 4, 0, -2);
    put("+\1", 2);
    put_word(-1);
    put_byte('G');
    if (goal == 1 || goal == 2) { put(goal == 1 ? "C\1\1" : "C\1\4", 3); put_word(0); }
    if (goal == 3) put_sum(3, 0, 2, -1);
    if (goal == 4) { put_sum(4, 1, 1, 1); put_sum(0, 40, 10000, -10000); }
    put_byte('Z');
}

int main(void)
{
    uint64_t tasks = 0, counts[3], place;
    for (int kind = 0; kind < 8; kind++)
        for (int c = -3; c <= 3; c++)
            for (int first = -2; first <= 2; first += 2)
                for (int second = -1; second <= 2; second++)
                    for (int goal = 0; goal < 5 && c; goal++) {
                        uint8_t plan[2 * MOST + 2];
                        struct state start = {{0}, {0}};
                        put_task(kind, c, first, second, goal);
                        if (ruphenqo_read_source(task, task_length, counts, &place) || ruphenqo_lower(task, task_length, lowered, ROOM, &lowered_length, &place))
                            return puts("a task is refused"), 1;
                        variables = counts[0];
                        modes = counts[1];
                        if (ruphenqo_read_restricted(lowered, lowered_length, counts, &place))
                            return puts("a lowered task is refused"), 1;
                        lowered_variables = counts[0];
                        actions = counts[2];
                        if (ruphenqo_restricted_start(lowered, lowered_length, start.values, start.modes, &place))
                            return puts("a start is refused"), 1;
                        tasks++;
                        try_plan(plan, 0, &start);
                    }
    printf("%llu tasks, %llu restricted plans, %llu states reached, %llu pairs\n", (unsigned long long)tasks, (unsigned long long)plans,
           (unsigned long long)states, (unsigned long long)valid);
    return 0;
}
