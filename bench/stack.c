/* stack.c - the stack that each call takes, measured: the call runs in a thread whose stack was painted, and what is no longer paint is
 * counted, less what a thread that calls nothing takes.
 *
 *   cc -O1 -static -Iinclude bench/stack.c target/staticlib/libruphenqo.a -lpthread -o target/stack
 *   target/stack TASK PLAN                 a source task and a valid plan of it; steps are of action 0, from the start
 */
#include "ruphenqo.h"
#include <pthread.h>
#include <stdio.h>
#include <stdlib.h>
#include <string.h>

enum { STACK = 4 << 20, PAINT = 0xA5 };

static _Alignas(4096) uint8_t stack[STACK];
static uint8_t task[1 << 14], lowered[1 << 15], plan[2000000], restricted[2000000], out[4000000];
static size_t task_length, lowered_length, plan_length, restricted_length;
static int64_t values[RUPHENQO_RESTRICTED_VARIABLES], least[RUPHENQO_SOURCE_VARIABLES], most[RUPHENQO_SOURCE_VARIABLES];
static uint16_t modes[RUPHENQO_RESTRICTED_MODES], sizes[RUPHENQO_SOURCE_MODES];
static uint64_t counts[3], place, length, steps, price, start, end;
static uint32_t answer;

#define T task, task_length
#define R lowered, lowered_length
#define P plan, plan_length
#define Q restricted, restricted_length
#define OUT out, sizeof out, &length, &place

static void nothing(void) { answer = 0; }
static void read_source(void) { answer = ruphenqo_read_source(T, counts, &place); }
static void read_restricted(void) { answer = ruphenqo_read_restricted(R, counts, &place); }
static void source_action(void) { answer = ruphenqo_source_action(T, 0, &start, &end, &place); }
static void restricted_action(void) { answer = ruphenqo_restricted_action(R, 0, &start, &end, &place); }
static void source_start(void) { answer = ruphenqo_source_start(T, values, modes, least, most, sizes, &place); }
static void restricted_start(void) { answer = ruphenqo_restricted_start(R, values, modes, &place); }
static void refusal_text(void) { answer = ruphenqo_refusal_text(RUPHENQO_GOAL_NOT_MET, OUT); }
static void step_source(void) { answer = ruphenqo_step_source(T, values, modes, 0, &place); }
static void step_restricted(void) { answer = ruphenqo_step_restricted(R, values, modes, 0, &place); }
static void price_step(void) { answer = ruphenqo_price_step(T, values, modes, 0, &price, &place); }
static void lower(void) { answer = ruphenqo_lower(T, OUT); }
static void judge_source(void) { answer = ruphenqo_judge_source(T, P, &steps, values, modes, &place); }
static void price_plan(void) { answer = ruphenqo_price_plan(T, P, &price, &place); }
static void expand(void) { answer = ruphenqo_expand(T, P, OUT); }
static void list(void) { answer = ruphenqo_list(T, P, OUT); }
static void project(void) { answer = ruphenqo_project(T, Q, OUT); }
static void judge_restricted(void) { answer = ruphenqo_judge_restricted(R, Q, &steps, values, modes, &place); }

static const struct {
    const char *name;
    void (*call)(void);
} calls[] = {
    { "nothing", nothing },
    { "read_source", read_source },
    { "read_restricted", read_restricted },
    { "source_action", source_action },
    { "restricted_action", restricted_action },
    { "refusal_text", refusal_text },
    { "source_start", source_start },
    { "price_step", price_step },
    { "step_source", step_source },
    { "restricted_start", restricted_start },
    { "step_restricted", step_restricted },
    { "lower", lower },
    { "judge_source", judge_source },
    { "price_plan", price_plan },
    { "expand", expand },
    { "list", list },
    { "project", project },
    { "judge_restricted", judge_restricted },
};

static void *run(void *call)
{
    (*(void (**)(void))call)();
    return NULL;
}

/* the bytes from the deepest that was written up to the stack's top */
static size_t taken(void (*call)(void))
{
    pthread_attr_t own;
    pthread_t thread;
    memset(stack, PAINT, STACK);
    if (pthread_attr_init(&own) || pthread_attr_setstack(&own, stack, STACK) || pthread_create(&thread, &own, run, &call))
        exit(2);
    pthread_join(thread, NULL);
    size_t painted = 0;
    while (painted < STACK && stack[painted] == PAINT)
        painted++;
    return STACK - painted;
}

static size_t read_file(const char *path, uint8_t *at, size_t room)
{
    FILE *f = fopen(path, "rb");
    if (!f) {
        fprintf(stderr, "%s: no file\n", path);
        exit(2);
    }
    size_t n = fread(at, 1, room, f);
    fclose(f);
    return n;
}

int main(int count, char **words)
{
    if (count != 3) {
        fputs("stack TASK PLAN\n", stderr);
        return 2;
    }
    task_length = read_file(words[1], task, sizeof task);
    plan_length = read_file(words[2], plan, sizeof plan);
    lower();
    memcpy(lowered, out, lowered_length = length);
    expand();
    if (answer) {
        fprintf(stderr, "the plan is refused: %u at %llu\n", (unsigned)answer, (unsigned long long)place);
        return 1;
    }
    memcpy(restricted, out, restricted_length = length);
    size_t idle = taken(nothing);
    for (size_t i = 1; i < sizeof calls / sizeof *calls; i++) {
        size_t bytes = taken(calls[i].call) - idle;
        printf("%8zu %s, which answers %u\n", bytes, calls[i].name, (unsigned)answer);
    }
    return 0;
}
