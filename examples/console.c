/* console.c - a dispatch console's use of the library.
 *
 *   console TASK                  lowers the task: the restricted file that a solver is given goes to standard output
 *   console TASK SOLVER_PLAN      checks a solver's plan against the lowered task, takes it back to the source task and prints what to do
 *
 *   cc examples/console.c $(pkg-config --cflags --libs ruphenqo) -o console
 */
#include <ruphenqo.h>
#include <stdio.h>
#include <stdlib.h>

struct bytes {
    uint8_t *at;
    size_t length;
};

/* A buffer is never null, also where it is empty. */
static struct bytes room(size_t length)
{
    struct bytes b = { malloc(length + 1), length };
    if (!b.at) {
        fputs("no memory\n", stderr);
        exit(2);
    }
    return b;
}

static struct bytes read_file(const char *path)
{
    FILE *f = fopen(path, "rb");
    long end;
    if (!f || fseek(f, 0, SEEK_END) || (end = ftell(f)) < 0 || fseek(f, 0, SEEK_SET)) {
        fprintf(stderr, "%s: no file\n", path);
        exit(2);
    }
    struct bytes b = room((size_t)end);
    b.length = fread(b.at, 1, b.length, f);
    fclose(f);
    return b;
}

/* The text of a refusal is not terminated: its length says where it ends. */
static void refused(const char *what, uint32_t number, uint64_t place)
{
    uint8_t text[80];
    uint64_t length = 0, needed;
    ruphenqo_refusal_text(number, text, sizeof text, &length, &needed);
    fprintf(stderr, "%s refused: %.*s (%u at %llu)\n", what, (int)length, (const char *)text, (unsigned)number, (unsigned long long)place);
    exit(1);
}

/* A call that writes is asked twice: with no room, for the bytes that it needs, and then with as many. */
static struct bytes lower(struct bytes task)
{
    uint64_t length = 0, place;
    struct bytes out = room(0);
    uint32_t number = ruphenqo_lower(task.at, task.length, out.at, 0, &length, &place);
    if (number == RUPHENQO_NO_SPACE) {
        free(out.at);
        out = room(place);
        number = ruphenqo_lower(task.at, task.length, out.at, out.length, &length, &place);
    }
    if (number)
        refused("task", number, place);
    return out;
}

/* A source plan is no longer than the restricted plan that it comes from. */
static struct bytes project(struct bytes task, struct bytes solver)
{
    uint64_t length = 0, place;
    struct bytes out = room(solver.length);
    uint32_t number = ruphenqo_project(task.at, task.length, solver.at, solver.length, out.at, out.length, &length, &place);
    if (number)
        refused("solver's plan", number, place);
    out.length = length;
    return out;
}

static void print_start(struct bytes task)
{
    uint64_t counts[3] = { 0, 0, 0 }, place;
    int64_t values[RUPHENQO_SOURCE_VARIABLES], lower[RUPHENQO_SOURCE_VARIABLES], upper[RUPHENQO_SOURCE_VARIABLES];
    uint16_t modes[RUPHENQO_SOURCE_MODES], sizes[RUPHENQO_SOURCE_MODES];
    uint32_t number = ruphenqo_read_source(task.at, task.length, counts, &place);
    if (!number)
        number = ruphenqo_source_start(task.at, task.length, values, modes, lower, upper, sizes, &place);
    if (number)
        refused("task", number, place);
    printf("before the first step:");
    for (uint64_t i = 0; i < counts[0]; i++)
        printf(" %lld", (long long)values[i]);
    printf("\n");
}

static void print_listing(struct bytes task, struct bytes plan)
{
    uint64_t length = 0, place;
    struct bytes text = room(0);
    if (ruphenqo_list(task.at, task.length, plan.at, plan.length, text.at, 0, &length, &place) == RUPHENQO_NO_SPACE) {
        free(text.at);
        text = room(place);
        ruphenqo_list(task.at, task.length, plan.at, plan.length, text.at, text.length, &length, &place);
    }
    fwrite(text.at, 1, length, stdout);
    free(text.at);
}

/* Judged against the lowered task, whoever wrote it, and taken back. */
static void print_plan(struct bytes task, struct bytes lowered, struct bytes solver)
{
    uint64_t steps = 0, place;
    int64_t values[RUPHENQO_RESTRICTED_VARIABLES];
    uint16_t modes[RUPHENQO_RESTRICTED_MODES];
    uint32_t number = ruphenqo_judge_restricted(lowered.at, lowered.length, solver.at, solver.length, &steps, values, modes, &place);
    if (number)
        refused("solver's plan", number, place);
    printf("solver's plan: %llu steps\n", (unsigned long long)steps);
    struct bytes plan = project(task, solver);
    print_start(task);
    print_listing(task, plan);
    free(plan.at);
}

int main(int count, char **words)
{
    if (count != 2 && count != 3) {
        fputs("console TASK [SOLVER_PLAN]\n", stderr);
        return 2;
    }
    struct bytes task = read_file(words[1]);
    struct bytes lowered = lower(task);
    if (count == 2) {
        fwrite(lowered.at, 1, lowered.length, stdout);
    } else {
        struct bytes solver = read_file(words[2]);
        print_plan(task, lowered, solver);
        free(solver.at);
    }
    free(lowered.at);
    free(task.at);
    return 0;
}
