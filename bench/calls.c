/* calls.c - what small calls cost: a task of two actions and a plan of eight steps, through every implementation; ns a call, best of rounds. */
#define _POSIX_C_SOURCE 199309L
#include "impls.h"
#include "workloads.h"
#include <time.h>

enum { LOWER, EXPAND, PROJECT, JUDGE_S, JUDGE_R, PRICE, LISTING, ENTRIES, REPEATS = 2000 };
static const char *const NAMES[ENTRIES] = { "lower", "expand", "project", "judge source", "judge restricted", "price", "listing" };

static struct wl task, plan;
static uint8_t low[4096], steps[4096], out[4096];
static size_t low_length, steps_length;

static double now(void) { struct timespec t; clock_gettime(CLOCK_MONOTONIC, &t); return (double)t.tv_sec * 1e9 + (double)t.tv_nsec; }

static uint32_t call(const struct impl *m, int entry, size_t *length)
{
    struct s_end s;
    struct r_end r;
    uint64_t price;
    *length = 0;
    switch (entry) {
    case LOWER: return m->lower(task.b, task.n, out, sizeof out, length).no;
    case EXPAND: return m->expand(task.b, task.n, plan.b, plan.n, out, sizeof out, length).no;
    case PROJECT: return m->project(task.b, task.n, steps, steps_length, out, sizeof out, length).no;
    case JUDGE_S: return m->judge_source(task.b, task.n, plan.b, plan.n, &s).no;
    case JUDGE_R: return m->judge_restricted(low, low_length, steps, steps_length, &r).no;
    case PRICE: return m->price_plan(task.b, task.n, plan.b, plan.n, &price).no;
    default: return m->listing(task.b, task.n, plan.b, plan.n, out, sizeof out, length).no;
    }
}

int main(int argc, char **argv)
{
    int rounds = argc > 1 ? atoi(argv[1]) : 25;
    task = wl_single_task();
    plan = wl_single_plan(8);
    if (peer_obvious.lower(task.b, task.n, low, sizeof low, &low_length).no) return 1;
    if (peer_obvious.expand(task.b, task.n, plan.b, plan.n, steps, sizeof steps, &steps_length).no) return 1;
    printf("%-32s", "small calls (ns a call)");
    for (size_t m = 0; m < N_IMPLS; m++) printf(" %9s", IMPLS[m]->name);
    puts("");
    for (int e = 0; e < ENTRIES; e++) {
        double best[N_IMPLS];
        for (size_t m = 0; m < N_IMPLS; m++) best[m] = 1e300;
        for (int r = 0; r < rounds; r++)
            for (size_t m = 0; m < N_IMPLS; m++) {
                size_t length;
                double t = now();
                for (int i = 0; i < REPEATS; i++)
                    if (call(IMPLS[m], e, &length)) return 1;
                t = (now() - t) / REPEATS;
                if (t < best[m]) best[m] = t;
            }
        printf("%-32s", NAMES[e]);
        for (size_t m = 0; m < N_IMPLS; m++) printf(" %9.0f", best[m]);
        puts("");
    }
    return 0;
}
