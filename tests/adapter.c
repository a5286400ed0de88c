/* adapter.c - the archive behind the function table of the comparing programs (impl.h, peer.h), for tests/all-vectors and bench/run.
   With GUARDED every file, plan and output is handed over in a copy that ends where a page begins that can't be touched. */
#define _DEFAULT_SOURCE
#include "peer.h"
#include "ruphenqo.h"
#include <string.h>

typedef const uint8_t *bytes;

#ifdef GUARDED
#include <stdlib.h>
#include <sys/mman.h>

enum { FILE_COPY, PLAN_COPY, OUT_COPY, COPIES, PAGE = 4096, ROOM = 16 << 20 };

static uint8_t *copied(int which, bytes b, size_t n)
{
    static uint8_t *ends[COPIES];
    if (!ends[which]) {
        uint8_t *m = mmap(NULL, ROOM + PAGE, PROT_READ | PROT_WRITE, MAP_PRIVATE | MAP_ANONYMOUS, -1, 0);
        if (m == MAP_FAILED || mprotect(m + ROOM, PAGE, PROT_NONE)) abort();
        ends[which] = m + ROOM;
    }
    if (n > ROOM) abort();
    return n ? memcpy(ends[which] - n, b, n) : ends[which];
}
#define file_of(f, n) copied(FILE_COPY, f, n)
#define plan_of(p, n) copied(PLAN_COPY, p, n)
#define out_of(o, n) copied(OUT_COPY, o, n)
static void given_back(uint8_t *out, bytes copy, size_t n) { if (n) memcpy(out, copy, n); }
#else
static uint8_t nothing;

/* the library is handed a pointer also where there are no bytes */
static bytes some(bytes b) { return b ? b : &nothing; }
#define file_of(f, n) some(f)
#define plan_of(p, n) some(p)
#define out_of(o, n) (o)
#define given_back(out, copy, n) (void)0
#endif

static struct ans counted(uint32_t number, uint64_t place, const uint64_t k[3], struct counts *c)
{
    if (!number) {
        c->vars = (uint32_t)k[0];
        c->modes = (uint32_t)k[1];
        c->actions = (uint32_t)k[2];
    }
    return (struct ans){ number, place };
}

static struct ans parse_source(bytes f, size_t n, struct counts *c)
{
    uint64_t place, k[3];
    uint32_t number = ruphenqo_read_source(file_of(f, n), n, k, &place);
    return counted(number, place, k, c);
}

static struct ans parse_restricted(bytes f, size_t n, struct counts *c)
{
    uint64_t place, k[3];
    uint32_t number = ruphenqo_read_restricted(file_of(f, n), n, k, &place);
    return counted(number, place, k, c);
}

static struct ans placed(uint32_t number, uint64_t place, uint64_t start, uint64_t end, struct part *p)
{
    if (!number)
        *p = (struct part){ start, end - start };
    return (struct ans){ number, place };
}

static struct ans act_source(bytes f, size_t n, uint64_t k, struct part *p)
{
    uint64_t place, start = 0, end = 0;
    uint32_t number = ruphenqo_source_action(file_of(f, n), n, k, &start, &end, &place);
    return placed(number, place, start, end, p);
}

static struct ans act_restricted(bytes f, size_t n, uint64_t k, struct part *p)
{
    uint64_t place, start = 0, end = 0;
    uint32_t number = ruphenqo_restricted_action(file_of(f, n), n, k, &start, &end, &place);
    return placed(number, place, start, end, p);
}

static struct ans judge_source(bytes f, size_t n, bytes p, size_t np, struct s_end *e)
{
    struct ans a;
    a.no = ruphenqo_judge_source(file_of(f, n), n, plan_of(p, np), np, &e->steps, e->s.v, e->s.m, &a.place);
    return a;
}

static struct ans judge_restricted(bytes f, size_t n, bytes p, size_t np, struct r_end *e)
{
    struct ans a;
    a.no = ruphenqo_judge_restricted(file_of(f, n), n, plan_of(p, np), np, &e->steps, e->s.v, e->s.m, &a.place);
    return a;
}

/* A step works in place: on a refusal the state is as it was, which is looked at here (99 is no number of a refusal). */
static struct ans step_source(bytes f, size_t n, const struct s_state *s, uint64_t k, struct s_state *next)
{
    struct ans a;
    struct s_state t = *s;
    a.no = ruphenqo_step_source(file_of(f, n), n, t.v, t.m, k, &a.place);
    if (!a.no)
        *next = t;
    else if (memcmp(t.v, s->v, sizeof t.v) || memcmp(t.m, s->m, sizeof t.m))
        a.no = 99;
    return a;
}

static struct ans step_restricted(bytes f, size_t n, const struct r_state *s, uint64_t k, struct r_state *next)
{
    struct ans a;
    struct r_state t = *s;
    a.no = ruphenqo_step_restricted(file_of(f, n), n, t.v, t.m, k, &a.place);
    if (!a.no)
        *next = t;
    else if (memcmp(t.v, s->v, sizeof t.v) || memcmp(t.m, s->m, sizeof t.m))
        a.no = 99;
    return a;
}

static struct ans price_step(bytes f, size_t n, const struct s_state *s, uint64_t k, uint64_t *price)
{
    struct ans a;
    a.no = ruphenqo_price_step(file_of(f, n), n, s->v, s->m, k, price, &a.place);
    return a;
}

static struct ans price_plan(bytes f, size_t n, bytes p, size_t np, uint64_t *price)
{
    struct ans a;
    a.no = ruphenqo_price_plan(file_of(f, n), n, plan_of(p, np), np, price, &a.place);
    return a;
}

static struct ans written(uint32_t number, uint64_t place, uint64_t count, size_t *length)
{
    if (!number)
        *length = count;
    return (struct ans){ number, place };
}

static struct ans lower(bytes f, size_t n, uint8_t *out, size_t cap, size_t *length)
{
    uint64_t place, count = 0;
    uint8_t *lent = out_of(out, cap);
    uint32_t number = ruphenqo_lower(file_of(f, n), n, lent, cap, &count, &place);
    given_back(out, lent, cap);
    return written(number, place, count, length);
}

static struct ans expand(bytes f, size_t n, bytes p, size_t np, uint8_t *out, size_t cap, size_t *length)
{
    uint64_t place, count = 0;
    uint8_t *lent = out_of(out, cap);
    uint32_t number = ruphenqo_expand(file_of(f, n), n, plan_of(p, np), np, lent, cap, &count, &place);
    given_back(out, lent, cap);
    return written(number, place, count, length);
}

static struct ans project(bytes f, size_t n, bytes p, size_t np, uint8_t *out, size_t cap, size_t *length)
{
    uint64_t place, count = 0;
    uint8_t *lent = out_of(out, cap);
    uint32_t number = ruphenqo_project(file_of(f, n), n, plan_of(p, np), np, lent, cap, &count, &place);
    given_back(out, lent, cap);
    return written(number, place, count, length);
}

/* A file that can't be opened, or is too large, is the program's matter and not the library's. */
static struct ans listing(bytes f, size_t n, bytes p, size_t np, uint8_t *out, size_t cap, size_t *length)
{
    const char *line = !f || !p ? "no file\n" : n > 16384 || np > 32768 ? "too large\n" : 0;
    uint64_t place, count = 0;
    if (!line) {
        uint8_t *lent = out_of(out, cap);
        uint32_t number = ruphenqo_list(file_of(f, n), n, plan_of(p, np), np, lent, cap, &count, &place);
        given_back(out, lent, cap);
        return written(number, place, count, length);
    }
    if (cap < strlen(line))
        return (struct ans){ 8, strlen(line) };
    memcpy(out, line, strlen(line));
    return written(0, 0, strlen(line), length);
}

const struct impl ruphenqo = {
    .name = "ruphenqo", .parse_source = parse_source, .parse_restricted = parse_restricted, .act_source = act_source,
    .act_restricted = act_restricted, .judge_source = judge_source, .judge_restricted = judge_restricted, .step_source = step_source,
    .step_restricted = step_restricted, .lower = lower, .expand = expand, .project = project, .price_plan = price_plan,
    .price_step = price_step, .listing = listing,
};
