/* digits.c - the numbers of listings, through the archive: every value that a variable can have, every price from 3 to 100,011, the numbers of
 * 1,000,000 steps, totals and places of refusals at each power of ten, one less and one more. Every text that is expected is snprintf's, and
 * each listing is asked for with nothing lent, a byte too little, just enough, and enough for any plan of as many steps.
 *
 *   cc -std=c11 -O2 -Wall -Wextra -Werror -Iinclude -Ibench/peer tests/digits.c target/staticlib/libruphenqo.a -o digits && ./digits
 */
#include "ruphenqo.h"
#include "workloads.h"
#include <stdarg.h>

enum { MOST = 10000, STEPS = 1000000, LONGEST = 10000001, DEAREST = 330034, MARK = 0xa5 };
enum { LINE = 73, ENDS = 42, ROOM = ENDS + LINE * STEPS + 1 };

static struct wl task;
static uint8_t plan[LONGEST], out[ROOM];      /* between two listings all of the plan is 0 */
static char text[ROOM];
static size_t text_length;
static uint64_t listings, bytes, differ;

static void say(const char *format, ...)
{
    va_list numbers;
    va_start(numbers, format);
    text_length += (size_t)vsnprintf(text + text_length, ROOM - text_length, format, numbers);
    va_end(numbers);
}

static void begin(void)
{
    text_length = 0;
    say("step action cost values\n");
}

static int marked(const uint8_t *from, size_t n)
{
    return n == 0 || (from[0] == MARK && !memcmp(from, from + 1, n - 1));
}

/* Whether the listing, into so many lent bytes, is the text; into fewer than it has, 8 with its length. All other bytes are as they were. */
static int is_listed(size_t plan_length, size_t lent)
{
    int fits = lent >= text_length;
    size_t written = fits ? text_length : 0, room = (fits ? lent : text_length) + 1;
    uint64_t length = UINT64_MAX, place = UINT64_MAX;
    memset(out, MARK, room);
    uint32_t number = ruphenqo_list(task.b, task.n, plan, plan_length, out, lent, &length, &place);
    if (fits ? number || length != text_length || place : number != RUPHENQO_NO_SPACE || length != UINT64_MAX || place != text_length)
        return 0;
    return !memcmp(out, text, written) && marked(out + written, room - written);
}

/* The line of the text in which the first byte that differs stands. */
static void tell(size_t plan_length, size_t lent)
{
    size_t at = 0;
    while (at < text_length && out[at] == (uint8_t)text[at])
        at++;
    while (at > 0 && text[at - 1] != '\n')
        at--;
    int line = (int)strcspn(text + at, "\n");
    printf("a plan of %zu bytes, %zu bytes lent, from byte %zu on other than %.*s\n", plan_length, lent, at, line, text + at);
}

static void compare(size_t plan_length)
{
    size_t steps = plan_length / 2 < STEPS ? plan_length / 2 : STEPS;
    size_t lent[] = { 0, text_length - 1, text_length, ENDS + LINE * steps };
    int same = 1;
    for (int i = 0; i < 4 && same; i++) {
        same = is_listed(plan_length, lent[i]);
        if (!same && !differ)
            tell(plan_length, lent[i]);
    }
    listings++;
    bytes += text_length;
    differ += !same;
}

static void put_end(void)
{
    wl_cmd(&task, 'G');
    wl_cmd(&task, 'Z');
}

/* Variables that start at v, v + 1 and so on, up to eight, and a step that leaves them so. */
static void list_values(int v)
{
    task.n = 0;
    begin();
    say("0 0 1");
    for (int i = v; i < v + 8 && i <= MOST; i++) {
        wl_V(&task, -MOST, MOST, i);
        say(" %d", i);
    }
    wl_cmd(&task, 'A');
    put_end();
    say("\ngoal 1\n");
    compare(2);
}

static int least(int a, int b) { return a < b ? a : b; }

/* A step of this price, of 3 or more: an L without terms, or with four that add up to 0. */
static void list_price(int price)
{
    int terms = price < 11 ? 0 : 4, rest = price - 3 - 2 * terms;
    int size = terms ? least(rest / 8, MOST) : 0;
    int before = least(rest - 8 * size, MOST), after = rest - 8 * size - before;
    task.n = 0;
    for (int i = 0; i < 4; i++)
        wl_V(&task, -MOST, MOST, i % 2 ? -size : size);
    wl_V(&task, -MOST, MOST, -before);
    wl_cmd(&task, 'A');
    wl_vc(&task, 'L', 4, -after);
    for (int i = 0; i < terms; i++)
        wl_vc(&task, 'T', i, 1);
    put_end();
    begin();
    say("0 0 %d %d %d %d %d %d\n", price, size, -size, size, -size, -after);
    say("goal %d\n", price);
    compare(2);
}

/* As many steps as a plan can have, over all actions that a task can have. */
static void list_steps(void)
{
    task.n = 0;
    for (int i = 0; i < 32; i++)
        wl_cmd(&task, 'A');
    put_end();
    begin();
    for (int i = 0; i < STEPS; i++) {
        plan[2 * i] = i % 32;
        say("%d %d 1\n", i, i % 32);
    }
    say("goal %d\n", STEPS);
    compare(2 * STEPS);
    memset(plan, 0, 2 * STEPS);
}

/* Action 0, whose three effects leave their targets as they are, has the dearest step there is; action 1 costs 1. */
static void put_dearest(void)
{
    task.n = 0;
    for (int i = 0; i < 4; i++)
        wl_V(&task, -MOST, MOST, MOST);
    wl_cmd(&task, 'A');
    for (int target = 0; target < 3; target++) {
        wl_vc(&task, 'L', target, MOST);
        for (int i = 0; i < 4; i++)
            wl_vc(&task, 'T', i, i % 2 ? -1 : 1);
    }
    wl_cmd(&task, 'A');
    put_end();
}

static void list_total(uint64_t total)
{
    size_t dear = total / DEAREST, steps = dear + total % DEAREST;
    begin();
    for (size_t i = 0; i < steps; i++) {
        plan[2 * i] = i >= dear;
        say("%zu %d %d %d %d %d %d\n", i, i >= dear, i < dear ? DEAREST : 1, MOST, MOST, MOST, MOST);
    }
    say("goal %llu\n", (unsigned long long)total);
    compare(2 * steps);
    memset(plan, 0, 2 * steps);
}

static void list_refusal(int number, uint64_t place, size_t plan_length)
{
    text_length = 0;
    say("refused %d %llu\n", number, (unsigned long long)place);
    compare(plan_length);
}

/* Action 0 asks for nothing, action 1 and the goal for what never holds, and there is no action 2. */
static void put_refusing(void)
{
    task.n = 0;
    wl_V(&task, 0, 0, 0);
    wl_cmd(&task, 'A');
    wl_cmd(&task, 'A');
    wl_C(&task, 0, 3, 0);
    wl_cmd(&task, 'G');
    wl_C(&task, 0, 3, 0);
    wl_cmd(&task, 'Z');
}

/* The refusals of plans that can have this place: 10 a length, 11 and 12 a step, 13 a count of steps. */
static void list_place(uint64_t place)
{
    if (place % 2 || place > 2 * STEPS)
        list_refusal(RUPHENQO_BAD_PLAN_LENGTH, place, place);
    if (place <= STEPS)
        list_refusal(RUPHENQO_GOAL_NOT_MET, place, 2 * place);
    if (place >= STEPS)
        return;
    plan[2 * place] = 1;
    list_refusal(RUPHENQO_NOT_APPLICABLE, place, 2 * place + 2);
    plan[2 * place] = 2;
    list_refusal(RUPHENQO_NO_ACTION, place, 2 * place + 2);
    plan[2 * place] = 0;
}

/* A task that is cut short behind so many actions. */
static void list_cut(int actions)
{
    task.n = 0;
    for (int i = 0; i < actions; i++)
        wl_cmd(&task, 'A');
    list_refusal(RUPHENQO_CUT_SHORT, actions, 0);
}

/* Each power of ten up to the last, one less and one more. */
static void around(uint64_t last, void (*list)(uint64_t))
{
    for (uint64_t power = 1; power <= last; power *= 10) {
        list(power - 1);
        list(power);
        list(power + 1);
    }
}

int main(void)
{
    for (int v = -MOST; v <= MOST; v++)
        list_values(v);
    for (int price = 3; price <= 100011; price++)
        list_price(price);
    list_steps();
    put_dearest();
    around(100000000000, list_total);
    list_total((uint64_t)DEAREST * STEPS);
    put_refusing();
    around(LONGEST - 1, list_place);
    for (int actions = 0; actions <= 32; actions++)
        list_cut(actions);
    free(task.b);
    printf("%llu listings compared, %llu bytes, %llu differ\n", (unsigned long long)listings, (unsigned long long)bytes, (unsigned long long)differ);
    return differ != 0;
}
