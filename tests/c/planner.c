/*
 * The planner of the boundary, called from C, against what is found outside it: whether there is a plan, by a matching (augmenting paths, one line after the
 * other); whether a proposal passes, by the four rules one by one; and a range that shows a refusal, by counting. All instances of up to two lines over vectors 31 to
 * 35, with each set of 32 to 35 taken; of three lines, if no range is inverted; of four over 32 to 35, none inverted, with none or 32 taken; then made-up ones of
 * up to 27 lines. The exit status is 0 only if everything was as expected.
 *
 * A lent plan ends where a page ends that nobody may touch; its bytes behind the lines, and all of it where a call is refused, are compared.
 */
#define _DEFAULT_SOURCE
#include "sillwander.h"
#include <stdio.h>
#include <string.h>
#include <sys/mman.h>

enum { PAGE = 4096, SHOWN = 10, LINES = 24, ROOM = 40 };

static unsigned long instances, wrong, planned, refused8, proposals;
static uint8_t *page; /* the end of what may be touched */

static void fault(const char *why, unsigned lines, const uint16_t *ranges, const uint64_t *taken, uint64_t code)
{
    if (wrong++ >= SHOWN)
        return;
    printf("planner.c: %s; code %#lx; taken %#lx %#lx %#lx %#lx; lines", why, (unsigned long)code, (unsigned long)taken[0], (unsigned long)taken[1],
           (unsigned long)taken[2], (unsigned long)taken[3]);
    for (unsigned k = 0; k < lines; k++)
        printf(" %u..%u", ranges[k] & 0xffu, (unsigned)ranges[k] >> 8);
    printf("\n");
}

/* ---- What is found outside */

static int is_free(const uint64_t *taken, unsigned v) { return v >= 32 && !(taken[v / 64] >> (v % 64) & 1); }
static unsigned low(uint16_t range) { return range & 0xffu; }
static unsigned high(uint16_t range) { return range / 256u; }

static int holder[256], tried[256];

static int seat(const uint16_t *ranges, const uint64_t *taken, int line)
{
    for (unsigned v = low(ranges[line]); v <= high(ranges[line]); v++) {
        if (!is_free(taken, v) || tried[v])
            continue;
        tried[v] = 1;
        if (holder[v] < 0 || seat(ranges, taken, holder[v])) {
            holder[v] = line;
            return 1;
        }
    }
    return 0;
}

static int has_plan(const uint16_t *ranges, unsigned lines, const uint64_t *taken)
{
    memset(holder, -1, sizeof holder);
    for (unsigned k = 0; k < lines; k++) {
        memset(tried, 0, sizeof tried);
        if (!seat(ranges, taken, (int)k))
            return 0;
    }
    return 1;
}

static int passes(const uint16_t *ranges, unsigned lines, const uint64_t *taken, const uint8_t *plan, unsigned bytes)
{
    if (bytes < lines)
        return 0;
    for (unsigned k = 0; k < lines; k++) {
        if (plan[k] < low(ranges[k]) || plan[k] > high(ranges[k]) || !is_free(taken, plan[k]))
            return 0;
        for (unsigned j = 0; j < lines; j++)
            if (j != k && plan[j] == plan[k])
                return 0;
    }
    return 1;
}

static unsigned first_refusal(const uint16_t *ranges, unsigned lines, unsigned bytes)
{
    if (lines > LINES)
        return 5;
    if (bytes < lines)
        return 11;
    for (unsigned k = 0; k < lines; k++)
        if (low(ranges[k]) > high(ranges[k]))
            return 2;
    return 0;
}

/* ---- One instance */

static void show(const uint16_t *ranges, unsigned lines, const uint64_t *taken, unsigned refusal)
{
    uint64_t set[1] = {~(uint64_t)0}, confined = 0;
    uint64_t code = sillwander_plan_shortage(ranges, lines, taken, set);
    if (refusal == 11) { /* it is said of the lent plan, and none is lent here */
        refusal = first_refusal(ranges, lines, lines);
        if (refusal == 0 && !has_plan(ranges, lines, taken))
            refusal = 8;
    }
    if (refusal != 8) {
        if (code != (uint64_t)refusal << 56 || set[0] != ~(uint64_t)0)
            fault("a shortage where there is none", lines, ranges, taken, code);
        return;
    }
    unsigned from = SILLWANDER_OF_TWO(code, 0), to = SILLWANDER_OF_TWO(code, 1), many = 0, free = 0;
    for (unsigned k = 0; k < lines; k++)
        if (low(ranges[k]) >= from && high(ranges[k]) <= to)
            confined |= (uint64_t)1 << k, many++;
    for (unsigned v = from; v <= to && v < 256; v++)
        free += is_free(taken, v);
    if (SILLWANDER_REFUSAL(code) || SILLWANDER_COUNT(code) != 2 || from > 255 || to > 255 || set[0] != confined || many <= free)
        fault("a range that doesn't show it", lines, ranges, taken, code);
}

static void instance(const uint16_t *ranges, unsigned lines, const uint64_t *taken, unsigned bytes)
{
    uint8_t *plan = page - bytes, before[ROOM];
    instances++;
    memset(page - ROOM, 0xa5, ROOM);
    memcpy(before, plan, bytes);
    unsigned refusal = first_refusal(ranges, lines, bytes);
    if (refusal == 0 && !has_plan(ranges, lines, taken))
        refusal = 8;
    uint64_t code = sillwander_plan(ranges, lines, taken, plan, bytes);
    if (code != (uint64_t)refusal << 56)
        fault("another answer", lines, ranges, taken, code);
    if (memcmp(plan + (refusal ? 0 : lines), before + (refusal ? 0 : lines), refusal ? bytes : bytes - lines) != 0)
        fault("bytes that aren't the lines' were written", lines, ranges, taken, code);
    if (refusal == 0) {
        planned++;
        if (!passes(ranges, lines, taken, plan, bytes))
            fault("a plan that doesn't pass", lines, ranges, taken, code);
    }
    refused8 += refusal == 8;
    show(ranges, lines, taken, refusal);
}

static void proposal(const uint16_t *ranges, unsigned lines, const uint64_t *taken, const uint8_t *plan, unsigned bytes)
{
    proposals++;
    uint64_t code = sillwander_plan_check(ranges, lines, taken, plan, bytes);
    if (code != ((uint64_t)1 << 48 | (uint64_t)passes(ranges, lines, taken, plan, bytes)))
        fault("another answer of the check", lines, ranges, taken, code);
}

/* ---- All small ones: every line's range over the vectors from `first` to `last`, and each of the first `sets` sets of vectors from 32 up taken */

static void small(unsigned lines, unsigned first, unsigned last, unsigned inverted, unsigned sets)
{
    uint16_t all[32], ranges[4];
    unsigned kinds = 0, count = 1;
    for (unsigned a = first; a <= last; a++)
        for (unsigned b = inverted ? first : a; b <= last; b++)
            all[kinds++] = SILLWANDER_RANGE(a, b);
    for (unsigned k = 0; k < lines; k++)
        count *= kinds;
    for (unsigned n = 0; n < count; n++)
        for (uint64_t set = 0; set < sets; set++) {
            uint64_t taken[4] = {set << 32, 0, 0, 0};
            for (unsigned k = 0, rest = n; k < lines; k++, rest /= kinds)
                ranges[k] = all[rest % kinds];
            instance(ranges, lines, taken, lines + n % 3);
        }
}

/* Every proposal of two bytes from 30 to 35 for two lines. */
static void small_proposals(void)
{
    for (unsigned n = 0; n < 256; n++)
        for (uint64_t set = 0; set < 8; set++)
            for (unsigned p = 0; p < 36; p++) {
                uint64_t taken[4] = {set << 32, 0, 0, 0};
                uint16_t ranges[2] = {SILLWANDER_RANGE(31 + n % 4, 31 + n / 4 % 4), SILLWANDER_RANGE(31 + n / 16 % 4, 31 + n / 64)};
                uint8_t plan[3] = {(uint8_t)(30 + p % 6), (uint8_t)(30 + p / 6), 77};
                proposal(ranges, 2, taken, plan, 1 + (n + p) % 3);
            }
}

/* An end that is no vector isn't cut to one. */
static void wide_ends(void)
{
    static const uint16_t each[] = {SILLWANDER_RANGE(0x141, 0x42), SILLWANDER_RANGE(0x41, 0x142), SILLWANDER_RANGE(0x141, 0x142), SILLWANDER_RANGE(0x41, -1),
                                    SILLWANDER_RANGE(0x100000041u, 0x42), SILLWANDER_RANGE(0x41, (uint64_t)1 << 63 | 0x42)};
    static const uint64_t taken[4];
    for (unsigned k = 0; k < sizeof each / sizeof *each; k++) {
        uint64_t code = sillwander_plan(each + k, 1, taken, page - 1, 1);
        if (code != (uint64_t)SILLWANDER_INVALID_REGISTER << 56)
            fault("a wide end", 1, each + k, taken, code);
    }
}

/* ---- Made-up ones */

static uint64_t state = 10;

static uint64_t dice(void)
{
    state ^= state << 13, state ^= state >> 7, state ^= state << 17;
    return state;
}

static void large(void)
{
    uint16_t ranges[30];
    uint64_t taken[4];
    uint8_t plan[30];
    unsigned lines = dice() % 64 == 0 ? 25 + dice() % 3 : dice() % 25, width = 1 + dice() % 40, from = dice() % 200;
    for (unsigned w = 0; w < 4; w++)
        taken[w] = dice() % 4 == 0 ? dice() : dice() & dice();
    for (unsigned k = 0; k < lines; k++) {
        unsigned a = from + dice() % width, b = a + dice() % width;
        ranges[k] = dice() % 512 == 0 ? (uint16_t)dice() : SILLWANDER_RANGE(a > 255 ? 255 : a, b > 255 ? 255 : b);
    }
    unsigned bytes = dice() % 64 == 0 ? dice() % 30 : lines + dice() % 6;
    instance(ranges, lines, taken, bytes);
    for (unsigned k = 0; k < 30; k++)
        plan[k] = bytes >= lines && k < lines && lines <= LINES ? (page - bytes)[k] : (uint8_t)dice();
    if (lines && dice() % 2)
        plan[dice() % lines] = dice() % 2 ? plan[dice() % lines] : (uint8_t)dice();
    proposal(ranges, lines, taken, plan, dice() % 16 == 0 ? lines / 2 : 30);
}

int main(void)
{
    uint8_t *both = mmap(NULL, 2 * PAGE, PROT_READ | PROT_WRITE, MAP_PRIVATE | MAP_ANONYMOUS, -1, 0);
    if (both == MAP_FAILED || mprotect(both + PAGE, PAGE, PROT_NONE) != 0)
        return 2;
    page = both + PAGE;
    for (unsigned lines = 0; lines < 3; lines++)
        small(lines, 31, 35, 1, 16);
    small(3, 31, 35, 0, 16);
    small(4, 32, 35, 0, 2);
    unsigned long few = instances, before = planned;
    small_proposals();
    wide_ends();
    for (unsigned n = 0; n < 20000; n++)
        large();
    printf("planner: %lu instances, all %lu small ones and %lu made up, of which %lu and %lu planned, %lu refused with 8; %lu proposals; %lu wrong\n", instances, few,
           instances - few, before, planned - before, refused8, proposals, wrong);
    return wrong == 0 && planned > 1000 && refused8 > 1000 ? 0 : 1;
}
