/*
 * The board of the boundary, called from C: scenarios with reasons from the SDM (volume 3, the chapter on the APIC) and the 82093AA; the boundary's refusals; and made-up
 * calls against a model of the board that was written from those texts and from documents 01 and 02 alone: answers, registers, entries and lines are compared after each
 * call. The exit status is 0 only if everything was as expected.
 *
 * The lent words of each chip end where a page ends that nobody may touch, so that a call which reads or writes behind them faults.
 */
#define _DEFAULT_SOURCE
#include "sillwander.h"
#include <stdio.h>
#include <string.h>
#include <sys/mman.h>

enum { PAGE = 4096, SHOWN = 20, GSIS = 24 };
enum { SELECT = 0, WINDOW = 0x10, EOI = 0x40 };
enum { TPR = 2, PPR = 3, SVR = 6, ERRORS = 8, ISR = 18, TMR = 26, IRR = 34 };
#define BASE 0xfec00000ull

static uint64_t *io, *apic;
static unsigned long asked, wrong;
static const char *part = "";

static void check(int line, const char *text, int is_so)
{
    asked++;
    if (!is_so && wrong++ < SHOWN)
        printf("board.c:%d: %s: %s isn't so\n", line, part, text);
}
#define CHECK(is_so) check(__LINE__, #is_so, (is_so))

/* Codes: none, one value, two values, refused. */
static const uint64_t NONE = 0;
static uint64_t one(uint64_t a) { return (uint64_t)1 << 48 | a; }
static uint64_t two(uint64_t a, uint64_t b) { return (uint64_t)2 << 48 | b << 24 | a; }
static uint64_t refused(uint64_t number) { return number << 56; }

/* ---- The calls */

static void start(const char *name)
{
    part = name;
    memset(io, 0xa5, SILLWANDER_IOAPIC_WORDS * sizeof *io);
    memset(apic, 0x5a, SILLWANDER_LAPIC_WORDS * sizeof *apic);
    CHECK(sillwander_board_new(io, apic) == NONE);
}
static uint64_t line(uint64_t gsi, uint64_t up) { return sillwander_board_set_gsi_level(io, apic, gsi, up); }
static uint64_t accept(void) { return sillwander_board_accept_interrupt(apic); }
static uint64_t eoi(void) { return sillwander_board_handle_eoi(io, apic); }
static uint64_t tpr(uint64_t value) { return sillwander_board_write_tpr(apic, value); }
static uint64_t write_at(uint64_t offset, uint64_t value) { return sillwander_board_handle_write(io, apic, BASE + offset, 4, value); }
static uint64_t message(uint64_t vector, uint64_t level) { return sillwander_board_receive(apic, vector, level); }
static uint64_t entry(uint64_t gsi, uint64_t low)
{
    CHECK(write_at(SELECT, 0x10 + 2 * gsi) == NONE);
    return write_at(WINDOW, low);
}
static int has(unsigned set, unsigned vector) { return (int)(apic[set + vector / 32] >> (vector % 32) & 1); }

/* ---- Scenarios */

/* Interrupt, task and processor priority: a request is accepted if its class, vector / 16, is above PPR's; PPR's is the higher of TPR's and that of the highest vector in
   service. */
static void priorities(void)
{
    start("acceptance by class");
    CHECK(message(0x31, 0) == NONE && message(0x3f, 0) == NONE && message(0x2f, 0) == NONE);
    CHECK(accept() == one(0x3f));
    CHECK(accept() == NONE); /* 0x31 is of the class in service */
    CHECK(message(0x40, 0) == NONE && accept() == one(0x40));
    CHECK(apic[PPR] >> 4 == 4 && has(ISR, 0x40) && has(ISR, 0x3f) && !has(IRR, 0x40) && has(IRR, 0x31));
    CHECK(eoi() == NONE && apic[PPR] >> 4 == 3);
    CHECK(accept() == NONE);
    CHECK(eoi() == NONE && accept() == one(0x31) && eoi() == NONE && accept() == one(0x2f) && eoi() == NONE);
    CHECK(accept() == NONE && eoi() == NONE);

    start("PPR follows TPR");
    CHECK(tpr(0x4f) == NONE && apic[TPR] == 0x4f && apic[PPR] >> 4 == 4);
    CHECK(message(0x41, 0) == NONE && accept() == NONE);
    CHECK(tpr(0x3f) == NONE && accept() == one(0x41) && apic[PPR] >> 4 == 4);
    CHECK(tpr(0x60) == NONE && apic[PPR] >> 4 == 6);
    CHECK(message(0x6f, 0) == NONE && accept() == NONE);
    CHECK(tpr(0) == NONE && apic[PPR] >> 4 == 4 && accept() == one(0x6f));
    CHECK(tpr(0xfffffffffffffe12) == NONE && apic[TPR] == 0x12); /* TPR has eight bits */
}

/* Interrupt acceptance for fixed interrupts: TMR is set or cleared with the request. EOI: a level-triggered vector is broadcast. 82093AA, Remote IRR: the entry stays in
   flight until then, and is sent again while its line is up. */
static void lines_and_eois(void)
{
    start("from line to EOI");
    CHECK(entry(3, 0x8041) == NONE && line(3, 1) == two(0x41, 1));
    CHECK(has(IRR, 0x41) && has(TMR, 0x41) && !has(ISR, 0x41) && (io[3] & 0x4000) && io[30] == 8);
    CHECK(accept() == one(0x41) && !has(IRR, 0x41) && has(ISR, 0x41) && has(TMR, 0x41));
    CHECK(line(3, 1) == NONE); /* in flight */
    CHECK(eoi() == two(8, 8));  /* ended and sent again */
    CHECK(has(IRR, 0x41) && !has(ISR, 0x41) && accept() == one(0x41));
    CHECK(line(3, 0) == NONE && eoi() == two(8, 0) && !(io[3] & 0x4000));
    CHECK(accept() == NONE && eoi() == NONE);

    start("two lines with one vector");
    CHECK(entry(3, 0x8041) == NONE && entry(5, 0x8041) == NONE && line(3, 1) == two(0x41, 1) && line(5, 1) == two(0x41, 1));
    CHECK(accept() == one(0x41) && accept() == NONE && eoi() == two(40, 40) && accept() == one(0x41));
    CHECK(line(3, 0) == NONE && eoi() == two(40, 32) && accept() == one(0x41) && line(5, 0) == NONE && eoi() == two(32, 0));

    start("an edge-triggered line");
    CHECK(entry(7, 0x51) == NONE && line(7, 1) == two(0x51, 0) && !has(TMR, 0x51) && accept() == one(0x51) && eoi() == NONE);
    CHECK(line(7, 0) == NONE && line(7, 1) == two(0x51, 0) && accept() == one(0x51) && eoi() == NONE && accept() == NONE);
    CHECK(line(24, 1) == NONE && line(~(uint64_t)0, 1) == NONE); /* lines that there aren't */
}

static void edge_messages(void)
{
    start("an edge message takes the trigger bit");
    CHECK(entry(3, 0x8041) == NONE && line(3, 1) == two(0x41, 1));
    CHECK(message(0x41, 0) == NONE && has(IRR, 0x41) && !has(TMR, 0x41));
    CHECK(accept() == one(0x41) && eoi() == NONE && (io[3] & 0x4000)); /* not broadcast: the line is lost */
    CHECK(accept() == NONE);
    CHECK(write_at(EOI, 0x41) == two(8, 8) && has(TMR, 0x41)); /* the EOI register heals it */
    CHECK(accept() == one(0x41) && line(3, 0) == NONE && eoi() == two(8, 0));
    CHECK(message(0x41, 1) == NONE && has(TMR, 0x41) && accept() == one(0x41) && eoi() == NONE); /* broadcast: no entry has it in flight */
}

/* Valid interrupt vectors: 16 to 255. Error handling: receive illegal vector. */
static void vectors(void)
{
    start("vectors 16 to 31, and below");
    CHECK(message(15, 1) == NONE && apic[ERRORS] == 0x40 && !has(IRR, 15) && accept() == NONE);
    CHECK(message(0, 0) == NONE && apic[ERRORS] == 0x40 && accept() == NONE);
    for (unsigned v = 16; v < 32; v++)
        CHECK(message(v, 0) == NONE && has(IRR, v));
    for (unsigned v = 31; v >= 16; v--)
        CHECK(accept() == one(v) && apic[PPR] >> 4 == 1 && accept() == NONE && eoi() == NONE);
    CHECK(accept() == NONE && apic[ERRORS] == 0x40);
    CHECK(message(255, 0) == NONE && tpr(0xff) == NONE && accept() == NONE && tpr(0xef) == NONE && accept() == one(255) && eoi() == NONE);
    start("an entry below vector 16");
    CHECK(entry(0, 0x800f) == NONE && line(0, 1) == NONE && accept() == NONE && apic[ERRORS] == 0);
    CHECK(entry(0, 0x8010) == two(0x10, 1) && accept() == one(0x10) && line(0, 0) == NONE && eoi() == two(1, 0));
}

/* SVR bit 12, suppression of EOI broadcasts; and bit 8, the software disable, which stops nothing here (D-80). No call of the board writes SVR. */
static void svr(void)
{
    start("SVR");
    CHECK(apic[SVR] == 0xff && entry(3, 0x8041) == NONE && line(3, 1) == two(0x41, 1) && accept() == one(0x41) && eoi() == two(8, 8) && apic[SVR] == 0xff);
    apic[SVR] = 0x11ff;
    CHECK(accept() == one(0x41) && eoi() == NONE && (io[3] & 0x4000) && !has(ISR, 0x41) && apic[SVR] == 0x11ff);
    CHECK(write_at(EOI, 0x41) == two(8, 8)); /* such a guest writes the I/O APIC's register */
}

/* A write that sends (82093AA, Remote IRR; an unmasked level entry whose input is active is delivered), and what is refused. */
static void writes(void)
{
    start("a line that is masked while it is served");
    CHECK(entry(3, 0x18041) == NONE && line(3, 1) == NONE && write_at(WINDOW, 0x8041) == two(0x41, 1) && accept() == one(0x41));
    CHECK(write_at(WINDOW, 0x18041) == NONE && eoi() == two(8, 0) && accept() == NONE && write_at(WINDOW, 0x8041) == two(0x41, 1) && has(IRR, 0x41));
    start("refused");
    CHECK(message(0x41, 1) == NONE);
    uint64_t before_io[SILLWANDER_IOAPIC_WORDS], before[SILLWANDER_LAPIC_WORDS];
    memcpy(before_io, io, sizeof before_io), memcpy(before, apic, sizeof before);
    CHECK(sillwander_board_handle_write(io, apic, BASE, 1, 5) == refused(1) && sillwander_board_handle_write(io, apic, BASE, 2, 5) == refused(1));
    CHECK(sillwander_board_handle_write(io, apic, BASE, 260, 5) == refused(1) && sillwander_board_handle_write(io, apic, 0, 2, 5) == refused(1));
    CHECK(sillwander_board_handle_write(io, apic, BASE - 1, 4, 5) == refused(4) && sillwander_board_handle_write(io, apic, 0, 8, 5) == refused(4));
    CHECK(message(256, 1) == refused(5) && message(~(uint64_t)0, 0) == refused(5));
    CHECK(!memcmp(before_io, io, sizeof before_io) && !memcmp(before, apic, sizeof before));
}

/* ---- A model */

static struct {
    uint32_t low[GSIS];
    int up[GSIS], deferred[GSIS];
    unsigned char irr[256], isr[256], tmr[256];
    unsigned tpr, errors, gsi; /* gsi: the entry whose low word is selected */
} m;

static int highest(const unsigned char *set)
{
    for (int v = 255; v >= 16; v--)
        if (set[v])
            return v;
    return 0;
}
static unsigned priority_class(void) { unsigned a = m.tpr / 16, b = (unsigned)highest(m.isr) / 16; return a > b ? a : b; }
static void request(unsigned v, int level) { m.irr[v] = 1, m.tmr[v] = (unsigned char)level; }
static int is_fit(uint32_t w) { return !(w & 0x10700) && (w & 0xff) >= 16; }

/* Sending an entry: the code of what it sends. */
static uint64_t send(unsigned g)
{
    uint32_t w = m.low[g];
    if (!is_fit(w))
        return NONE;
    if (w & 0x8000) {
        if (w & 0x4000) {
            m.deferred[g] = 1;
            return NONE;
        }
        m.low[g] |= 0x4000;
    }
    request(w & 0xff, w >> 15 & 1);
    return two(w & 0xff, w >> 15 & 1);
}
static uint64_t model_line(unsigned g, int up)
{
    if (g >= GSIS)
        return NONE;
    int was_up = m.up[g];
    m.up[g] = up;
    if (!up) {
        m.deferred[g] = 0;
        return NONE;
    }
    if (was_up && (m.low[g] & 0x4000)) {
        m.deferred[g] = 1;
        return NONE;
    }
    return send(g);
}
static uint64_t model_end(unsigned v) /* in the I/O APIC */
{
    uint64_t ended = 0, sent = 0;
    for (unsigned g = 0; g < GSIS; g++)
        if ((m.low[g] & 0xc0ff) == (0xc000 | v)) {
            int again = m.up[g] || m.deferred[g];
            m.low[g] &= ~(uint32_t)0x4000, m.deferred[g] = 0;
            ended |= (uint64_t)1 << g;
            if (again && send(g) != NONE)
                sent |= (uint64_t)1 << g;
        }
    return ended ? two(ended, sent) : NONE;
}
static uint64_t model_low(uint32_t w)
{
    unsigned g = m.gsi;
    uint32_t old = m.low[g], flight = old & 0x4000;
    w &= ~(uint32_t)0x5000;
    if (w != (old & ~(uint32_t)0x5000) || (w & 0x10000))
        m.deferred[g] = 0;
    m.low[g] = w | (w & 0x8000 ? flight : 0);
    return (w & 0x8000) && m.up[g] && !(m.low[g] & 0x4000) ? send(g) : NONE;
}
static uint64_t model_accept(void)
{
    int v = highest(m.irr);
    if ((unsigned)v / 16 <= priority_class())
        return NONE;
    m.irr[v] = 0, m.isr[v] = 1;
    return one((uint64_t)v);
}
static uint64_t model_eoi(void)
{
    int v = highest(m.isr);
    if (!v)
        return NONE;
    m.isr[v] = 0;
    return m.tmr[v] ? model_end((unsigned)v) : NONE;
}

static int is_as_the_model(void)
{
    uint64_t deferred = 0, up = 0, flight = 0, set[3][8] = {{0}};
    int same = 1;
    for (unsigned g = 0; g < GSIS; g++) {
        same &= (uint32_t)io[g] == m.low[g];
        deferred |= (uint64_t)m.deferred[g] << g, up |= (uint64_t)m.up[g] << g, flight |= (uint64_t)(m.low[g] >> 14 & 1) << g;
    }
    for (unsigned v = 0; v < 256; v++) {
        set[0][v / 32] |= (uint64_t)m.isr[v] << (v % 32);
        set[1][v / 32] |= (uint64_t)m.tmr[v] << (v % 32);
        set[2][v / 32] |= (uint64_t)m.irr[v] << (v % 32);
    }
    return same && io[24] == deferred && io[25] == up && io[30] == flight && !memcmp(apic + ISR, set, sizeof set) && apic[TPR] == m.tpr
           && apic[PPR] / 16 == priority_class() && apic[ERRORS] == m.errors && apic[SVR] == 0xff;
}

static uint64_t state = 0x2545f4914f6cdd1d;
static uint64_t dice(uint64_t sides)
{
    state ^= state >> 12, state ^= state << 25, state ^= state >> 27;
    return (state * 0x2545f4914f6cdd1dull >> 33) % sides;
}

static unsigned long answered[6];

static void made_up_calls(void)
{
    static const unsigned char some[] = {0x0f, 0x10, 0x1f, 0x20, 0x30, 0x31, 0x41, 0x42, 0xff};
    for (unsigned run = 0; run < 400; run++) {
        start("made-up calls");
        memset(&m, 0, sizeof m);
        for (unsigned g = 0; g < GSIS; g++)
            m.low[g] = 0x10000;
        for (unsigned k = 0; k < 250; k++) {
            uint64_t code, wanted;
            unsigned v = some[dice(sizeof some)], kind = (unsigned)dice(6);
            if (kind == 0) {
                uint64_t g = dice(5), up = dice(2);
                code = line(g == 4 ? 24 : g, up), wanted = model_line(g == 4 ? 24 : (unsigned)g, (int)up);
            } else if (kind == 1) {
                code = accept(), wanted = model_accept();
            } else if (kind == 2) {
                code = eoi(), wanted = model_eoi();
            } else if (kind == 3) {
                m.tpr = dice(3) ? 0 : (unsigned)dice(256);
                code = tpr(m.tpr), wanted = NONE;
            } else if (kind == 4 && dice(4)) {
                m.gsi = (unsigned)dice(4);
                uint32_t low = v | (dice(4) ? 0x8000u : 0) | (dice(4) ? 0 : 0x10000u) | (dice(8) ? 0 : 0x400u) | (uint32_t)(dice(2) * 0x4000) | (uint32_t)(dice(2) * 0x1000);
                code = entry(m.gsi, low), wanted = model_low(low);
            } else if (kind == 4) {
                code = write_at(EOI, dice(256) << 8 | v), wanted = model_end(v);
            } else {
                int level = (int)dice(2);
                if (v < 16)
                    m.errors |= 0x40;
                else
                    request(v, level);
                code = message(v, (uint64_t)level), wanted = NONE;
            }
            answered[kind] += wanted != NONE;
            CHECK(code == wanted);
            CHECK(is_as_the_model());
        }
    }
    part = "what the made-up calls met";
    CHECK(answered[0] > 500 && answered[1] > 500 && answered[2] > 200 && answered[4] > 500);
}

/* ---- Words that no board has: nothing faults, and what isn't looked at stays. */
static void made_up_words(void)
{
    part = "made-up words";
    for (unsigned run = 0; run < 2000; run++) {
        for (unsigned k = 0; k < SILLWANDER_IOAPIC_WORDS; k++)
            io[k] = dice(2) ? dice((uint64_t)1 << 31) << 33 | dice((uint64_t)1 << 31) : dice(0x20000);
        for (unsigned k = 0; k < SILLWANDER_LAPIC_WORDS; k++)
            apic[k] = dice(2) ? dice((uint64_t)1 << 31) << 33 | dice((uint64_t)1 << 31) : 0;
        uint64_t spare = io[31], spares[6];
        memcpy(spares, apic + 42, sizeof spares);
        line(dice(30), dice(2)), accept(), eoi(), tpr(dice(256)), write_at(dice(2) ? WINDOW : EOI, dice(0x20000)), message(dice(300), dice(2)), eoi();
        CHECK(io[31] == spare && !memcmp(spares, apic + 42, sizeof spares));
    }
}

static uint64_t *lend(size_t count)
{
    unsigned char *pages = mmap(NULL, 2 * PAGE, PROT_READ | PROT_WRITE, MAP_PRIVATE | MAP_ANONYMOUS, -1, 0);
    if (pages == MAP_FAILED || mprotect(pages + PAGE, PAGE, PROT_NONE) != 0)
        return NULL;
    return (uint64_t *)(pages + PAGE) - count;
}

int main(void)
{
    io = lend(SILLWANDER_IOAPIC_WORDS), apic = lend(SILLWANDER_LAPIC_WORDS);
    if (io == NULL || apic == NULL)
        return 2;
    priorities();
    lines_and_eois();
    edge_messages();
    vectors();
    svr();
    writes();
    made_up_calls();
    made_up_words();
    printf("C board: %lu checks, %lu wrong\n", asked, wrong);
    return wrong == 0 ? 0 : 1;
}
