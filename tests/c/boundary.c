/*
 * The C boundary, called from C: the numbered examples of document 01, the other calls once each, the I/O APIC of version 0x20, every refusal, and made-up words.
 * What is expected was written from document 01 and from the header's text; in version 0x20, from the I/O Controller Hub's EOI register. The exit status is 0 only
 * if everything was as expected.
 *
 * The lent words of each chip end where a page ends that nobody may touch, so that a call which reads or writes behind them faults; what stands before
 * them is compared.
 */
#define _DEFAULT_SOURCE
#include "sillwander.h"
#include <stddef.h>
#include <stdint.h>
#include <stdio.h>
#include <string.h>
#include <sys/mman.h>

enum { PAGE = 4096, SHOWN = 20, NUMBERS = 6 };

/* ---- What was asked and what was answered */

static unsigned long asked, wrong;
static unsigned long seen[256]; /* how often each refusal number came up; 0: done */
static const char *part = "";

static void fault(int line, const char *text, const char *why)
{
    if (wrong++ < SHOWN)
        printf("boundary.c:%d: %s: %s %s\n", line, part, text, why);
}

static void check(int line, const char *text, int is_so)
{
    asked++;
    if (!is_so)
        fault(line, text, "isn't so");
}
#define CHECK(is_so) check(__LINE__, #is_so, (is_so))

typedef struct {
    unsigned refusal, count;
    uint32_t values[3];
} Answer;

static const Answer NONE = {0, 0, {0, 0, 0}};
static Answer one(uint32_t value) { return (Answer){0, 1, {value, 0, 0}}; }
static Answer two(uint32_t first, uint32_t second) { return (Answer){0, 2, {first, second, 0}}; }
static Answer three(uint32_t first, uint32_t second, uint32_t third) { return (Answer){0, 3, {first, second, third}}; }
static Answer refused(unsigned number) { return (Answer){number, 0, {0, 0, 0}}; }

/* A code as the header's macros read it. */
static Answer answer(uint64_t code)
{
    Answer said = {SILLWANDER_REFUSAL(code), SILLWANDER_COUNT(code), {0, 0, 0}};
    if (said.count == 1)
        said.values[0] = SILLWANDER_VALUE(code);
    for (unsigned k = 0; k < said.count && said.count == 2; k++)
        said.values[k] = SILLWANDER_OF_TWO(code, k);
    for (unsigned k = 0; k < said.count && said.count == 3; k++)
        said.values[k] = SILLWANDER_OF_THREE(code, k);
    return said;
}

/* The code that an answer has by the header's text. */
static uint64_t code_of(Answer said)
{
    static const unsigned bits[] = {0, 0, 24, 16}; /* from one value to the next, by their count */
    uint64_t code = (uint64_t)said.refusal << 56 | (uint64_t)said.count << 48;
    for (unsigned k = 0; k < said.count && k < 3; k++)
        code |= (uint64_t)said.values[k] << (k * bits[said.count % 4]);
    return code;
}

static void expect(int line, const char *text, uint64_t code, Answer wanted)
{
    asked++;
    seen[SILLWANDER_REFUSAL(code)]++;
    Answer got = answer(code);
    if (memcmp(&got, &wanted, sizeof got) == 0 && code == code_of(wanted))
        return;
    fault(line, text, "was answered otherwise:");
    if (wrong <= SHOWN)
        printf("    refusal %u, %u values: %u, %u, %u (code %lx); expected refusal %u, %u values: %u, %u, %u\n", got.refusal, got.count,
               got.values[0], got.values[1], got.values[2], (unsigned long)code, wanted.refusal, wanted.count, wanted.values[0],
               wanted.values[1], wanted.values[2]);
}
#define EXPECT(call, wanted) expect(__LINE__, #call, (call), (wanted))

/* ---- Lent words */

typedef struct {
    uint64_t *words;
    unsigned count;
    unsigned char *page;
    uint64_t before[SILLWANDER_LAPIC_WORDS];
} Lent;

/* So many words at the end of a page of their own, behind which nothing may be touched. */
static Lent lend(unsigned count)
{
    Lent lent = {NULL, count, NULL, {0}};
    unsigned char *pages = mmap(NULL, 2 * PAGE, PROT_READ | PROT_WRITE, MAP_PRIVATE | MAP_ANONYMOUS, -1, 0);
    if (pages == MAP_FAILED || mprotect(pages + PAGE, PAGE, PROT_NONE) != 0) {
        fault(__LINE__, "mmap", "gave no memory");
        return lent;
    }
    memset(pages, 0xa5, PAGE);
    lent.page = pages;
    lent.words = (uint64_t *)(void *)(pages + PAGE) - count;
    return lent;
}

static void remember(Lent *lent) { memcpy(lent->before, lent->words, lent->count * sizeof *lent->words); }

static int is_as_before(const Lent *lent)
{
    return memcmp(lent->before, lent->words, lent->count * sizeof *lent->words) == 0;
}

static int nothing_before_it_was_touched(const Lent *lent)
{
    for (const unsigned char *at = lent->page; at < (const unsigned char *)lent->words; at++)
        if (*at != 0xa5)
            return 0;
    return 1;
}

static Lent io_lent, pic_lent, lapic_lent, ipi_lent, range_lent, ranges_lent;
static uint64_t *io, *pic, *lapic, *ipi, *range, *ranges;

static int lend_all(void)
{
    io_lent = lend(SILLWANDER_IOAPIC_WORDS), pic_lent = lend(SILLWANDER_PIC_WORDS), lapic_lent = lend(SILLWANDER_LAPIC_WORDS);
    ipi_lent = lend(1), range_lent = lend(2), ranges_lent = lend(4);
    io = io_lent.words, pic = pic_lent.words, lapic = lapic_lent.words;
    ipi = ipi_lent.words, range = range_lent.words, ranges = ranges_lent.words;
    return wrong == 0;
}

/* A new machine of document 01's rules: the I/O APIC of version 0x11 at its usual place, the pair by rule 0, and the local APIC of vCPU 0. */
static void start(const char *name)
{
    part = name;
    EXPECT(sillwander_ioapic_new_default_version(io, 0x11), NONE);
    EXPECT(sillwander_pic_new_rule(pic, 0), NONE);
    EXPECT(sillwander_lapic_new(lapic), NONE);
}

/* A refused call, and what was lent is as it was. */
#define REFUSED(lent, call, number)                                                                                                        \
    do {                                                                                                                                   \
        remember(&lent);                                                                                                                   \
        EXPECT(call, refused(number));                                                                                                     \
        check(__LINE__, "after " #call ": " #lent " as before", is_as_before(&lent));                                                      \
    } while (0)

/* A call that is done, answers nothing and changes nothing. */
#define IDLE(lent, call)                                                                                                                   \
    do {                                                                                                                                   \
        remember(&lent);                                                                                                                   \
        EXPECT(call, NONE);                                                                                                                \
        check(__LINE__, "after " #call ": " #lent " as before", is_as_before(&lent));                                                      \
    } while (0)

/* ---- Short names for the calls that the examples make */

static const uint64_t BASE = 0xfec00000;
static const uint64_t HIGH = (uint64_t)1 << 32;
static uint64_t select_register(uint64_t number) { return sillwander_ioapic_handle_write(io, BASE, 4, number); }
static uint64_t window(uint64_t word) { return sillwander_ioapic_handle_write(io, BASE + 0x10, 4, word); }
static uint64_t look(void) { return sillwander_ioapic_handle_read(io, BASE + 0x10, 4); }
static uint64_t line(uint64_t gsi, uint64_t up) { return sillwander_ioapic_set_gsi_level(io, gsi, up); }
static uint64_t io_eoi(uint64_t vector) { return sillwander_ioapic_end_of_interrupt(io, vector); }
static uint64_t outb(uint64_t port, uint64_t byte) { return sillwander_pic_handle_write(pic, port, 1, byte); }
static uint64_t inb(uint64_t port) { return sillwander_pic_handle_read(pic, port, 1); }
static uint64_t claim(uint64_t irq) { return sillwander_pic_claim_irq(pic, irq); }
static uint64_t pending(void) { return sillwander_pic_claim_pending_interrupt(pic); }
static uint64_t load(uint64_t offset) { return sillwander_lapic_handle_read(lapic, offset); }
static uint64_t store(uint64_t offset, uint64_t word) { return sillwander_lapic_handle_write(lapic, offset, word, 4, 1, 1, ipi); }
static uint64_t local_eoi(void) { return sillwander_lapic_handle_eoi(lapic); }

/* ---- Document 01, "Numbered examples" */

static void examples_of_the_io_apic(void)
{
    start("example 1");
    EXPECT(select_register(0x10), NONE);
    EXPECT(look(), one(65536));
    EXPECT(select_register(0x40), NONE);
    EXPECT(look(), one(0));

    start("example 2");
    EXPECT(select_register(0x14), NONE);
    EXPECT(window(0x8030), NONE);
    EXPECT(line(2, 1), two(0x30, 1));
    EXPECT(look(), one(0xc030));
    EXPECT(line(2, 1), NONE);
    EXPECT(io_eoi(0x30), three(2, 0x30, 1));
    EXPECT(line(2, 0), NONE);
    EXPECT(io_eoi(0x30), one(2));
    EXPECT(io_eoi(0x30), NONE);

    start("example 3");
    EXPECT(select_register(0x14), NONE);
    EXPECT(window(0x8030), NONE);
    EXPECT(line(2, 1), two(0x30, 1));
    EXPECT(window(0x8030), NONE);
    EXPECT(look(), one(0xc030));
    EXPECT(window(0x18030), NONE);
    EXPECT(look(), one(0x18030));
    EXPECT(io_eoi(0x30), NONE);

    start("example 4");
    EXPECT(select_register(0x16), NONE);
    EXPECT(window(0x8041), NONE);
    EXPECT(select_register(0x1a), NONE);
    EXPECT(window(0x8041), NONE);
    EXPECT(line(3, 1), two(0x41, 1));
    EXPECT(line(5, 1), two(0x41, 1));
    for (int again = 0; again < 5; again++)
        EXPECT(io_eoi(0x41), three(3, 0x41, 1));
    CHECK(io[3] == 0xc041 && io[5] == 0xc041 && io[24] == 0 && io[25] == 0x28);

    start("example 5");
    EXPECT(select_register(0x10), NONE);
    EXPECT(window(15), NONE);
    EXPECT(sillwander_ioapic_assert_gsi(io, 0), NONE);
    EXPECT(window(16), NONE);
    EXPECT(sillwander_ioapic_assert_gsi(io, 0), two(16, 0));

    start("example 6");
    REFUSED(io_lent, sillwander_ioapic_handle_read(io, BASE - 1, 2), SILLWANDER_UNSUPPORTED);
    REFUSED(io_lent, sillwander_ioapic_handle_read(io, BASE - 1, 4), SILLWANDER_INVALID_ADDRESS);
    REFUSED(io_lent, sillwander_ioapic_handle_write(io, BASE - 1, 2, 0), SILLWANDER_UNSUPPORTED);
    REFUSED(io_lent, sillwander_ioapic_handle_write(io, BASE - 1, 4, 0), SILLWANDER_INVALID_ADDRESS);
}

static void open_masks(void)
{
    EXPECT(outb(0x21, 0), NONE);
    EXPECT(outb(0xa1, 0), NONE);
}

/* The code of a claim, by the header's layout. */
static uint64_t claim_code(uint64_t vector, uint64_t irq, uint64_t flags)
{
    return 3ULL << 48 | flags << 32 | irq << 16 | vector;
}

static void examples_of_the_pair(void)
{
    start("example 7");
    open_masks();
    EXPECT(claim(12), three(0x74, 12, 3));
    EXPECT(claim(13), NONE);
    EXPECT(claim(14), NONE);
    EXPECT(outb(0xa0, 0x20), NONE);
    EXPECT(outb(0x20, 0x20), NONE);
    EXPECT(pending(), three(0x75, 13, 3));
    EXPECT(outb(0xa0, 0x20), NONE);
    EXPECT(outb(0x20, 0x20), NONE);
    EXPECT(pending(), NONE);
    EXPECT(inb(0xa0), one(0x40));

    start("example 8");
    open_masks();
    EXPECT(claim(2), three(0x0a, 2, 1));
    EXPECT(sillwander_pic_restore_interrupt(pic, claim_code(0x0a, 2, 1)), NONE);
    CHECK((pic[0] >> 16 & 0xff) == 4);
    CHECK((pic[0] >> 24 & 0xff) == 0);
    EXPECT(inb(0x20), one(4));
    EXPECT(outb(0x20, 0x0b), NONE);
    EXPECT(inb(0x20), one(0));

    start("example 9");
    EXPECT(outb(0x20, 0x11), NONE);
    EXPECT(outb(0x21, 0x20), NONE);
    EXPECT(outb(0x21, 4), NONE);
    EXPECT(outb(0x21, 1), NONE);
    CHECK((pic[0] & 0xff) == 0x20);
    CHECK((pic[0] >> 8 & 0xff) == 255);
    EXPECT(inb(0x21), one(255));
}

static void examples_of_the_local_apic(void)
{
    start("example 10");
    EXPECT(store(0x80, 0x2f), NONE);
    EXPECT(sillwander_lapic_accept_interrupt(lapic, 0x31, 1), NONE);
    EXPECT(load(0xa0), one(0x30));
    EXPECT(local_eoi(), one(0x31));
    start("example 10, TPR before");
    EXPECT(store(0x80, 0x35), NONE);
    EXPECT(sillwander_lapic_accept_interrupt(lapic, 0x31, 1), NONE);
    EXPECT(load(0xa0), one(0x35));
    EXPECT(local_eoi(), one(0x31));

    start("example 11");
    EXPECT(sillwander_lapic_accept_interrupt(lapic, 0x1f, 1), NONE);
    EXPECT(local_eoi(), NONE);
    EXPECT(load(0x100), one(0x80000000));

    start("example 12");
    EXPECT(store(0x300, 15), NONE);
    EXPECT(store(0x280, 0), NONE);
    EXPECT(load(0x280), one(0x20));
}

/* ---- The calls that the examples don't make */

static void other_calls(void)
{
    start("the I/O APIC's other calls");
    EXPECT(sillwander_ioapic_address_range(io, range), NONE);
    CHECK(range[0] == 0xfec00000 && range[1] == 0xfec01000);
    EXPECT(sillwander_ioapic_new(io, 0xffffffffffffff00, 0xff), NONE);
    EXPECT(sillwander_ioapic_address_range(io, range), NONE);
    CHECK(range[0] == 0xffffffffffffff00 && range[1] == UINT64_MAX);
    EXPECT(sillwander_ioapic_new(io, BASE, 0), NONE);
    EXPECT(sillwander_ioapic_vector_for_gsi(io, 7), NONE);
    EXPECT(select_register(0x1e), NONE);
    EXPECT(window(0x41), NONE);
    EXPECT(sillwander_ioapic_vector_for_gsi(io, 7), one(0x41));
    EXPECT(window(0x141), NONE);
    EXPECT(sillwander_ioapic_vector_for_gsi(io, 7), NONE);
    EXPECT(select_register(0x1f), NONE);
    EXPECT(sillwander_ioapic_handle_write(io, BASE + 0x10, 8, 0x123456789abcdef0), NONE);
    EXPECT(look(), one(0x9abcdef0));
    CHECK(io[7] == 0x9abcdef000000141);
    EXPECT(line(2, 1000), NONE);
    CHECK(io[25] == 4);

    start("the pair's other calls");
    EXPECT(sillwander_pic_port_ranges(ranges), NONE);
    CHECK(ranges[0] == 0x20 && ranges[1] == 0x21 && ranges[2] == 0xa0 && ranges[3] == 0xa1);
    open_masks();
    EXPECT(sillwander_pic_pulse_irq(pic, 4), one(0x0c));
    EXPECT(sillwander_pic_pulse_irq(pic, 5), NONE);
    EXPECT(sillwander_pic_next_interrupt(pic), NONE);
    EXPECT(outb(0x20, 0x20), NONE);
    EXPECT(sillwander_pic_next_interrupt(pic), one(0x0d));
    EXPECT(sillwander_pic_handle_write(pic, 0x21, 1, 0x1234), NONE);
    EXPECT(inb(0x21), one(0x34));

    start("the local APIC's other calls");
    ipi[0] = 77;
    EXPECT(sillwander_lapic_setup(lapic, 5, 3, 64), NONE);
    EXPECT(load(0x20), one(3));
    EXPECT(sillwander_lapic_handle_write(lapic, 0x3f0, 0x1242, 4, 8, 0, ipi), two(0, 0x42));
    CHECK(ipi[0] == 8);
    EXPECT(sillwander_lapic_handle_write(lapic, 0x300, 0x40042, 8, 8, 0, ipi), two(0, 0x42));
    CHECK(ipi[0] == 8);
    EXPECT(sillwander_lapic_setup(lapic, 0, 3, 64), NONE);
    EXPECT(load(0x20), one(0x03000000));
    EXPECT(sillwander_lapic_handle_write(lapic, 0x300, 0xc0442, 4, 8, 0x3ff, ipi), two(4, 0x42));
    CHECK(ipi[0] == 0xf7);
    EXPECT(sillwander_lapic_handle_write(lapic, 0x300, 0xc0542, 4, 64, UINT64_MAX, ipi), two(5, 0x42));
    CHECK(ipi[0] == (UINT64_MAX ^ 8));
    EXPECT(sillwander_lapic_handle_write(lapic, 0x300, 0xc0642, 4, 64, 1, ipi), two(6, 0x42));
    CHECK(ipi[0] == 1);
    EXPECT(sillwander_lapic_handle_write(lapic, 0x300, 0x80442, 4, 64, 1, ipi), NONE);
    EXPECT(sillwander_lapic_handle_write(lapic, 0x300, 0xc0042, 4, 64, 8, ipi), NONE);
    CHECK(ipi[0] == 1);
    EXPECT(sillwander_lapic_accept_interrupt(lapic, 0x51, 0), NONE);
    EXPECT(sillwander_lapic_accept_interrupt(lapic, 0xff, 256), NONE);
    EXPECT(load(0x1f0), one(0x80000000));
    EXPECT(store(0xb0, 0), NONE);
    EXPECT(local_eoi(), NONE);
    EXPECT(local_eoi(), NONE);
    EXPECT(load(0x120), one(0));
}

/* ---- The I/O APIC of version 0x20: an EOI ends every level-triggered entry in flight with the vector, and sends those whose line is up or that were deferred */

static uint64_t eoi_register(uint64_t vector) { return sillwander_ioapic_handle_write(io, BASE + 0x40, 4, vector); }

/* A new one of version 0x20, with a low word for each of the lines of a set, whose lines then go up in turn. */
static void start_20(const char *name, uint32_t lines, uint32_t low)
{
    part = name;
    EXPECT(sillwander_ioapic_new_version(io, BASE, 0x1000, 0x20), NONE);
    for (unsigned gsi = 0; gsi < 24; gsi++)
        if (lines >> gsi & 1) {
            EXPECT(select_register(0x10 + 2 * gsi), NONE);
            EXPECT(window(low), NONE);
            EXPECT(line(gsi, 1), two(low & 0xff, 1));
        }
}

static void shared_vectors(void)
{
    /* last spring's lines: example 4 in version 0x20 */
    start_20("two held lines", 0x28, 0x8041);
    for (int again = 0; again < 5; again++)
        EXPECT(io_eoi(0x41), two(0x28, 0x28));
    CHECK(io[3] == 0xc041 && io[5] == 0xc041 && io[24] == 0 && io[25] == 0x28);

    start_20("three held lines", 0x800401, 0x8041);
    EXPECT(io_eoi(0x41), two(0x800401, 0x800401));
    EXPECT(io_eoi(0x42), NONE);
    EXPECT(line(10, 0), NONE);
    EXPECT(io_eoi(0x41), two(0x800401, 0x800001));
    CHECK(io[0] == 0xc041 && io[10] == 0x8041 && io[23] == 0xc041 && io[25] == 0x800001);
    EXPECT(io_eoi(0x41), two(0x800001, 0x800001));
    EXPECT(line(0, 0), NONE);
    EXPECT(line(23, 0), NONE);
    EXPECT(io_eoi(0x41), two(0x800001, 0));
    EXPECT(io_eoi(0x41), NONE);

    start_20("24 held lines", 0xffffff, 0x80ff);
    for (int again = 0; again < 3; again++) {
        EXPECT(io_eoi(0xff), two(0xffffff, 0xffffff));
        EXPECT(eoi_register(0xff), two(0xffffff, 0xffffff));
    }
    for (unsigned gsi = 0; gsi < 24; gsi++) {
        CHECK(io[gsi] == 0xc0ff);
        EXPECT(line(gsi, 0), NONE);
    }
    EXPECT(io_eoi(0xff), two(0xffffff, 0));
    IDLE(io_lent, io_eoi(0xff));
    for (unsigned gsi = 0; gsi < 24; gsi++)
        CHECK(io[gsi] == 0x80ff);
}

static void put_off_and_dropped(void)
{
    start_20("dropped before the EOI", 0x28, 0x8041);
    EXPECT(line(3, 0), NONE);
    EXPECT(io_eoi(0x41), two(0x28, 0x20));
    CHECK(io[3] == 0x8041 && io[5] == 0xc041 && io[25] == 0x20);
    EXPECT(io_eoi(0x41), two(0x20, 0x20));
    EXPECT(line(3, 1), two(0x41, 1));
    EXPECT(io_eoi(0x41), two(0x28, 0x28));

    start_20("deferred by a second raise", 0x28, 0x8041);
    EXPECT(line(3, 1), NONE);
    CHECK(io[24] == 8);
    EXPECT(io_eoi(0x41), two(0x28, 0x28)); /* once each */
    CHECK(io[24] == 0 && io[3] == 0xc041);
    EXPECT(line(5, 1), NONE);
    EXPECT(line(5, 0), NONE); /* which takes back what was deferred */
    CHECK(io[24] == 0);
    EXPECT(io_eoi(0x41), two(0x28, 8));

    part = "deferred, the line down";
    EXPECT(sillwander_ioapic_new_version(io, BASE, 0x1000, 0x20), NONE);
    EXPECT(select_register(0x18), NONE);
    EXPECT(window(0x8041), NONE);
    EXPECT(sillwander_ioapic_assert_gsi(io, 4), two(0x41, 1));
    EXPECT(sillwander_ioapic_assert_gsi(io, 4), NONE);
    CHECK(io[24] == 0x10 && io[25] == 0);
    EXPECT(io_eoi(0x41), two(0x10, 0x10));
    CHECK(io[24] == 0 && io[4] == 0xc041);
    EXPECT(io_eoi(0x41), two(0x10, 0));
    EXPECT(io_eoi(0x41), NONE);

    /* entries that end but can't be sent, lines up and deferred: masked, not fixed, a vector below 16; and those that don't end: edge, not in flight, another vector */
    start_20("ended and not fit to be sent", 1, 0x8041);
    io[1] = 0x1c041, io[2] = 0xc141, io[3] = 0x4041, io[4] = 0x8041, io[5] = 0xc042, io[6] = 0xff0000000000c041, io[24] = 0x7e, io[25] = 0x7f;
    io[30] = 0x6f;
    EXPECT(io_eoi(0x41), two(0x47, 0x41));
    CHECK(io[0] == 0xc041 && io[1] == 0x18041 && io[2] == 0x8141 && io[3] == 0x4041 && io[4] == 0x8041 && io[5] == 0xc042);
    CHECK(io[6] == 0xff0000000000c041 && io[24] == 0x38 && io[25] == 0x7f && io[30] == 0x69);
    io[7] = 0xc00f, io[25] = 0xff, io[30] = 0xe9;
    EXPECT(io_eoi(15), two(0x80, 0));
    CHECK(io[7] == 0x800f && io[30] == 0x69);

    /* word 30 made up: an EOI passes over an entry in flight whose bit is missing, and a bit above the table names nothing */
    for (unsigned version = 0x11; version <= 0x20; version += 0xf) {
        start_20("lines in flight made up", 0x28, 0x8041);
        io[29] = version, io[30] = (uint64_t)0xffffffffff << 24;
        IDLE(io_lent, io_eoi(0x41));
        io[30] = UINT64_MAX, io[25] = 0;
        EXPECT(io_eoi(0x41), version == 0x20 ? two(0x28, 0) : one(3));
        CHECK(io[3] == 0x8041 && io[30] == (version == 0x20 ? ~(uint64_t)0x28 : ~(uint64_t)8));
    }
}

static void eoi_registers(void)
{
    start_20("the EOI register", 0x28, 0x8041);
    EXPECT(eoi_register(0x41), two(0x28, 0x28));
    EXPECT(io_eoi(0x41), two(0x28, 0x28));
    EXPECT(sillwander_ioapic_handle_write(io, BASE + 0x40, 8, 0x41), two(0x28, 0x28));
    EXPECT(eoi_register(0xffffffffffffff41), two(0x28, 0x28)); /* the low 8 bits */
    EXPECT(line(5, 0), NONE);
    EXPECT(eoi_register(0x141), two(0x28, 8));
    EXPECT(line(3, 0), NONE);
    EXPECT(eoi_register(0x41), two(8, 0));
    IDLE(io_lent, eoi_register(0x41));
    IDLE(io_lent, io_eoi(0x41));
    EXPECT(line(3, 1), two(0x41, 1));
    IDLE(io_lent, sillwander_ioapic_handle_write(io, BASE + 0x41, 4, 0x41));
    IDLE(io_lent, sillwander_ioapic_handle_write(io, BASE + 0x44, 4, 0x41));
    IDLE(io_lent, sillwander_ioapic_handle_write(io, BASE + HIGH + 0x40, 4, 0x41));
    REFUSED(io_lent, sillwander_ioapic_handle_write(io, BASE + 0x40, 2, 0x41), SILLWANDER_UNSUPPORTED);
    REFUSED(io_lent, io_eoi(256 + 0x41), SILLWANDER_OUT_OF_RANGE);
    EXPECT(sillwander_ioapic_handle_read(io, BASE + 0x40, 4), one(0));
    CHECK(io[3] == 0xc041);

    start("the EOI register in version 0x11");
    EXPECT(select_register(0x16), NONE);
    EXPECT(window(0x8041), NONE);
    EXPECT(line(3, 1), two(0x41, 1));
    IDLE(io_lent, eoi_register(0x41));
    EXPECT(io_eoi(0x41), three(3, 0x41, 1));
}

/* Bits 12 and 14 of a low word are read-only (82093AA). A guest masks a line while its handler runs, and unmasks it after the EOI. */
static void masked_in_flight(void)
{
    start_20("masked, ended, unmasked", 8, 0x8041);
    EXPECT(window(0x18041), NONE);
    CHECK(io[3] == 0x1c041 && io[30] == 8);
    EXPECT(look(), one(0x1c041));
    EXPECT(io_eoi(0x41), two(8, 0));
    CHECK(io[3] == 0x18041 && io[30] == 0);
    EXPECT(window(0x8041), two(0x41, 1)); /* the line is up still */
    CHECK(io[3] == 0xc041 && io[30] == 8);
    IDLE(io_lent, window(0x8041)); /* once */
    EXPECT(io_eoi(0x41), two(8, 8));

    start_20("masked, unmasked, ended", 8, 0x8041);
    EXPECT(window(0x18041), NONE);
    EXPECT(window(0x8041), NONE);
    EXPECT(io_eoi(0x41), two(8, 8));
    EXPECT(window(0x18041), NONE);
    EXPECT(line(3, 0), NONE);
    EXPECT(io_eoi(0x41), two(8, 0));
    EXPECT(window(0x8041), NONE); /* the line is down */
    EXPECT(window(0x18041), NONE);
    EXPECT(line(3, 1), NONE);
    EXPECT(window(0x8041), two(0x41, 1)); /* raised while masked */

    start_20("other low words", 8, 0x8041);
    EXPECT(window(0x41), NONE);
    CHECK(io[3] == 0x41 && io[30] == 0); /* edge: Remote IRR goes, and nothing is sent */
    EXPECT(window(0xd041), two(0x41, 1));
    CHECK(io[3] == 0xc041); /* neither bit 12 nor 14 is the guest's */
    EXPECT(window(0x8141), NONE);
    CHECK(io[3] == 0xc141 && io[30] == 8);
    EXPECT(io_eoi(0x41), two(8, 0)); /* not fixed: cleared, and not sent */
    EXPECT(window(0x800f), NONE);
    EXPECT(window(0x8010), two(0x10, 1));
    EXPECT(window(0x8042), NONE);
    EXPECT(io_eoi(0x10), NONE);
    EXPECT(io_eoi(0x42), two(8, 8)); /* the vector that stands there now */

    start_20("deferred and the low word", 8, 0x8041);
    EXPECT(line(3, 1), NONE);
    EXPECT(window(0xd041), NONE);
    CHECK(io[24] == 8); /* the same word */
    EXPECT(window(0x8043), NONE);
    CHECK(io[24] == 0 && io[3] == 0xc043);
    EXPECT(line(3, 1), NONE);
    EXPECT(window(0x18043), NONE);
    CHECK(io[24] == 0);
    EXPECT(line(3, 1), NONE);
    CHECK(io[24] == 8 && io[3] == 0x1c043);
    EXPECT(window(0x18043), NONE);
    CHECK(io[24] == 0 && io[3] == 0x1c043); /* the same word, but masked */

    start_20("a high word", 8, 0x8041);
    EXPECT(window(0x18041), NONE);
    EXPECT(io_eoi(0x41), two(8, 0));
    io[3] = 0x8041; /* made up: owed its interrupt */
    EXPECT(select_register(0x17), NONE);
    EXPECT(window(0x1000000), NONE);
    CHECK(io[3] == 0x100000000008041);
    EXPECT(select_register(0x16), NONE);
    EXPECT(window(0x8041), two(0x41, 1)); /* the same low word sends what is owed */
    io[3] |= 0x1000;
    EXPECT(look(), one(0xc041)); /* bit 12 reads 0 */

    start("masked, ended, unmasked in version 0x11");
    EXPECT(select_register(0x16), NONE);
    EXPECT(window(0x8041), NONE);
    EXPECT(line(3, 1), two(0x41, 1));
    EXPECT(window(0x19041), NONE);
    EXPECT(look(), one(0x19041));
    EXPECT(io_eoi(0x41), NONE);
    EXPECT(window(0x8041), NONE);
}

static void versions(void)
{
    start("version words");
    EXPECT(select_register(1), NONE);
    EXPECT(look(), one(0x00170011));
    EXPECT(sillwander_ioapic_new_version(io, BASE, 0x1000, 0x20), NONE);
    CHECK(io[27] == BASE && io[28] == 0x1000 && io[29] == 0x20 && io[30] == 0 && io[31] == 0);
    EXPECT(select_register(1), NONE);
    EXPECT(look(), one(0x00170020));
    IDLE(io_lent, window(0x11));
    EXPECT(look(), one(0x00170020));
    const uint64_t as_11[] = {0, 0x11, 0x1f, 0x21, 256 + 0x20, HIGH + 0x20, UINT64_MAX};
    for (unsigned k = 0; k < sizeof as_11 / sizeof *as_11; k++) {
        io[29] = as_11[k];
        EXPECT(look(), one(0x00170011));
    }
    /* Without a version it is 0x20; by name it is either, and all else is the same. */
    EXPECT(sillwander_ioapic_new_default(io), NONE);
    CHECK(io[29] == 0x20);
    remember(&io_lent);
    memset(io, 0xff, SILLWANDER_IOAPIC_WORDS * 8);
    EXPECT(sillwander_ioapic_new(io, BASE, 0x1000), NONE);
    CHECK(is_as_before(&io_lent));
    const uint64_t versions[] = {0x20, 0x11};
    for (unsigned k = 0; k < 2; k++) {
        io_lent.before[29] = versions[k];
        memset(io, 0xff, SILLWANDER_IOAPIC_WORDS * 8);
        EXPECT(sillwander_ioapic_new_version(io, BASE, 0x1000, versions[k]), NONE);
        CHECK(is_as_before(&io_lent));
        memset(io, 0xff, SILLWANDER_IOAPIC_WORDS * 8);
        EXPECT(sillwander_ioapic_new_default_version(io, versions[k]), NONE);
        CHECK(is_as_before(&io_lent));
    }

    start_20("refused versions", 0x28, 0x8041);
    const uint64_t others[] = {0, 1, 0x10, 0x12, 0x1f, 0x21, 256 + 0x11, 256 + 0x20, HIGH + 0x20, 0x00170020, UINT64_MAX};
    for (unsigned k = 0; k < sizeof others / sizeof *others; k++) {
        REFUSED(io_lent, sillwander_ioapic_new_version(io, BASE, 0x1000, others[k]), SILLWANDER_UNSUPPORTED);
        REFUSED(io_lent, sillwander_ioapic_new_version(io, 1, UINT64_MAX, others[k]), SILLWANDER_UNSUPPORTED);
        REFUSED(io_lent, sillwander_ioapic_new_default_version(io, others[k]), SILLWANDER_UNSUPPORTED);
    }
    REFUSED(io_lent, sillwander_ioapic_new_version(io, 1, UINT64_MAX, 0x20), SILLWANDER_INVALID_ADDRESS);
    REFUSED(io_lent, sillwander_ioapic_new_version(io, UINT64_MAX, 1, 0x11), SILLWANDER_INVALID_ADDRESS);
    EXPECT(sillwander_ioapic_new_version(io, UINT64_MAX, 0, 0x20), NONE);
    EXPECT(sillwander_ioapic_address_range(io, range), NONE);
    CHECK(range[0] == UINT64_MAX && range[1] == UINT64_MAX);
}

/* ---- Refusals: each leaves what was lent as it was. Numbers that don't fit are refused, and not cut. */

/* Rule 1, the 8259A's cascade: examples 7 and 8 end otherwise. */
static void cascade_rule(void)
{
    start("example 7 by rule 1");
    EXPECT(sillwander_pic_new_rule(pic, 1), NONE);
    CHECK(pic[2] == 1 && pic[3] == 0);
    open_masks();
    EXPECT(claim(12), three(0x74, 12, 3));
    EXPECT(claim(13), NONE);
    EXPECT(claim(14), NONE);
    EXPECT(outb(0xa0, 0x20), NONE);
    EXPECT(outb(0x20, 0x20), NONE);
    EXPECT(pending(), three(0x75, 13, 3));
    EXPECT(outb(0xa0, 0x20), NONE);
    EXPECT(inb(0x20), one(4)); /* the slave asks again */
    EXPECT(outb(0x20, 0x20), NONE);
    EXPECT(pending(), three(0x76, 14, 3));
    EXPECT(inb(0x20), one(0));
    EXPECT(inb(0xa0), one(0));

    start("example 8 by rule 1");
    EXPECT(sillwander_pic_new_rule(pic, 1), NONE);
    open_masks();
    IDLE(pic_lent, claim(2));
    IDLE(pic_lent, sillwander_pic_pulse_irq(pic, 2));
    EXPECT(inb(0x20), one(0));

    start("a claim restored at once, by rule 1");
    EXPECT(sillwander_pic_new_rule(pic, 1), NONE);
    open_masks();
    EXPECT(outb(0xa1, 0x10), NONE); /* line 12 is masked */
    EXPECT(claim(12), NONE);
    EXPECT(inb(0x20), one(0));
    EXPECT(claim(13), three(0x75, 13, 3));
    EXPECT(sillwander_pic_restore_interrupt(pic, claim_code(0x75, 13, 3)), NONE);
    EXPECT(inb(0xa0), one(0x30));
    EXPECT(inb(0x20), one(4));
    CHECK((pic[0] >> 24 & 0xff) == 0 && (pic[1] >> 24 & 0xff) == 0);
    EXPECT(outb(0xa1, 0x30), NONE); /* masked, it no longer counts; unmasked, it does */
    EXPECT(inb(0x20), one(0));
    EXPECT(outb(0xa1, 0), NONE);
    EXPECT(inb(0x20), one(4));
    EXPECT(outb(0x20, 0x11), NONE); /* ICW1 clears the master's requests, and the slave still asks */
    EXPECT(inb(0x20), one(4));
    EXPECT(outb(0xa0, 0x11), NONE);
    EXPECT(inb(0x20), one(0));

    start("a pair that breaks the rule");
    EXPECT(sillwander_pic_new_rule(pic, 1), NONE);
    open_masks();
    pic[0] |= 1 << 18;
    EXPECT(pending(), three(0x0a, 2, 1));
    EXPECT(sillwander_pic_restore_interrupt(pic, claim_code(0x0a, 2, 1)), NONE);
    CHECK((pic[0] >> 16 & 0xffff) == 0);

    start("rules");
    memset(pic, 0xff, SILLWANDER_PIC_WORDS * 8);
    EXPECT(sillwander_pic_new_rule(pic, 1), NONE);
    CHECK(pic[2] == 1 && pic[3] == 0);
    remember(&pic_lent);
    memset(pic, 0xff, SILLWANDER_PIC_WORDS * 8);
    EXPECT(sillwander_pic_new(pic), NONE); /* rule 1, where none is named */
    CHECK(is_as_before(&pic_lent));
    memset(pic, 0xff, SILLWANDER_PIC_WORDS * 8);
    EXPECT(sillwander_pic_new_rule(pic, 0), NONE);
    CHECK(pic[2] == 0 && pic[3] == 0);
    pic[2] = HIGH + 1; /* any number but 1 and 2 is rule 0 */
    open_masks();
    EXPECT(claim(2), three(0x0a, 2, 1));
    uint64_t others[] = {3, 4, 0x11, 256, 257, HIGH, HIGH + 1, UINT64_MAX};
    for (unsigned k = 0; k < sizeof others / sizeof *others; k++)
        REFUSED(pic_lent, sillwander_pic_new_rule(pic, others[k]), SILLWANDER_UNSUPPORTED);
}

/* The highest line of a set after the lowest, going round. */
static unsigned first_after(unsigned lowest, unsigned lines)
{
    unsigned line = lowest;
    do
        line = (line + 1) % 8;
    while (!(lines >> line & 1));
    return line;
}

/* Rule 2, the full 8259A profile: each OCW2 command from each lowest line. */
static void rotating_priorities(void)
{
    start("the full profile");
    EXPECT(sillwander_pic_new_rule(pic, 2), NONE);
    CHECK(pic[0] == 0xff08 && pic[1] == 0xff70 && pic[2] == 2 && pic[3] == 0);
    for (unsigned lowest = 0; lowest < 8; lowest++)
        for (unsigned command = 0; command < 8; command++)
            for (unsigned line = 0; line < 8; line++) {
                EXPECT(outb(0x20, 0x11), NONE); /* ICW1: line 7 is lowest, nothing requested or in service */
                CHECK(pic[0] >> 44 == 0);
                EXPECT(outb(0x21, 0x08), NONE);
                EXPECT(outb(0x21, 4), NONE);
                EXPECT(outb(0x21, 1), NONE);
                EXPECT(outb(0x21, 0), NONE);
                EXPECT(outb(0x20, 0xc0 + lowest), NONE);
                CHECK(pic[0] >> 44 == (lowest + 1) % 8);
                EXPECT(outb(0x20, command << 5 | line), NONE); /* nothing in service: a plain EOI does nothing, rotation included */
                int moves = command == 6 || command == 7;
                CHECK((pic[0] >> 44 & 7) == ((moves ? line : lowest) + 1) % 8);
                CHECK(pic[0] >> 47 == (command == 4));
                EXPECT(outb(0x20, 0), NONE);
                EXPECT(outb(0x20, 0xc0 + lowest), NONE);
                pic[0] |= 0xb3ULL << 24; /* lines 0, 1, 4, 5 and 7 in service */
                EXPECT(outb(0x20, command << 5 | line), NONE);
                unsigned ended = command == 1 || command == 5 ? first_after(lowest, 0xb3) : line;
                CHECK((pic[0] >> 24 & 0xff) == (command & 1 ? 0xb3 & ~(1U << ended) : 0xb3));
                CHECK((pic[0] >> 44 & 7) == ((command >= 5 ? ended : lowest) + 1) % 8);
            }

    start("rotation in automatic EOI mode");
    EXPECT(sillwander_pic_new_rule(pic, 2), NONE);
    EXPECT(outb(0x20, 0x80), NONE); /* on, but not yet in automatic EOI mode */
    EXPECT(outb(0x21, 0), NONE);
    EXPECT(claim(3), three(0x0b, 3, 1));
    CHECK(pic[0] >> 44 == 8);
    pic[0] |= 1ULL << 42;
    EXPECT(outb(0x20, 0x20), NONE);
    EXPECT(claim(3), three(0x0b, 3, 0));
    CHECK(pic[0] >> 44 == 8 + 4);
    EXPECT(claim(3), three(0x0b, 3, 0));
    pic[1] = 0x10000; /* the slave's line 0 asks, at base 0 */
    EXPECT(claim(4), three(0x0c, 4, 0));
    EXPECT(pending(), three(0, 8, 2));
    CHECK(pic[0] >> 44 == 8 + 3);
}

/* A new pair of rule 2 whose chips are initialized with these ICW4s, line 7 lowest and nothing masked: ICW1 clears the mask. */
static void initialized(unsigned master_icw4, unsigned slave_icw4)
{
    EXPECT(sillwander_pic_new_rule(pic, 2), NONE);
    EXPECT(outb(0x20, 0x11), NONE);
    EXPECT(outb(0x21, 0x08), NONE);
    EXPECT(outb(0x21, 4), NONE);
    EXPECT(outb(0x21, master_icw4), NONE);
    EXPECT(outb(0xa0, 0x11), NONE);
    EXPECT(outb(0xa1, 0x70), NONE);
    EXPECT(outb(0xa1, 2), NONE);
    EXPECT(outb(0xa1, slave_icw4), NONE);
    EXPECT(inb(0x21), one(0));
    EXPECT(inb(0xa1), one(0));
}

static unsigned serving(unsigned chip) { return pic[chip] >> 24 & 0xff; }
static unsigned requested(unsigned chip) { return pic[chip] >> 16 & 0xff; }

/* Rule 2: special mask mode, the poll command and special fully nested mode, each alone, in pairs and with rotation; the reasons are the data sheet's sections of these names. */
static void modes_of_the_full_profile(void)
{
    start("special mask mode");
    initialized(1, 1);
    EXPECT(claim(1), three(0x09, 1, 1));
    EXPECT(claim(3), NONE);         /* fully nested mode: line 1 in service blocks what isn't above it */
    EXPECT(outb(0x21, 2), NONE);    /* its handler masks line 1 .. */
    EXPECT(pending(), NONE);        /* .. which by itself lets nothing by */
    EXPECT(outb(0x20, 0x28), NONE); /* SMM without ESMM chooses nothing */
    EXPECT(pending(), NONE);
    EXPECT(outb(0x20, 0x68), NONE); /* ESMM and SMM: masked lines in service block none */
    EXPECT(pending(), three(0x0b, 3, 1));
    EXPECT(claim(4), NONE);         /* line 3 is unmasked, and blocks as ever */
    CHECK(serving(0) == 0x0a);
    EXPECT(outb(0x20, 0x20), NONE); /* a plain EOI passes the masked line by */
    CHECK(serving(0) == 0x02);
    EXPECT(pending(), three(0x0c, 4, 1));
    EXPECT(outb(0x20, 0x20), NONE);
    EXPECT(outb(0x20, 0x20), NONE); /* line 1 alone is left, and masked: nothing ends */
    CHECK(serving(0) == 0x02);
    EXPECT(outb(0x20, 0x61), NONE); /* a specific EOI ends it */
    CHECK(serving(0) == 0);
    EXPECT(outb(0x20, 0x48), NONE); /* ESMM without SMM: off */
    CHECK((pic[0] >> 48 & 1) == 0);

    start("the poll command");
    initialized(1, 1);
    EXPECT(outb(0x20, 0x0c), NONE);
    EXPECT(inb(0x20), one(0)); /* nothing counts, and the poll is over */
    EXPECT(claim(3), three(0x0b, 3, 1));
    EXPECT(outb(0x20, 0x20), NONE);
    pic[0] |= 0x18ULL << 16; /* lines 3 and 4 ask, and the processor's pin isn't used */
    EXPECT(outb(0x20, 0x0c), NONE);
    EXPECT(outb(0x20, 0x0b), NONE); /* a write doesn't end it, and chooses what is read after it */
    EXPECT(outb(0x21, 0x40), NONE);
    EXPECT(inb(0xa0), one(0)); /* nor a read of the other chip */
    EXPECT(inb(0x21), one(0x83)); /* either port: bit 7, and line 3, which is acknowledged */
    CHECK(serving(0) == 8 && requested(0) == 0x10);
    EXPECT(inb(0x21), one(0x40));
    EXPECT(inb(0x20), one(8)); /* in service, by OCW3 0x0b */
    EXPECT(outb(0x20, 0x0e), NONE); /* poll and read register: the poll answers first; line 3 in service blocks line 4 */
    EXPECT(inb(0x20), one(0));
    EXPECT(inb(0x20), one(0x10)); /* the requests */
    EXPECT(outb(0x20, 0x08), NONE); /* no choice: the requests still */
    EXPECT(inb(0x20), one(0x10));
    EXPECT(outb(0x20, 0x0c), NONE);
    EXPECT(outb(0x20, 0x11), NONE); /* ICW1 ends it */
    CHECK((pic[0] >> 49 & 1) == 0);
    REFUSED(pic_lent, sillwander_pic_handle_read(pic, 0x22, 1), SILLWANDER_UNSUPPORTED);

    start("a poll of either chip of the pair");
    initialized(1, 1);
    pic[1] |= 3ULL << 16;
    EXPECT(outb(0x20, 0x0c), NONE); /* settles the pair: lines 8 and 9 ask, so that line 2 does */
    CHECK(requested(0) == 4);
    EXPECT(inb(0x20), one(0x82)); /* on the master alone: the slave isn't acknowledged, and line 2 asks on */
    CHECK(serving(0) == 4 && requested(0) == 4 && serving(1) == 0 && requested(1) == 3);
    EXPECT(outb(0xa0, 0x0c), NONE);
    EXPECT(inb(0xa0), one(0x80)); /* line 8; nothing else of the slave's counts, so that line 2 falls */
    CHECK(serving(0) == 4 && requested(0) == 0 && serving(1) == 1 && requested(1) == 2);

    start("special fully nested mode");
    initialized(1, 1);
    EXPECT(claim(9), three(0x71, 9, 3));
    EXPECT(claim(8), NONE); /* without the mode line 2 in service blocks line 2 */
    initialized(0x11, 1);
    EXPECT(claim(9), three(0x71, 9, 3));
    EXPECT(claim(3), NONE);              /* below line 2: blocked, in this mode too */
    EXPECT(claim(10), NONE);             /* the slave's line 2 is below its line 1 */
    EXPECT(claim(8), three(0x70, 8, 2)); /* line 2 is taken again: the claim sets the slave's bit alone */
    CHECK(serving(0) == 4 && serving(1) == 3);
    EXPECT(sillwander_pic_restore_interrupt(pic, claim_code(0x70, 8, 2)), NONE);
    CHECK(serving(0) == 4 && serving(1) == 2 && requested(1) == 5); /* exact: line 2 stays in service for line 9 */
    EXPECT(pending(), three(0x70, 8, 2));
    EXPECT(claim(1), three(0x09, 1, 1)); /* above line 2 */
    EXPECT(outb(0x20, 0x20), NONE);
    EXPECT(outb(0xa0, 0x20), NONE);
    EXPECT(outb(0xa0, 0x0b), NONE);
    EXPECT(inb(0xa0), one(2)); /* the handler looks whether the slave serves more before it ends line 2 */
    EXPECT(outb(0xa0, 0x20), NONE);
    EXPECT(pending(), three(0x72, 10, 2));
    EXPECT(outb(0xa0, 0x20), NONE);
    EXPECT(outb(0x20, 0x20), NONE);
    EXPECT(pending(), three(0x0b, 3, 1));
    initialized(1, 0x11); /* on the slave the bit does nothing */
    EXPECT(claim(10), three(0x72, 10, 3));
    pic[1] |= 4ULL << 16;
    EXPECT(outb(0xa0, 0x0c), NONE);
    EXPECT(inb(0xa0), one(0));

    start("special mask mode with the poll command");
    initialized(1, 1);
    EXPECT(claim(1), three(0x09, 1, 1));
    EXPECT(claim(3), NONE);
    EXPECT(outb(0x21, 2), NONE);
    EXPECT(outb(0x20, 0x6c), NONE); /* both by one OCW3 */
    EXPECT(inb(0x20), one(0x83));
    CHECK(serving(0) == 0x0a);

    start("special mask mode with special fully nested mode");
    initialized(0x11, 1);
    EXPECT(claim(9), three(0x71, 9, 3));
    EXPECT(claim(3), NONE);
    EXPECT(outb(0x20, 0x68), NONE);
    EXPECT(pending(), NONE);     /* line 2 is unmasked, and blocks line 3 */
    EXPECT(outb(0x21, 4), NONE); /* masked, it doesn't; nor does it take the slave's lines any more */
    EXPECT(claim(8), three(0x0b, 3, 1));
    CHECK(serving(0) == 0x0c && requested(0) == 4);

    start("special mask mode and special fully nested mode, both needed");
    initialized(0x11, 1);
    EXPECT(claim(9), three(0x71, 9, 3));
    EXPECT(claim(1), three(0x09, 1, 1));
    EXPECT(claim(8), NONE); /* line 1 is in service, above line 2 */
    EXPECT(outb(0x20, 0x68), NONE);
    EXPECT(pending(), NONE);              /* and unmasked, so that it blocks still */
    EXPECT(outb(0x21, 2), NONE);          /* masked, it doesn't; line 2 in service isn't in its own way */
    EXPECT(pending(), three(0x70, 8, 2)); /* the claim set the slave's bit alone */
    CHECK(serving(0) == 6);

    start("the poll command with special fully nested mode");
    initialized(0x11, 1);
    EXPECT(claim(9), three(0x71, 9, 3));
    pic[1] |= 1ULL << 16;
    EXPECT(outb(0x20, 0x0c), NONE);
    EXPECT(inb(0x20), one(0x82)); /* line 2 again */
    CHECK(serving(0) == 4 && requested(0) == 4);

    start("rotation with special mask mode");
    initialized(1, 1);
    EXPECT(outb(0x20, 0xc3), NONE); /* line 3 lowest, so line 4 highest */
    EXPECT(claim(4), three(0x0c, 4, 1));
    EXPECT(claim(0), NONE);
    EXPECT(outb(0x21, 0x10), NONE);
    EXPECT(outb(0x20, 0x68), NONE);
    EXPECT(pending(), three(0x08, 0, 1));
    EXPECT(outb(0x20, 0xa0), NONE); /* the rotating plain EOI passes line 4 by: line 0 ends and is lowest */
    CHECK(serving(0) == 0x10 && (pic[0] >> 44 & 7) == 1);
    EXPECT(outb(0x20, 0xa0), NONE); /* line 4 alone is left, and masked: nothing, rotation included */
    CHECK(serving(0) == 0x10 && (pic[0] >> 44 & 7) == 1);

    start("rotation with special fully nested mode");
    initialized(0x11, 1);
    EXPECT(outb(0x20, 0xc1), NONE); /* line 1 lowest, so line 2 highest */
    EXPECT(claim(9), three(0x71, 9, 3));
    EXPECT(claim(1), NONE); /* every other line is below line 2 now */
    EXPECT(claim(8), three(0x70, 8, 2));
    initialized(0x11, 1);
    EXPECT(outb(0x20, 0xc2), NONE); /* line 2 lowest */
    EXPECT(claim(9), three(0x71, 9, 3));
    EXPECT(claim(3), three(0x0b, 3, 1)); /* and none is below it */

    start("rotation with the poll command");
    initialized(3, 1);              /* automatic EOI */
    EXPECT(outb(0x20, 0x80), NONE); /* with rotation */
    pic[0] |= 0x18ULL << 16;
    EXPECT(outb(0x20, 0x0c), NONE);
    EXPECT(inb(0x20), one(0x83)); /* acknowledged: nothing in service, and line 3 is lowest */
    CHECK(serving(0) == 0 && (pic[0] >> 44 & 7) == 4);

    start("ICW1 and the modes");
    initialized(0x13, 0x11);
    EXPECT(outb(0x20, 0x80), NONE);
    EXPECT(outb(0x20, 0x6f), NONE); /* special mask mode, a poll, the lines in service */
    EXPECT(outb(0x21, 0xff), NONE);
    CHECK(pic[0] >> 42 == (3 | 15 << 5)); /* automatic EOI, the read choice; line 7 lowest; rotation and the three modes */
    EXPECT(outb(0x20, 0x10), NONE);
    CHECK(pic[0] == (1ULL << 32 | 0x08)); /* the base alone stays */
}

static void refusals_of_the_io_apic(void)
{
    start("refusals of the I/O APIC");
    EXPECT(select_register(0x14), NONE);
    EXPECT(window(0x8030), NONE);
    EXPECT(line(2, 1), two(0x30, 1));
    EXPECT(line(2, 1), NONE);
    CHECK(io[24] == 4 && io[25] == 4);
    const uint64_t widths[] = {0, 1, 2, 3, 5, 16, 256 + 4, HIGH + 4, UINT64_MAX};
    for (unsigned k = 0; k < sizeof widths / sizeof *widths; k++) {
        REFUSED(io_lent, sillwander_ioapic_handle_read(io, BASE, widths[k]), SILLWANDER_UNSUPPORTED);
        REFUSED(io_lent, sillwander_ioapic_handle_write(io, BASE, widths[k], 1), SILLWANDER_UNSUPPORTED);
        REFUSED(io_lent, sillwander_ioapic_handle_write(io, 0, widths[k], 1), SILLWANDER_UNSUPPORTED);
    }
    REFUSED(io_lent, sillwander_ioapic_handle_read(io, 0, 8), SILLWANDER_INVALID_ADDRESS);
    REFUSED(io_lent, sillwander_ioapic_handle_write(io, 0, 8, 1), SILLWANDER_INVALID_ADDRESS);
    IDLE(io_lent, sillwander_ioapic_handle_write(io, BASE + HIGH, 4, 1));
    REFUSED(io_lent, sillwander_ioapic_end_of_interrupt(io, 256), SILLWANDER_OUT_OF_RANGE);
    REFUSED(io_lent, sillwander_ioapic_end_of_interrupt(io, 256 + 0x30), SILLWANDER_OUT_OF_RANGE);
    REFUSED(io_lent, sillwander_ioapic_end_of_interrupt(io, HIGH + 0x30), SILLWANDER_OUT_OF_RANGE);
    REFUSED(io_lent, sillwander_ioapic_new(io, 1, UINT64_MAX), SILLWANDER_INVALID_ADDRESS);
    REFUSED(io_lent, sillwander_ioapic_new(io, UINT64_MAX, 1), SILLWANDER_INVALID_ADDRESS);
    const uint64_t lines[] = {24, 25, 255, 256 + 2, HIGH + 2, UINT64_MAX};
    for (unsigned k = 0; k < sizeof lines / sizeof *lines; k++) {
        IDLE(io_lent, line(lines[k], 1));
        IDLE(io_lent, line(lines[k], 0));
        IDLE(io_lent, sillwander_ioapic_assert_gsi(io, lines[k]));
        IDLE(io_lent, sillwander_ioapic_vector_for_gsi(io, lines[k]));
    }
    io[27] = UINT64_MAX, io[28] = 1, range[0] = 12, range[1] = 13;
    REFUSED(io_lent, sillwander_ioapic_address_range(io, range), SILLWANDER_INVALID_ADDRESS);
    CHECK(range[0] == 12 && range[1] == 13);
}

static void refusals_of_the_pair(void)
{
    start("refusals of the pair");
    open_masks();
    EXPECT(claim(9), three(0x71, 9, 3));
    EXPECT(claim(3), NONE);
    const uint64_t widths[] = {0, 2, 4, 8, 256 + 1, HIGH + 1, UINT64_MAX};
    for (unsigned k = 0; k < sizeof widths / sizeof *widths; k++) {
        REFUSED(pic_lent, sillwander_pic_handle_read(pic, 0x20, widths[k]), SILLWANDER_UNSUPPORTED);
        REFUSED(pic_lent, sillwander_pic_handle_write(pic, 0x20, widths[k], 0x20), SILLWANDER_UNSUPPORTED);
    }
    const uint64_t ports[] = {0, 0x1f, 0x22, 0x9f, 0xa2, 0x10000 + 0x20, HIGH + 0xa0, UINT64_MAX};
    for (unsigned k = 0; k < sizeof ports / sizeof *ports; k++) {
        REFUSED(pic_lent, inb(ports[k]), SILLWANDER_UNSUPPORTED);
        REFUSED(pic_lent, outb(ports[k], 0x20), SILLWANDER_UNSUPPORTED);
    }
    /* what no claim answers: another count of values, a refusal, and each value out of its range */
    const uint64_t claims[] = {0, claim_code(0x71, 9, 3) - (1ULL << 48), claim_code(0x71, 9, 3) + (1ULL << 48), claim_code(0x71, 9, 3) | 1ULL << 56,
                               claim_code(256, 9, 3), claim_code(0xff71, 9, 3), claim_code(0x71, 16, 3), claim_code(0x71, 256 + 9, 3), claim_code(0x71, 0xffff, 3),
                               claim_code(0x71, 9, 4), claim_code(0x71, 9, 0xffff), UINT64_MAX};
    for (unsigned k = 0; k < sizeof claims / sizeof *claims; k++)
        REFUSED(pic_lent, sillwander_pic_restore_interrupt(pic, claims[k]), SILLWANDER_OUT_OF_RANGE);
    const uint64_t lines[] = {16, 17, 255, 256 + 1, HIGH + 1, UINT64_MAX};
    for (unsigned k = 0; k < sizeof lines / sizeof *lines; k++) {
        IDLE(pic_lent, claim(lines[k]));
        IDLE(pic_lent, sillwander_pic_pulse_irq(pic, lines[k]));
    }
}

static uint64_t write_for(uint64_t offset, uint64_t word, uint64_t width, uint64_t count, uint64_t active)
{
    return sillwander_lapic_handle_write(lapic, offset, word, width, count, active, ipi);
}

/* A refused command has stored its words, and nothing else. */
static void refused_command(int line, const char *text, uint64_t code, unsigned number, uint64_t low, uint64_t high)
{
    expect(line, text, code, refused(number));
    lapic_lent.before[9] = low, lapic_lent.before[10] = high;
    check(line, text, is_as_before(&lapic_lent));
    check(line, "ipi[0] as before", ipi[0] == 99);
}
#define COMMAND(call, number, low, high) (remember(&lapic_lent), refused_command(__LINE__, #call, (call), number, low, high))

static void refusals_of_the_local_apic(void)
{
    start("refusals of the local APIC");
    ipi[0] = 99;
    EXPECT(sillwander_lapic_accept_interrupt(lapic, 0x31, 1), NONE);
    REFUSED(lapic_lent, sillwander_lapic_setup(lapic, 0, 0, 65), SILLWANDER_OUT_OF_RANGE);
    REFUSED(lapic_lent, sillwander_lapic_setup(lapic, 0, 64, 1), SILLWANDER_OUT_OF_RANGE);
    REFUSED(lapic_lent, sillwander_lapic_setup(lapic, 1, HIGH, HIGH), SILLWANDER_OUT_OF_RANGE);
    REFUSED(lapic_lent, sillwander_lapic_accept_interrupt(lapic, 256, 1), SILLWANDER_OUT_OF_RANGE);
    REFUSED(lapic_lent, sillwander_lapic_accept_interrupt(lapic, HIGH + 0x41, 0), SILLWANDER_OUT_OF_RANGE);
    const uint64_t unread[] = {0, 0x24, 0x30, 0x90, 0xb0, 0xc0, 0x200, 0x270, 0x380, 0x390, 0x3e0, 0x3f0, 0x1080, HIGH + 0x80, UINT64_MAX};
    for (unsigned k = 0; k < sizeof unread / sizeof *unread; k++)
        REFUSED(lapic_lent, load(unread[k]), SILLWANDER_INVALID_REGISTER);
    const uint64_t unwritten[] = {0, 0x30, 0x81, 0x90, 0xa0, 0xc0, 0x100, 0x180, 0x200, 0x380, 0x3e0, 0x3f0, 0x1080, HIGH + 0x80, UINT64_MAX};
    for (unsigned k = 0; k < sizeof unwritten / sizeof *unwritten; k++)
        REFUSED(lapic_lent, store(unwritten[k], 0x42), SILLWANDER_INVALID_REGISTER);
    REFUSED(lapic_lent, write_for(0x80, 1, 256, 1, 1), SILLWANDER_INVALID_REGISTER);
    REFUSED(lapic_lent, write_for(0x80, 1, HIGH + 4, 65, 1), SILLWANDER_INVALID_REGISTER);
    REFUSED(lapic_lent, write_for(0x80, 1, 4, 65, 1), SILLWANDER_OUT_OF_RANGE);
    REFUSED(lapic_lent, write_for(0x90, 1, 4, HIGH + 1, 1), SILLWANDER_OUT_OF_RANGE);
    REFUSED(lapic_lent, write_for(0x300, 0x40042, 8, 1, 1), SILLWANDER_INVALID_REGISTER);
    CHECK(ipi[0] == 99);

    COMMAND(store(0x300, 0x342), SILLWANDER_INVALID_DELIVERY, 0x342, 0);
    COMMAND(store(0x300, 0x1742), SILLWANDER_INVALID_DELIVERY, 0x742, 0);
    EXPECT(store(0x310, 0x40ffffff), NONE);
    COMMAND(store(0x300, 0x42), SILLWANDER_OUT_OF_RANGE, 0x42, 0x40000000);
    EXPECT(store(0xe0, 0x10000000), NONE);
    COMMAND(store(0x300, 0x843), SILLWANDER_INVALID_DELIVERY, 0x843, 0x40000000);

    EXPECT(sillwander_lapic_setup(lapic, 1, 63, 64), NONE);
    REFUSED(lapic_lent, store(0xd0, 0), SILLWANDER_INVALID_REGISTER);
    REFUSED(lapic_lent, store(0xe0, 0), SILLWANDER_INVALID_REGISTER);
    REFUSED(lapic_lent, store(0x300, 0x42), SILLWANDER_INVALID_REGISTER);
    REFUSED(lapic_lent, store(0x310, 0), SILLWANDER_INVALID_REGISTER);
    COMMAND(write_for(0x300, 0x4000000042, 8, 64, 1), SILLWANDER_OUT_OF_RANGE, 0x42, 64);
    lapic[1] = 64;
    REFUSED(lapic_lent, store(0x80, 1), SILLWANDER_OUT_OF_RANGE);
}

/* ---- Made-up words: nothing faults, every code is one, and a refusal leaves what was lent as it was. */

static uint64_t dice_state;

/* splitmix64, from a fixed start */
static uint64_t dice(void)
{
    uint64_t z = dice_state += 0x9e3779b97f4a7c15;
    z = (z ^ z >> 30) * 0xbf58476d1ce4e5b9;
    z = (z ^ z >> 27) * 0x94d049bb133111eb;
    return z ^ z >> 31;
}

/* Any number, but often a small one or one of the interesting ones. */
static uint64_t number(void)
{
    static const uint64_t known[] = {0, 1, 2, 4, 8, 0x20, 0x21, 0xa0, 0xa1, 0x80, 0xb0, 0xd0, 0xe0, 0xf0, 0x280, 0x300, 0x310, 0x3f0, 0x350};
    uint64_t kind = dice() % 8, any = dice();
    switch (kind) {
    case 0: return any;
    case 1: return UINT64_MAX - any % 4;
    case 2: return any % 64 * 16;
    case 3: return any >> any % 64;
    case 4: return any % 70;
    default: return known[any % (sizeof known / sizeof *known)];
    }
}

static uint64_t word(void)
{
    return dice() % 4 == 0 ? UINT64_MAX : dice() % 4 == 0 ? 0 : dice();
}

/* An entry that is sent and ended: one of the vectors that `number` draws, fixed, mostly level-triggered, often in flight, seldom masked. */
static uint64_t sendable(void)
{
    static const uint64_t vectors[] = {0x20, 0x21, 0xa0, 0xa1, 0x80, 0xb0};
    uint64_t any = dice();
    return vectors[any % 6] + (any >> 8) % 2 * 0x4000 + ((any >> 16) % 8 ? 0x8000 : 0) + ((any >> 24) % 16 ? 0 : 0x10000) + (any >> 32 << 32);
}

/* The calls by number: the I/O APIC's, the pair's, the local APIC's. */
enum { NEW_STATES_OF_IO = 4, IO_EOI = 7, IO_WRITE = 10, OF_PAIR = 11, PIC_PENDING = 15, PIC_READ = 19, OF_LAPIC = 21, LAPIC_WRITES = 26, CALLS = 28 };

static uint64_t call(unsigned which)
{
    uint64_t a = number(), b = number(), c = number(), d = number(), e = number();
    switch (which) {
    case 0: return sillwander_ioapic_new(io, a, b);
    case 1: return sillwander_ioapic_new_default(io);
    case 2: return sillwander_ioapic_new_version(io, a, b, d % 4 == 0 ? c : d % 4 == 1 ? 0x11 : 0x20);
    case 3: return sillwander_ioapic_new_default_version(io, d % 4 == 0 ? c : d % 4 == 1 ? 0x11 : 0x20);
    case 4: return sillwander_ioapic_vector_for_gsi(io, a);
    case 5: return sillwander_ioapic_assert_gsi(io, a);
    case 6: return sillwander_ioapic_set_gsi_level(io, a, b % 2);
    case 7: return sillwander_ioapic_end_of_interrupt(io, a);
    case 8: return sillwander_ioapic_address_range(io, range);
    case 9: return sillwander_ioapic_handle_read(io, d % 2 ? io[27] + a % 32 : a, b);
    case 10: return sillwander_ioapic_handle_write(io, d % 2 ? io[27] + (a % 3 == 2 ? 0x40 : a % 3 * 16) : a, b, c);
    case 11: return sillwander_pic_new(pic);
    case 12: return sillwander_pic_new_rule(pic, d % 4 == 0 ? c : d % 3);
    case 13: return sillwander_pic_port_ranges(ranges);
    case 14: return sillwander_pic_claim_irq(pic, a);
    case 15: return sillwander_pic_claim_pending_interrupt(pic);
    case 16: return sillwander_pic_pulse_irq(pic, a);
    case 17: return sillwander_pic_next_interrupt(pic);
    case 18: return sillwander_pic_restore_interrupt(pic, d % 2 ? claim_code(a % 257, b % 17, c % 5) : a);
    case 19: return sillwander_pic_handle_read(pic, a, b);
    case 20: return sillwander_pic_handle_write(pic, a, b, c);
    case 21: return sillwander_lapic_new(lapic);
    case 22: return sillwander_lapic_setup(lapic, a, b, c);
    case 23: return sillwander_lapic_accept_interrupt(lapic, a, b);
    case 24: return sillwander_lapic_handle_eoi(lapic);
    case 25: return sillwander_lapic_handle_read(lapic, a);
    case 26: return sillwander_lapic_handle_write(lapic, a, b, c, d % 70, e, ipi);
    default: return sillwander_lapic_handle_write(lapic, 0x300, a * 0x9e3779b97f4a7c15 >> 44, b % 2 ? 4 : 8, d % 65, e, ipi);
    }
}

static void fill(Lent *lent)
{
    for (unsigned k = 0; k < lent->count; k++)
        lent->words[k] = word();
}

/* Only the two command words of the local APIC may have moved under a refusal. */
static int refusal_kept_the_words(unsigned which, unsigned number)
{
    if (which >= LAPIC_WRITES && (number == SILLWANDER_INVALID_DELIVERY || number == SILLWANDER_OUT_OF_RANGE))
        lapic_lent.before[9] = lapic[9], lapic_lent.before[10] = lapic[10];
    return is_as_before(&io_lent) && is_as_before(&pic_lent) && is_as_before(&lapic_lent);
}

static int is_a_code(uint64_t code)
{
    Answer said = answer(code);
    return said.refusal < NUMBERS && said.count <= 3 && code == code_of(said) && (said.refusal == 0 || code << 8 == 0);
}

/* A chip's calls leave the other chips alone. */
static int only_its_chip_moved(unsigned which)
{
    return (which < OF_PAIR || is_as_before(&io_lent)) && ((which >= OF_PAIR && which < OF_LAPIC) || is_as_before(&pic_lent)) &&
           (which >= OF_LAPIC || is_as_before(&lapic_lent));
}

static int makes_a_new_state(unsigned which) { return which < NEW_STATES_OF_IO || which == OF_PAIR || which == OF_PAIR + 1 || which == OF_LAPIC || which == OF_LAPIC + 1; }

static int spare_words_stayed(unsigned which)
{
    return makes_a_new_state(which) ||
           (io[29] == io_lent.before[29] && io[31] == io_lent.before[31] && memcmp(pic + 2, pic_lent.before + 2, 16) == 0 &&
            memcmp(lapic + 42, lapic_lent.before + 42, 48) == 0);
}

/* Of the I/O APIC a call moves one entry at most, and the bits of the same entry in words 24, 25 and 30; an EOI of version 0x20 those that it ended. Base and size stay. */
static int one_entry_moved(unsigned which, uint64_t code)
{
    if (which < NEW_STATES_OF_IO)
        return 1;
    uint64_t flags = (io[24] ^ io_lent.before[24]) | (io[25] ^ io_lent.before[25]) | (io[30] ^ io_lent.before[30]);
    for (unsigned gsi = 0; gsi < 24; gsi++)
        if (io[gsi] != io_lent.before[gsi])
            flags |= (uint64_t)1 << gsi;
    if (io_lent.before[29] == 0x20 && SILLWANDER_COUNT(code) == 2 && (which == IO_EOI || which == IO_WRITE))
        flags &= ~(uint64_t)SILLWANDER_OF_TWO(code, 0);
    return (flags & (flags - 1)) == 0 && io[27] == io_lent.before[27] && io[28] == io_lent.before[28];
}

/* Bit 14 of each entry, as word 30 should have it; what stands above bit 23 is kept. */
static uint64_t in_flight(void)
{
    uint64_t lines = io[30] & ~(uint64_t)0xffffff;
    for (unsigned gsi = 0; gsi < 24; gsi++)
        lines |= (io[gsi] >> 14 & 1) << gsi;
    return lines;
}

/* The 8259A's output, bit by bit: a request that isn't masked, above every line in service, but in special mask mode the masked ones; the lines from the highest on, going round. */
static int asks(uint64_t chip, unsigned highest, unsigned special)
{
    for (unsigned rank = 0; rank < 8; rank++) {
        unsigned line = (highest + rank) % 8;
        if ((chip >> (24 + line) & 1) && !(special && (chip >> (8 + line) & 1)))
            return 0;
        if ((chip >> (16 + line) & 1) && !(chip >> (8 + line) & 1))
            return 1;
    }
    return 0;
}

/* By rules 1 and 2 a call that isn't refused leaves the master's request 2 as the slave's output is: one on a line, a write, a restore, a claim of something, and a read that moved
   something, a poll. */
static int the_cascade_is_settled(unsigned which, uint64_t code)
{
    int claims = which == PIC_PENDING || which == PIC_PENDING + 2;
    if (which <= OF_PAIR + 2 || which >= OF_LAPIC || code >> 56 != 0 || (claims && code == 0))
        return 1;
    if ((which == PIC_PENDING - 1 || which == PIC_PENDING + 1 || which == PIC_READ) && memcmp(pic, pic_lent.before, 32) == 0)
        return 1; /* a line that the pair hasn't, a read without a poll, or nothing moved */
    if (pic[2] != 1 && pic[2] != 2)
        return 1;
    int full = pic[2] == 2;
    return (int)(pic[0] >> 18 & 1) == asks(pic[1], full ? pic[1] >> 44 & 7 : 0, full && (pic[1] >> 48 & 1));
}

static void made_up_words(void)
{
    part = "made-up words";
    dice_state = 2026;
    for (unsigned round = 0; round < 4000; round++) {
        fill(&io_lent), fill(&pic_lent), fill(&lapic_lent);
        if (round % 8 < 6) /* words that a state may have: ids and modes that let calls through */
            lapic[0] = round % 2, lapic[1] = round % 64, io[27] = dice() >> 1;
        if (round % 8 < 4)
            for (unsigned gsi = 0; gsi < 24; gsi++)
                io[gsi] = sendable();
        if (round % 4 < 2)
            io[29] = 0x20;
        int agreed = round % 3 != 0; /* else word 30 is made up too */
        if (agreed)
            io[30] = in_flight();
        if (round % 2 == 0)
            pic[2] = 1;
        if (round == 0) {
            memset(io, 0xff, SILLWANDER_IOAPIC_WORDS * 8);
            memset(pic, 0xff, SILLWANDER_PIC_WORDS * 8);
            memset(lapic, 0xff, SILLWANDER_LAPIC_WORDS * 8);
        }
        for (unsigned step = 0; step < 4 * CALLS; step++) {
            unsigned which = step < CALLS ? step : (unsigned)(dice() % CALLS);
            if (makes_a_new_state(which) && dice() % 64 != 0)
                continue; /* the made-up words are to stay */
            remember(&io_lent), remember(&pic_lent), remember(&lapic_lent);
            uint64_t code = call(which);
            seen[SILLWANDER_REFUSAL(code)]++;
            CHECK(is_a_code(code));
            CHECK(only_its_chip_moved(which));
            CHECK(spare_words_stayed(which));
            CHECK(one_entry_moved(which, code));
            CHECK(!agreed || io[30] == in_flight());
            CHECK(the_cascade_is_settled(which, code));
            CHECK(code >> 56 == 0 || refusal_kept_the_words(which, SILLWANDER_REFUSAL(code)));
        }
    }
}

/* EOIs of version 0x20 on made-up words, by both roads: every word and the answer, as the EOI register's text has them. */
static void made_up_eois(void)
{
    part = "made-up words, EOI";
    dice_state = 20;
    for (unsigned round = 0; round < 4000; round++) {
        fill(&io_lent);
        for (unsigned gsi = 0; gsi < 24 && round % 8 != 0; gsi++)
            io[gsi] = sendable();
        io[27] >>= 1, io[29] = 0x20, io[30] = in_flight();
        for (unsigned step = 0; step < 6; step++) {
            uint64_t vector = round % 8 ? sendable() & 0xff : dice() & 0xff;
            uint32_t ended = 0, sent = 0;
            remember(&io_lent);
            for (unsigned gsi = 0; gsi < 24; gsi++) {
                uint64_t bit = (uint64_t)1 << gsi, entry = io[gsi];
                if ((entry & 0xc0ff) != (0xc000 | vector))
                    continue; /* edge, not in flight, or of another vector */
                ended |= bit;
                if (((io[24] | io[25]) & bit) && !(entry & 0x10700) && vector >= 16)
                    sent |= bit; /* the line is up or it was deferred; not masked, fixed, of a vector that can be sent */
                else
                    io_lent.before[gsi] = entry & ~(uint64_t)0x4000, io_lent.before[30] &= ~bit;
                io_lent.before[24] &= ~bit;
            }
            uint64_t code = dice() % 2 ? io_eoi(vector) : sillwander_ioapic_handle_write(io, io[27] + 0x40, 4, (dice() & ~(uint64_t)0xff) | vector);
            expect(__LINE__, "an EOI", code, ended ? two(ended, sent) : NONE);
            CHECK(is_as_before(&io_lent));
        }
    }
}

int main(void)
{
    if (!lend_all())
        return 2;
    examples_of_the_io_apic();
    examples_of_the_pair();
    examples_of_the_local_apic();
    other_calls();
    shared_vectors();
    put_off_and_dropped();
    eoi_registers();
    masked_in_flight();
    versions();
    cascade_rule();
    rotating_priorities();
    modes_of_the_full_profile();
    refusals_of_the_io_apic();
    refusals_of_the_pair();
    refusals_of_the_local_apic();
    part = "refusal numbers before made-up words";
    for (unsigned number = 0; number < NUMBERS; number++)
        CHECK(seen[number] > 0);
    made_up_words();
    made_up_eois();
    part = "after all";
    CHECK(nothing_before_it_was_touched(&io_lent) && nothing_before_it_was_touched(&pic_lent) && nothing_before_it_was_touched(&lapic_lent));
    CHECK(nothing_before_it_was_touched(&ipi_lent) && nothing_before_it_was_touched(&range_lent) && nothing_before_it_was_touched(&ranges_lent));
    printf("C boundary: %lu checks, %lu wrong; refusals 0 to 5 seen %lu, %lu, %lu, %lu, %lu, %lu times\n", asked, wrong, seen[0], seen[1],
           seen[2], seen[3], seen[4], seen[5]);
    return wrong == 0 ? 0 : 1;
}
