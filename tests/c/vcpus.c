/*
 * Interrupt commands among several vCPUs, called from C, against a small model that is written here from the SDM's words and the request's (an address for each
 * processor, one after the other, and bits one by one). Runs: every destination byte, in the flat model, in the cluster model and with both among the receivers; every
 * x2APIC cluster from 0 to 5 with every low byte, each single member, all of them, all but one and none, and clusters that nobody is in; every mode, shorthand and vector of
 * interest; every active mask's edge; senders and counts on either side of their limits; then made-up records and writes. All records are compared whole, after every call.
 * Before all that, masks that were worked out by hand from the SDM: there no model stands between.
 * The exit status is 0 only if everything was as expected.
 *
 * The array ends where a page ends that nobody may touch.
 */
#define _DEFAULT_SOURCE
#include "sillwander.h"
#include <stdio.h>
#include <string.h>
#include <sys/mman.h>

enum { PAGE = 4096, PAGES = 4, SHOWN = 10, MOST = 70 };

static unsigned long calls, wrong, sent, refused[12];
static char *end; /* of what may be touched */
static sillwander_vcpu before[MOST], expected[MOST];

static uint64_t state = 88172645463325252u;
static uint64_t made_up(void)
{
    state ^= state << 13;
    state ^= state >> 7;
    state ^= state << 17;
    return state;
}

/* ---- The model */

typedef struct {
    unsigned number, count, kind, vector;
    uint64_t mask;
} reply;

/* Whether receiver i takes the logical address d: in x2APIC mode bits 31:16 name a cluster of 16 ids, and bits 15:0 have one bit for each of its members; in xAPIC
   mode the low byte counts, and LDR's top byte is the receiver's: flat, a bit in common; cluster, the same upper four bits, and a bit in common below them. */
static int takes(const sillwander_vcpu *v, unsigned i, uint32_t d)
{
    if (v->regs.x2apic)
        return d >> 16 == i / 16 && (d & 0xffff & 1u << i % 16) != 0;
    unsigned own = v->regs.ldr >> 24, to = d & 0xff;
    if (v->regs.dfr >> 28 == 15)
        return (own & to) != 0;
    if (v->regs.dfr >> 28 == 0)
        return own / 16 == to / 16 && (own & to & 15) != 0;
    return 0;
}

static reply model(sillwander_vcpu *v, size_t count, uint64_t sender, uint64_t offset, uint64_t value, uint64_t width, uint64_t active)
{
    reply none = {0, 0, 0, 0, 0}, r = none;
    if (count > 64 || sender >= count) {
        r.number = 5;
        return r;
    }
    sillwander_lapic_registers *own = &v[sender].regs;
    uint32_t low;
    if (offset == 0x300 && (width == 8) == own->x2apic) {
        low = (uint32_t)value & ~0x1000u;
        own->icr_lo = low;
        if (own->x2apic)
            own->icr_hi = (uint32_t)(value >> 32);
    } else if (offset == 0x3f0 && own->x2apic) {
        low = (value & 0xff) | 1 << 18; /* fixed, to self */
    } else {
        r.number = 2;
        return r;
    }
    unsigned mode = low >> 8 & 7, shorthand = low >> 18 & 3, vector = low & 0xff;
    uint32_t d = own->x2apic ? own->icr_hi : own->icr_hi >> 24;
    if (mode == 3 || mode == 7) {
        r.number = 3;
        return r;
    }
    if (mode == 0 && vector < 16) {
        own->esr_pending |= 1 << 5;
        return none;
    }
    if ((shorthand == 1 || shorthand == 2) && mode >= 4)
        return none;
    uint64_t mask = 0;
    for (unsigned i = 0; i < count; i++) {
        int is_active = (int)(active >> i & 1), hit;
        if (shorthand == 1)
            hit = i == sender;
        else if (shorthand == 2)
            hit = is_active;
        else if (shorthand == 3)
            hit = is_active && i != sender;
        else if (d == (own->x2apic ? 0xffffffffu : 0xffu))
            hit = is_active;
        else if (low >> 11 & 1) {
            if (is_active && !v[i].regs.x2apic && v[i].regs.dfr >> 28 != 15 && v[i].regs.dfr >> 28 != 0) {
                r.number = 3;
                return r;
            }
            hit = is_active && takes(&v[i], i, d);
        } else {
            if (d > 63) {
                r.number = 5;
                return r;
            }
            hit = i == d;
        }
        mask |= (uint64_t)hit << i;
    }
    if (mask == 0 || mode == 1 || mode == 2)
        return none;
    for (unsigned i = 0; i < count; i++) {
        if (!(mask >> i & 1))
            continue;
        if (mode == 0) {
            v[i].regs.irr[vector / 32] |= 1u << vector % 32;
            v[i].regs.tmr[vector / 32] &= ~(1u << vector % 32);
        } else if (mode == 4) {
            v[i].nmi = true;
        } else if (mode == 5) {
            v[i].init = true;
        } else {
            v[i].startup = true;
            v[i].startup_vector = (uint8_t)vector;
        }
    }
    r.count = 2;
    r.kind = mode;
    r.vector = vector;
    r.mask = mask;
    return r;
}

/* ---- A call, compared */

static void call(size_t count, uint64_t sender, uint64_t offset, uint64_t value, uint64_t width, uint64_t active)
{
    sillwander_vcpu *lent = (sillwander_vcpu *)(end - count * sizeof *lent);
    memcpy(lent, before, count * sizeof *lent);
    memcpy(expected, before, count * sizeof *lent);
    reply r = model(expected, count, sender, offset, value, width, active);
    sillwander_sent s = sillwander_vcpus_send(lent, count, sender, offset, value, width, active);
    calls++;
    sent += r.count != 0;
    refused[r.number]++;
    int same = SILLWANDER_REFUSAL(s.code) == r.number && SILLWANDER_COUNT(s.code) == r.count && s.mask == r.mask;
    if (r.count == 2)
        same = same && SILLWANDER_OF_TWO(s.code, 0) == r.kind && SILLWANDER_OF_TWO(s.code, 1) == r.vector;
    same = same && memcmp(lent, expected, count * sizeof *lent) == 0;
    if (!same && wrong++ < SHOWN)
        printf("vcpus.c: count %lu, sender %lu, offset %#lx, value %#lx, width %lu, active %#lx: code %#lx, mask %#lx; expected number %u, count %u, mask %#lx, or other records\n",
               (unsigned long)count, (unsigned long)sender, (unsigned long)offset, (unsigned long)value, (unsigned long)width, (unsigned long)active,
               (unsigned long)s.code, (unsigned long)s.mask, r.number, r.count, (unsigned long)r.mask);
}

/* A command by the sender's own road: the destination in its ICR first, or in the value. */
static void command(size_t count, uint64_t sender, uint32_t low, uint32_t d, uint64_t active)
{
    if (sender < count && before[sender].regs.x2apic) {
        call(count, sender, 0x300, (uint64_t)d << 32 | low, 8, active);
    } else {
        if (sender < count)
            before[sender].regs.icr_hi = d << 24;
        call(count, sender, 0x300, low, 4, active);
    }
}

static void fresh(size_t count)
{
    memset(before, 0, sizeof before);
    for (size_t i = 0; i < count; i++) {
        before[i].regs.id = (uint32_t)(7 * i + 1); /* isn't asked */
        before[i].regs.dfr = 0xffffffff;
        before[i].regs.svr = 0xff;
        before[i].regs.tmr[2] = 0xffffffff; /* an edge request clears it */
    }
}

static const uint64_t actives[] = {~0ull, 0, 1, 0x8000000000000000u, 0x5555555555555555u, 0xffffffff00000000u};
enum { ACTIVES = sizeof actives / sizeof actives[0], LOGICAL = 1 << 11 };

/* ---- Masks by hand

   Intel SDM volume 3, the APIC chapter, logical destination mode. Flat: a receiver takes the message if a bit of the destination is set in its LDR. Cluster: bits 7:4 are
   the cluster's number, and a bit in common below them. All ones is everybody. x2APIC: the LDR of id n is n / 16 in bits 31:16 and the one bit n % 16 below. Here the LDRs
   are, flat: bit i of vCPU i, of eight; cluster: four vCPUs each in clusters 0 and 1. */
enum { FLAT, CLUSTER, X2APIC };
static const struct {
    unsigned model;
    uint32_t d;
    uint64_t active, mask;
} by_hand[] = {
    {FLAT, 0x01, 0xff, 0x01},
    {FLAT, 0x80, 0xff, 0x80},
    {FLAT, 0xa5, 0xff, 0xa5},
    {FLAT, 0x00, 0xff, 0x00},
    {FLAT, 0xff, 0xff, 0xff},
    {FLAT, 0x3c, 0x0f, 0x0c}, /* four of them are active */
    {FLAT, 0xf0, 0x0f, 0x00},
    {CLUSTER, 0x01, 0xff, 0x01}, /* vCPU 0, and not 4, which is the same member of cluster 1 */
    {CLUSTER, 0x0f, 0xff, 0x0f},
    {CLUSTER, 0x11, 0xff, 0x10},
    {CLUSTER, 0x16, 0xff, 0x60}, /* members 1 and 2 of cluster 1: vCPUs 5 and 6 */
    {CLUSTER, 0x1f, 0x55, 0x50},
    {CLUSTER, 0x10, 0xff, 0x00}, /* no member */
    {CLUSTER, 0x2f, 0xff, 0x00}, /* nobody's cluster */
    {CLUSTER, 0xff, 0xff, 0xff},
    {X2APIC, 0x00000001, ~0ull, 0x0000000000000001},
    {X2APIC, 0x0000ffff, ~0ull, 0x000000000000ffff},
    {X2APIC, 0x00010180, ~0ull, 0x0000000001800000}, /* members 7 and 8 of cluster 1: vCPUs 23 and 24 */
    {X2APIC, 0x00018000, ~0ull, 0x0000000080000000},
    {X2APIC, 0x00020008, ~0ull, 0x0000000800000000}, /* vCPU 35 */
    {X2APIC, 0x0003ffff, ~0ull, 0xffff000000000000},
    {X2APIC, 0x00038001, 0x8000000000000000, 0x8000000000000000},
    {X2APIC, 0x00020000, ~0ull, 0x0000000000000000},
    {X2APIC, 0x00040001, ~0ull, 0x0000000000000000}, /* would be vCPU 64 */
    {X2APIC, 0xffffffff, 0x00f0, 0x00000000000000f0},
};

static void table(void)
{
    static const uint8_t members[] = {0x01, 0x02, 0x04, 0x08, 0x11, 0x12, 0x14, 0x18};
    for (unsigned k = 0; k < sizeof by_hand / sizeof by_hand[0]; k++) {
        size_t count = by_hand[k].model == X2APIC ? 64 : 8;
        sillwander_vcpu *lent = (sillwander_vcpu *)(end - count * sizeof *lent);
        fresh(count);
        for (size_t i = 0; i < count; i++) {
            before[i].regs.x2apic = by_hand[k].model == X2APIC;
            before[i].regs.dfr = by_hand[k].model == CLUSTER ? 0x0fffffff : 0xffffffff;
            if (by_hand[k].model != X2APIC)
                before[i].regs.ldr = (by_hand[k].model == CLUSTER ? members[i] : 1u << i) << 24;
        }
        before[2].regs.icr_hi = by_hand[k].d << 24;
        memcpy(lent, before, count * sizeof *lent);
        sillwander_sent s = by_hand[k].model == X2APIC ? sillwander_vcpus_send(lent, count, 2, 0x300, (uint64_t)by_hand[k].d << 32 | LOGICAL | 0x41, 8, by_hand[k].active)
                                                      : sillwander_vcpus_send(lent, count, 2, 0x300, LOGICAL | 0x41, 4, by_hand[k].active);
        calls++;
        int same = SILLWANDER_REFUSAL(s.code) == 0 && s.mask == by_hand[k].mask;
        for (size_t i = 0; i < count; i++)
            same = same && lent[i].regs.irr[2] == (by_hand[k].mask >> i & 1 ? 2u : 0u); /* vector 0x41 */
        if (!same) {
            wrong++;
            printf("vcpus.c: by hand, row %u: code %#lx, mask %#lx, or other requests\n", k, (unsigned long)s.code, (unsigned long)s.mask);
        }
    }
}

/* Every destination byte: LDRs that have one bit each, none, several; `model_of` names each receiver's DFR model. */
static void bytes(unsigned which)
{
    for (size_t count = 1; count <= 64; count = count * 2 + 1 < 64 ? count * 2 + 1 : count + 1) {
        fresh(count);
        for (size_t i = 0; i < count; i++) {
            int is_cluster = which == 1 || (which == 2 && i % 2);
            before[i].regs.dfr = is_cluster ? 0x0fffffff : 0xffffffff;
            before[i].regs.ldr = is_cluster ? (uint32_t)(i / 4 % 15 << 28 | (i % 5 == 4 ? 15u : 1u << i % 4) << 24) : (uint32_t)((i % 9 == 8 ? 0u : 1u << i % 8) << 24);
            before[i].regs.x2apic = which == 3 && i % 3 == 2;
        }
        for (unsigned a = 0; a < ACTIVES; a++)
            for (uint32_t d = 0; d < 256; d++)
                for (uint64_t sender = 0; sender < 4 && sender < count; sender += 2) {
                    command(count, sender, LOGICAL | 0x41, d, actives[a]);
                    command(count, sender, 0x41, d, actives[a]);
                }
    }
}

static void members_of(uint32_t cluster, uint32_t members)
{
    for (unsigned a = 0; a < ACTIVES; a++)
        command(64, 3, LOGICAL | 0x41, cluster << 16 | members, actives[a]);
    command(64, 3, LOGICAL | 0x41, 0x8000u << 16 | cluster << 16 | members, ~0ull);
}

static void clusters(void)
{
    fresh(64);
    for (size_t i = 0; i < 64; i++)
        before[i].regs.x2apic = true;
    for (uint32_t cluster = 0; cluster < 6; cluster++) {
        for (uint32_t members = 0; members < 256; members++)
            members_of(cluster, members);
        for (unsigned k = 0; k < 16; k++) {
            members_of(cluster, 1u << k);
            members_of(cluster, 0xffff ^ 1u << k);
        }
        members_of(cluster, 0xffff);
    }
    command(64, 3, LOGICAL | 0x41, 0xffffffff, 0x0f0f);
    command(64, 3, LOGICAL | 0x41, 0xffff0001, ~0ull);
    for (uint32_t d = 0; d < 256; d++)
        command(64, 3, 0x41, d, 0);
}

/* Delivery modes, shorthands, vectors, and every reason to refuse; a reserved model on each side of who is active and who sends. */
static void kinds(void)
{
    static const uint32_t vectors[] = {0, 15, 16, 31, 32, 0x41, 255};
    for (unsigned x2 = 0; x2 < 2; x2++)
        for (unsigned reserved = 0; reserved < 5; reserved++) {
            fresh(5);
            for (size_t i = 0; i < 5; i++) {
                before[i].regs.ldr = 1u << (24 + i);
                before[i].regs.x2apic = x2 ? i != 4 : 0;
            }
            if (reserved)
                before[reserved - 1].regs.dfr = 0x1fffffff;
            for (uint32_t mode = 0; mode < 8; mode++)
                for (uint32_t shorthand = 0; shorthand < 4; shorthand++)
                    for (unsigned v = 0; v < sizeof vectors / sizeof vectors[0]; v++)
                        for (uint32_t bits = 0; bits < 4; bits++) { /* logical; delivery status, level and trigger mode */
                            uint32_t low = vectors[v] | mode << 8 | (bits & 1) << 11 | (bits & 2 ? 0xd000u : 0) | shorthand << 18;
                            static const uint32_t ds[] = {0, 1, 4, 5, 31, 63, 64, 0xff, 0xffffffff};
                            for (unsigned k = 0; k < sizeof ds / sizeof ds[0]; k++)
                                for (uint64_t sender = 0; sender < 5; sender += 4)
                                    command(5, sender, low, ds[k], k % 2 ? 0x1f : 0x0b);
                        }
            for (uint64_t width = 0; width < 20; width++)
                for (uint64_t sender = 0; sender < 7; sender++) {
                    call(5, sender, 0x300, 0x441, width, 0x1f);
                    call(5, sender, 0x3f0, 0x7fffff0000000000u | (width + 10), width, 0);
                    call(5, sender, 0x310, 0x41, width, 0x1f);
                    call(5, sender, 0x300 + ((uint64_t)1 << 32), 0x41, width, 0x1f);
                }
        }
}

/* Counts and senders at their limits. */
static void limits(void)
{
    static const uint64_t senders[] = {0, 1, 62, 63, 64, 65, 69, 1u << 31, ~0ull};
    for (size_t count = 0; count <= MOST; count++)
        for (unsigned k = 0; k < sizeof senders / sizeof senders[0]; k++) {
            fresh(count);
            command(count, senders[k], 2 << 18 | 0x41, 0, ~0ull);
            call(count, senders[k], 0x300, 0x700, 8, ~0ull);
            call(count, senders[k], 0, 0, 0, 0);
        }
}

static void anything(void)
{
    for (unsigned turn = 0; turn < 40000; turn++) {
        size_t count = made_up() % 67;
        for (size_t k = 0; k + 8 <= count * sizeof before[0]; k += 8) {
            uint64_t eight = made_up();
            memcpy((char *)before + k, &eight, sizeof eight);
        }
        for (size_t i = 0; i < count; i++) {
            uint64_t few = made_up();
            before[i].regs.x2apic = few & 1;
            memset((char *)&before[i].regs + 1, 0, 3);
            before[i].nmi = few >> 1 & 1;
            before[i].init = few >> 2 & 1;
            before[i].startup = few >> 3 & 1;
            if (few >> 4 & 7) /* mostly a model that there is */
                before[i].regs.dfr = few >> 7 & 1 ? 0xffffffff : 0x0fffffff;
        }
        uint64_t value = made_up();
        if (made_up() & 1)
            value &= 0x0003003f000cffffu;
        uint64_t sender = made_up() % (count + 2);
        uint64_t offset = made_up() % 4 ? 0x300 : 0x3f0;
        uint64_t width = sender < count && before[sender].regs.x2apic ? 8 : 4;
        if (made_up() % 8 == 0)
            width = made_up() % 12;
        uint64_t active = made_up();
        call(count, sender, offset, value, width, active);
    }
}

/* The registers of a record as words, and back. */
static void words(void)
{
    sillwander_vcpu one, other;
    uint64_t held[48];
    memset(&one, 0, sizeof one);
    memset(&other, 0, sizeof other);
    memset(held, 0x5a, sizeof held);
    uint32_t *own = &one.regs.id;
    for (int k = 0; k < 17; k++)
        own[k] = 0x80000000u + (uint32_t)k;
    for (int k = 0; k < 8; k++) {
        one.regs.isr[k] = 0x100u + (uint32_t)k;
        one.regs.tmr[k] = 0x200u + (uint32_t)k;
        one.regs.irr[k] = 0x300u + (uint32_t)k;
    }
    one.regs.x2apic = true;
    sillwander_vcpu_to_words(&one, held);
    int same = held[0] == 1 && held[1] == 0x80000000u && held[4] == 0x80000003u && held[17] == 0x80000010u && held[18] == 0x100 && held[26] == 0x200 && held[41] == 0x307 &&
               held[42] == 0x5a5a5a5a5a5a5a5au;
    sillwander_vcpu_from_words(&other, held);
    calls++;
    if (!same || memcmp(&one, &other, sizeof one) != 0) {
        wrong++;
        printf("vcpus.c: a record's registers as words, or back\n");
    }
}

int main(void)
{
    _Static_assert(sizeof(sillwander_vcpu) == 172 && offsetof(sillwander_vcpu, regs.id) == 4 && offsetof(sillwander_vcpu, regs.irr) == 136 && offsetof(sillwander_vcpu, nmi) == 168 &&
                       offsetof(sillwander_vcpu, startup_vector) == 171,
                   "the layout");
    char *pages = mmap(NULL, (PAGES + 1) * PAGE, PROT_READ | PROT_WRITE, MAP_PRIVATE | MAP_ANONYMOUS, -1, 0);
    if (pages == MAP_FAILED || mprotect(pages + PAGES * PAGE, PAGE, PROT_NONE) != 0) {
        printf("vcpus.c: no memory\n");
        return 1;
    }
    end = pages + PAGES * PAGE;
    table();
    for (unsigned which = 0; which < 4; which++)
        bytes(which);
    clusters();
    kinds();
    limits();
    anything();
    words();
    printf("%lu interrupt commands among several vCPUs, %lu sent, refused %lu (2), %lu (3), %lu (5): %lu wrong\n", calls, sent, refused[2], refused[3], refused[5], wrong);
    return wrong != 0 || sent < 1000 || refused[2] < 100 || refused[3] < 100 || refused[5] < 100;
}
