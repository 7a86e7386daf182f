/*
 * Sillwander: the interrupt controllers of a small hypervisor, proved.
 *
 * A chip's state is an array of words that the caller owns and lends for a call. There is no allocation, no global and
 * no lock: two calls that lend the same words must not overlap in time. Any words may be lent (but for the flags of
 * several vCPUs' records, below) and every call takes any numbers: nothing faults. What words that no state has stand
 * for is said at each layout. No pointer may be null, also where the call writes nothing through it, and the arrays
 * lent to one call may not overlap.
 *
 * Every call answers one number, its code (that of several vCPUs has a mask beside it):
 *
 *   bits 63..56   why the call was refused (the numbers below), or 0: done
 *   bits 55..48   how many values it answers: 0, 1, 2 or 3
 *   one value     bits 31..0
 *   two values    24 bits each: bits 23..0 and 47..24
 *   three values  16 bits each: bits 15..0, 31..16 and 47..32
 *
 * so that 0 is "done, and nothing to say". A refused call leaves all lent words as they were, but for an interrupt
 * command that is refused for its kind or destination, which has stored its command words, and for a claim whose vector
 * found no place in a waiting list, which is restored.
 *
 * Flags come in as numbers: any but 0 is up. Other numbers come in at full width, and one that doesn't fit is refused,
 * never cut.
 *
 * The archives use the xmm registers: a caller that holds a guest's has to save them first. They use the red zone, the
 * 128 bytes below the stack pointer: on a stack on which interrupts are taken too, as a kernel's, these have to be off
 * during a call, and NMIs and other exceptions need a stack of their own. A call takes at most 4 KB of stack,
 * sillwander_image_restore 12 KB. libimage_c.a and libplanner_c.a call memcpy, and libimage_c.a memset, as compiled
 * code does: a host without a C library supplies them.
 */
#ifndef SILLWANDER_H
#define SILLWANDER_H

#include <stdbool.h>
#include <stddef.h>
#include <stdint.h>

#ifdef __cplusplus
extern "C" {
#endif

/* ---- Codes */

#define SILLWANDER_REFUSAL(code) ((unsigned)((uint64_t)(code) >> 56))
#define SILLWANDER_COUNT(code) ((unsigned)((uint64_t)(code) >> 48 & 0xff))
#define SILLWANDER_VALUE(code) ((uint32_t)(code)) /* the one value */
/* Value k, from 0, of two, and of three. */
#define SILLWANDER_OF_TWO(code, k) ((uint32_t)((uint64_t)(code) >> (24 * (k)) & 0xffffff))
#define SILLWANDER_OF_THREE(code, k) ((uint32_t)((uint64_t)(code) >> (16 * (k)) & 0xffff))

/* The numbers of refusals. */
#define SILLWANDER_UNSUPPORTED 1      /* an access width, a port that the PIC doesn't have, or a version or rule that
                                         there isn't */
#define SILLWANDER_INVALID_REGISTER 2 /* a local register not listed for that use, or written in the wrong mode or
                                         width; a lowest vector above a highest */
#define SILLWANDER_INVALID_DELIVERY 3 /* an interrupt command's delivery mode, or the destination format's model */
#define SILLWANDER_INVALID_ADDRESS 4  /* an address below the I/O APIC, or a base and size whose sum doesn't fit in 64
                                         bits */
#define SILLWANDER_OUT_OF_RANGE 5     /* a vector, destination, vCPU count or id, or PIC line that is too large; more
                                         than 24 lines to plan */
#define SILLWANDER_NO_PLAN 8          /* lines that can't each have a vector of their own */
#define SILLWANDER_LIST_FULL 9        /* a vCPU's waiting list with no place left */
#define SILLWANDER_BAD_IMAGE 10       /* bytes that aren't the image of any state that keeps its chips' rules */
#define SILLWANDER_TOO_SHORT 11       /* a lent buffer with fewer bytes than what goes into it */

/*
 * ---- I/O APIC: 32 words
 *
 *    0..23   the redirection entries' registers
 *   24       bit g: a level interrupt of entry g is deferred
 *   25       bit g: line g is up
 *   26       the selector, bits 31..0
 *   27, 28   base address and size
 *   29       the version: 0x20; any other number is 0x11
 *   30       bit g: entry g is in flight, the same as bit 14 of its register
 *   31       spare: 0 in a new state, and no call reads or writes it
 *
 * Bits of words 24 to 26 and 30 that stand for nothing are ignored; a new state has them 0, and every other call keeps
 * them (but sillwander_image_restore, which makes spare words, and bits that stand for nothing, 0: in every chip's
 * words).
 * Word 30 is there so that an EOI looks only at the entries in flight: it decides which ones, on any words. A new
 * state's agrees with the registers, and so it does after every call on words where it agreed. A caller that writes a
 * register's bit 14 itself has to write word 30 too: an EOI passes over an entry whose bit is missing there.
 */
#define SILLWANDER_IOAPIC_WORDS 32

/* A new I/O APIC of version 0x20. Refused: 4 where base + size is 2^64 or more. */
uint64_t sillwander_ioapic_new(uint64_t words[32], uint64_t base, uint64_t size);

/* A new I/O APIC of version 0x11 or 0x20. Refused: 1 for another number, then 4 as above. The refusal 1 is the
   boundary's own: behind it a version is one of the two, and nothing else can be said. */
uint64_t sillwander_ioapic_new_version(uint64_t words[32], uint64_t base, uint64_t size, uint64_t version);

/* A new I/O APIC of version 0x20 at 0xfec00000, of size 0x1000. Answers 0. */
uint64_t sillwander_ioapic_new_default(uint64_t words[32]);

/* The same of version 0x11 or 0x20. Refused: 1 for another number. */
uint64_t sillwander_ioapic_new_default_version(uint64_t words[32], uint64_t version);

/* The vector programmed for a line: one value, or none where its entry is masked, isn't of fixed delivery or has a
   vector below 16, and from line 24 up. */
uint64_t sillwander_ioapic_vector_for_gsi(const uint64_t words[32], uint64_t gsi);

/* Sends a line's interrupt, its level left as it is. Two values, vector and 1 for level or 0 for edge, or none. */
uint64_t sillwander_ioapic_assert_gsi(uint64_t words[32], uint64_t gsi);

/* Moves a line up or down. Answers as sillwander_ioapic_assert_gsi does. */
uint64_t sillwander_ioapic_set_gsi_level(uint64_t words[32], uint64_t gsi, uint64_t asserted);

/* An EOI broadcast. Version 0x11: three values, the line that it ended and the vector and level that it sends again;
   one value, the line, where nothing is sent. Version 0x20: two values, the set of lines that it ended and the set of
   those whose interrupt is sent again, a bit for each line. None where no line in flight has the vector. Refused: 5 for
   a vector above 255. */
uint64_t sillwander_ioapic_end_of_interrupt(uint64_t words[32], uint64_t vector);

/* Writes the base and the end, which is not in it, to range[0] and range[1]. Refused: 4 for words whose base + size is
   2^64 or more. */
uint64_t sillwander_ioapic_address_range(const uint64_t words[32], uint64_t range[2]);

/* A memory read: one value. Refused: 1 for a width other than 4 and 8, then 4 for an address below the base. */
uint64_t sillwander_ioapic_handle_read(const uint64_t words[32], uint64_t addr, uint64_t width);

/* A memory write, of the value's low 32 bits. Refused as a read is. Version 0x11 answers none. In version 0x20 a write
   at base + 0x40 is an EOI of the value's low 8 bits, and answers as one; and a low word, of which bits 12 and 14
   aren't written (an edge word clears bit 14), that leaves its entry fit to be sent, level-triggered and not in flight
   with its line up sends at once: two values, vector and level, as sillwander_ioapic_assert_gsi has them. Which of the
   two a write's values are goes by its address. */
uint64_t sillwander_ioapic_handle_write(uint64_t words[32], uint64_t addr, uint64_t width, uint64_t value);

/*
 * ---- The pair of 8259s: 4 words
 *
 *    0   the master, 1 the slave:
 *          bits  7..0   base vector        bits 39..32  initialisation step
 *          bits 15..8   mask               bit  40      ICW4 is expected
 *          bits 23..16  requests           bit  41      single
 *          bits 31..24  in service         bit  42      automatic EOI
 *                                          bit  43      a command port reads the lines in service
 *    2   the rule: 1 or 2; any other number is 0
 *    3   spare: 0 in a new state, and no call reads or writes it
 *
 * By rule 2 words 0 and 1 have, besides,
 *          bits 46..44  the line of highest priority, which stands after the lowest: 0 where line 7 is lowest
 *          bit  47      rotation in automatic EOI mode
 *          bit  48      special mask mode
 *          bit  49      a poll waits for the next read
 *          bit  50      special fully nested mode (on the slave it does nothing)
 * and bits 63..51 are ignored. By the other rules bits 63..44 are. A new pair has all of them 0, and every other call
 * keeps what is ignored.
 *
 * Rule 1 is the 8259A's cascade: a call that changes the pair leaves the master's request 2 set exactly when a request
 * of the slave counts, one that is unmasked and above every line in service on the slave. By rule 0 request 2 is a
 * latch, which a slave's line sets and one acknowledgement clears for all lines that wait.
 * Rule 2 is the full 8259A profile: rule 1's cascade, and each chip takes all eight OCW2 commands, rotation with them;
 * its priorities, and with them which request counts, start after the chip's lowest line. A restore doesn't turn
 * priorities back. OCW3 and ICW4 are taken too: in special mask mode a masked line in service blocks none and no plain
 * EOI ends it; after a poll command the next read of either port of that chip is an acknowledgement; in special fully
 * nested mode the master takes line 2 again while it is in service. ICW1 clears the mask and every mode, and makes line
 * 7 lowest.
 */
#define SILLWANDER_PIC_WORDS 4

/* A new pair of rule 1. Answers 0. */
uint64_t sillwander_pic_new(uint64_t words[4]);

/* A new pair of rule 0, 1 or 2. Refused: 1 for another number. That refusal is the boundary's own: in the core the rule
   is a type of three values, and a new pair is never refused. */
uint64_t sillwander_pic_new_rule(uint64_t words[4], uint64_t rule);

/* Writes the first and last port of the master and of the slave to ranges[0..3]. Answers 0. */
uint64_t sillwander_pic_port_ranges(uint64_t ranges[4]);

/* An edge on a line, and a claim of what can be delivered. Three values, vector, line and flags (1: an in-service bit
   of the master's was set by it, 2: one of the slave's), or none. A line from 16 up does nothing. */
uint64_t sillwander_pic_claim_irq(uint64_t words[4], uint64_t irq);

/* A claim of what can be delivered. Answers as sillwander_pic_claim_irq does. */
uint64_t sillwander_pic_claim_pending_interrupt(uint64_t words[4]);

/* As the two before, but the vector is the one value: such a claim can't be restored. */
uint64_t sillwander_pic_pulse_irq(uint64_t words[4], uint64_t irq);
uint64_t sillwander_pic_next_interrupt(uint64_t words[4]);

/* Restores a claim whose vector couldn't be published: `claim` is the code that the claim answered. Refused: 5 for a
   number that no claim answers (not of three values, a vector above 255, a line from 16 up or flags above 3). */
uint64_t sillwander_pic_restore_interrupt(uint64_t words[4], uint64_t claim);

/* A port read: one value. By rule 2, where a poll waits on the port's chip, it is an acknowledgement, and shows 0x80
   plus the line, or 0 where no request counts; no other read changes the words. Refused: 1 for a width other than 1 or
   a port that the pair doesn't have. */
uint64_t sillwander_pic_handle_read(uint64_t words[4], uint64_t port, uint64_t width);

/* A port write, of the value's low 8 bits. Refused as a read is. */
uint64_t sillwander_pic_handle_write(uint64_t words[4], uint64_t port, uint64_t width, uint64_t value);

/*
 * ---- Local APIC: 48 words
 *
 *    0   x2APIC mode where it isn't 0            9   ICR, low word        16  LVT LINT1
 *    1   id                                     10   ICR, high word       17  LVT error
 *    2   TPR    6   SVR                         11   LVT CMCI             18..25  ISR, eight words of 32 bits
 *    3   PPR    7   ESR                         12   LVT timer            26..33  TMR, likewise
 *    4   LDR    8   errors since ESR was        13   LVT thermal          34..41  IRR, likewise
 *    5   DFR        last written                14   LVT counters         42..47  spare: a call named new makes
 *                                               15   LVT LINT0                    them 0, no other touches them
 *
 * Of words 1 to 41 bits 31..0 count; what a call stores has the bits above them 0. Word 0 is 0 or 1 where a call stored
 * it.
 */
#define SILLWANDER_LAPIC_WORDS 48

/* The local APIC of vCPU 0 in xAPIC mode. Answers 0. */
uint64_t sillwander_lapic_new(uint64_t words[48]);

/* A new local APIC in the place of this one. Refused: 5 for a count above 64 or an id above 63. */
uint64_t sillwander_lapic_setup(uint64_t words[48], uint64_t x2apic, uint64_t vcpu_id, uint64_t vcpu_num);

/* The processor accepted an interrupt. Answers 0. Refused: 5 for a vector above 255. */
uint64_t sillwander_lapic_accept_interrupt(uint64_t words[48], uint64_t vector, uint64_t level_triggered);

/* A guest's EOI: one value, the vector that it broadcasts, or none. */
uint64_t sillwander_lapic_handle_eoi(uint64_t words[48]);

/* A register read at an offset: one value. Refused: 2. */
uint64_t sillwander_lapic_handle_read(const uint64_t words[48], uint64_t offset);

/* A register write at an offset, `width` bytes wide, in a VM of `vcpu_num` vCPUs of which those in the mask
   `active_vcpus` are active. None; or, for an interrupt command that sends, two values, kind (0 fixed, 4 NMI, 5 INIT, 6
   startup) and vector, and ipi[0] is the mask of the vCPUs that it is for. Any other answer leaves ipi[0] as it was. A
   write of the EOI register ends the vector in service and broadcasts nothing.
   Refused: 2 for a width above 255; then 5 for a count above 64 or an own id above 63; then 2 for a register that can't
   be written so, 3 for an interrupt command's delivery mode or the destination format's model, 5 for its destination.
   */
uint64_t sillwander_lapic_handle_write(uint64_t words[48], uint64_t offset, uint64_t value, uint64_t width,
                                       uint64_t vcpu_num, uint64_t active_vcpus, uint64_t ipi[1]);

/*
 * ---- A whole board: an I/O APIC of version 0x20, one local APIC and its request register
 *
 * The board's words are those of its two chips, in the layouts above: `ioapic` has 32, `apic` has 48, IRR with them.
 * They may lie anywhere, but not one over the other. What goes from chip to chip is the board's: what the I/O APIC
 * sends becomes a request (IRR), which sets or clears its trigger bit (TMR); acceptance moves the highest request into
 * service (ISR); an EOI goes back to the I/O APIC. A new board's SVR is 0xff, and no call of the board writes it; where
 * a caller sets its bit 12, EOIs aren't broadcast.
 *
 * The reading calls of the chips may be made on these words. Their other calls would go past the board:
 * sillwander_lapic_accept_interrupt, say, leaves no request, and a write of TPR (0x80) PPR as it was.
 * sillwander_lapic_handle_write at other offsets than 0x80 and 0xb0 touches nothing that the board goes by but SVR's
 * bit 12. On words whose version isn't 0x20 the I/O APIC is one of version 0x11; a board that began as a new one has
 * none such.
 */

/* A new board: the I/O APIC at 0xfec00000, of size 0x1000; the local APIC of vCPU 0 in xAPIC mode, nothing requested.
   Answers 0. */
uint64_t sillwander_board_new(uint64_t ioapic[32], uint64_t apic[48]);

/* Moves a line up or down, and requests what it sends. Two values, vector and 1 for level or 0 for edge, or none. */
uint64_t sillwander_board_set_gsi_level(uint64_t ioapic[32], uint64_t apic[48], uint64_t gsi, uint64_t asserted);

/* The guest accepts the highest request, if its class is above PPR's: one value, the vector, which is in service then;
   or none. */
uint64_t sillwander_board_accept_interrupt(uint64_t apic[48]);

/* The guest's EOI ends the highest vector in service. If that is level-triggered, the I/O APIC hears of it: two values,
   the set of lines that it ended and the set of those whose interrupt is sent again, and so requested. None where no
   vector is in service, it is edge-triggered, or no line in flight has it. */
uint64_t sillwander_board_handle_eoi(uint64_t ioapic[32], uint64_t apic[48]);

/* A write of TPR, of the value's low 8 bits; PPR follows. Answers 0. */
uint64_t sillwander_board_write_tpr(uint64_t apic[48], uint64_t value);

/* A memory write to the I/O APIC, and a request of what it sends. Answers and is refused as
   sillwander_ioapic_handle_write in version 0x20. */
uint64_t sillwander_board_handle_write(uint64_t ioapic[32], uint64_t apic[48], uint64_t addr, uint64_t width,
                                       uint64_t value);

/* A message: the request of a device without a line. Answers 0. A vector below 16 is dropped, and noted in word 8 (bit
   6, receive illegal vector). Refused: 5 for a vector above 255. */
uint64_t sillwander_board_receive(uint64_t apic[48], uint64_t vector, uint64_t level_triggered);

/*
 * ---- Several vCPUs: an array of records
 *
 * One record a vCPU, up to 64, and a vCPU's id is its record's place in the array; the `id` of its registers isn't
 * asked. A record has the registers of a local APIC, as the 48 words above have them, in the same order, and beside
 * them what waits for the processor. The caller takes a waiting NMI, INIT or start-up by storing false; a request by
 * clearing its bit of irr (isr, tmr and ppr are the caller's too, or sillwander_lapic_ calls': below).
 *
 * A bool has to be 0 or 1, as C's own stores leave it: nothing else in this file asks that of lent memory. The array
 * may not be null, also where the count is 0. It must have `count` records, also where the count is refused. All of
 * them are read and written back, those that don't change too: lock the whole array. The layout is C's on x86-64: 172
 * bytes, x2apic the byte at 0, id the four bytes at 4, .., irr those from 136 on, nmi at 168, init 169, startup 170,
 * startup_vector 171.
 */
typedef struct sillwander_lapic_registers {
    bool x2apic; /* else xAPIC mode */
    uint32_t id, tpr, ppr, ldr, dfr, svr, esr, esr_pending, icr_lo, icr_hi;
    uint32_t lvt_cmci, lvt_timer, lvt_thermal, lvt_pmi, lvt_lint0, lvt_lint1, lvt_error;
    uint32_t isr[8], tmr[8], irr[8]; /* vector v is bit v % 32 of word v / 32 */
} sillwander_lapic_registers;

typedef struct sillwander_vcpu {
    sillwander_lapic_registers regs;
    bool nmi, init, startup; /* an NMI, an INIT, a start-up IPI waits */
    uint8_t startup_vector;  /* of the last start-up IPI */
} sillwander_vcpu;

/* A code as every call answers one, and the vCPUs that an IPI was sent to. */
typedef struct sillwander_sent {
    uint64_t code;
    uint64_t mask;
} sillwander_sent;

/* A write of the ICR (offset 0x300) or of SELF IPI (0x3f0) by vCPU `sender`, `width` bytes wide, where the vCPUs in the
   mask `active` are active. Each vCPU is held against the destination by its own mode, LDR and DFR. An IPI answers two
   values, kind (0 fixed, 4 NMI, 5 INIT, 6 startup) and vector, and its mask; everything else answers mask 0. Changed:
   the sender's ICR words (by the ICR), its esr_pending (an illegal vector), and of the vCPUs in the mask an edge
   request (fixed), nmi, init, or startup and startup_vector. The other fields and the other records are as they were.
   Refused, in this order: 5 for a count above 64 or a sender that isn't below the count; 2 for another offset, for the
   ICR by 8 bytes in xAPIC mode or by another width in x2APIC mode, for SELF IPI in xAPIC mode; and then, with the ICR's
   words stored, 3 for delivery mode 3 or 7, 5 for a physical destination above 63, 3 for a logical one while some
   active vCPU in xAPIC mode has a DFR model other than 15 and 0. */
sillwander_sent sillwander_vcpus_send(sillwander_vcpu *records, size_t count, uint64_t sender, uint64_t offset,
                                      uint64_t value, uint64_t width, uint64_t active);

/* A record's registers as the 48 words of a local APIC, and back, so that the calls above serve a record. Plain copies,
   in C: words 1 to 41 are the 41 words from `id` on. The spare words aren't touched. */
static inline void sillwander_vcpu_to_words(const sillwander_vcpu *vcpu, uint64_t words[48])
{
    /* by bytes, which may be those of any object, and without memcpy: a freestanding C has no <string.h> */
    const unsigned char *own = (const unsigned char *)vcpu + offsetof(sillwander_vcpu, regs.id);
    words[0] = vcpu->regs.x2apic;
    for (int k = 0; k < 41; k++, own += 4)
        words[k + 1] = (uint32_t)own[3] << 24 | (uint32_t)own[2] << 16 | (uint32_t)own[1] << 8 | own[0];
}

static inline void sillwander_vcpu_from_words(sillwander_vcpu *vcpu, const uint64_t words[48])
{
    unsigned char *own = (unsigned char *)vcpu + offsetof(sillwander_vcpu, regs.id);
    vcpu->regs.x2apic = words[0] != 0;
    for (int k = 0; k < 41; k++, own += 4) {
        uint32_t word = (uint32_t)words[k + 1];
        own[0] = (unsigned char)word;
        own[1] = (unsigned char)(word >> 8);
        own[2] = (unsigned char)(word >> 16);
        own[3] = (unsigned char)(word >> 24);
    }
}

/*
 * ---- Vectors that don't collide
 *
 * A setup tool's lines want a vector each: `lines` of them, each with a range, a word made by SILLWANDER_RANGE. Vectors
 * already taken are a set of 256 in four words: vector v is bit v % 64 of word v / 64. A plan has a byte for each line,
 * its vector. No pointer may be null, also where there is nothing behind it, and what is written (plan, set) may not
 * overlap another argument's memory (ranges, taken).
 *
 * SILLWANDER_RANGE evaluates its ends more than once. An end that is no vector (above 255, or negative) isn't cut: it
 * makes a range whose lowest vector is above its highest, so that the planner refuses it with 2.
 */
#define SILLWANDER_RANGE(lowest, highest) \
    ((uint16_t)((((lowest) | (highest)) & ~0xffull) ? 0x00ffu : ((unsigned)(highest) << 8 | (unsigned)(lowest))))

/* The check of a proposal. One value: 1 if the plan has a byte for each line, a vector of the line's range, at least 32
   and not taken, and another one for each line; else 0. Bytes behind those of the lines don't count. */
uint64_t sillwander_plan_check(const uint16_t *ranges, size_t lines, const uint64_t taken[4], const uint8_t *plan,
                               size_t bytes);

/* A plan that passes the check is written, a byte for each line and nothing behind them. Refused, and the plan
   untouched, in this order: 5 more than 24 lines, 11 fewer bytes than lines, 2 a lowest vector above a highest, 8 no
   plan would pass. */
uint64_t sillwander_plan(const uint16_t *ranges, size_t lines, const uint64_t taken[4], uint8_t *plan, size_t bytes);

/* Why sillwander_plan refuses with 8. Two values, the ends of a range of vectors that has fewer free ones than there
   are lines confined to it; those lines go to set[0], bit k for line k. None where there is a plan, and set[0] stays.
   Refused: 5, then 2, as above. */
uint64_t sillwander_plan_shortage(const uint16_t *ranges, size_t lines, const uint64_t taken[4], uint64_t set[1]);

/*
 * ---- Interrupts that wait for a stopped vCPU: 66 bytes a vCPU
 *
 *    0..63   the places of a ring: a vector each
 *   64       the place of the oldest; another byte stands for its remainder by 64
 *   65       how many wait; a byte above 64 stands for 64
 *
 * 66 zeros are an empty list. The lists of a host's vCPUs lie one behind the other in `bytes` bytes, vCPU k's from byte
 * 66 * k on: there are bytes / 66 vCPUs, and no more than 64. A host that locks each vCPU by itself lends that vCPU's
 * 66 bytes alone, and calls it vCPU 0. Lists and a pair's words may not overlap.
 *
 * Every call refuses an unknown vCPU with 5 before it does anything else.
 */
#define SILLWANDER_LIST_BYTES 66
#define SILLWANDER_LIST_PLACES 64

/* The vCPU's list is empty: what waited is gone. */
uint64_t sillwander_waiting_new(uint8_t *lists, size_t bytes, size_t vcpu_id);

/* Takes a vector in, behind those that wait. Refused: 5 for a number above 255 too; 9 exactly if 64 wait. */
uint64_t sillwander_waiting_take(uint8_t *lists, size_t bytes, size_t vcpu_id, uint64_t vector);

/* Delivers the oldest. One value, the vector; none if nothing waits. */
uint64_t sillwander_waiting_deliver(uint8_t *lists, size_t bytes, size_t vcpu_id);

/* Cancels the oldest of a vector. One value, the vector; none if it doesn't wait. Refused: 5 for a number above 255
   too. */
uint64_t sillwander_waiting_cancel(uint8_t *lists, size_t bytes, size_t vcpu_id, uint64_t vector);

/* One value: how many wait. */
uint64_t sillwander_waiting_count(const uint8_t *lists, size_t bytes, size_t vcpu_id);

/* One value: the vector that waits behind `place` others; none if so many don't wait. */
uint64_t sillwander_waiting_peek(const uint8_t *lists, size_t bytes, size_t vcpu_id, size_t place);

/* As sillwander_pic_claim_irq and sillwander_pic_claim_pending_interrupt on the pair's words, and the claimed vector
   goes into the vCPU's list: the same three values. Refused: 5 before the line is raised; 9 if something was claimed
   and 64 wait: the claim is restored then, as sillwander_pic_restore_interrupt would, and the raised line stays
   latched. A claim that finds nothing is done, also with a full list. */
uint64_t sillwander_waiting_claim_irq(uint8_t *lists, size_t bytes, uint64_t pic[4], size_t vcpu_id, uint64_t irq);
uint64_t sillwander_waiting_claim_pending_interrupt(uint8_t *lists, size_t bytes, uint64_t pic[4], size_t vcpu_id);

/*
 * ---- Moving a running guest between hosts: an image of 628 bytes
 *
 * An image holds the words of a board and of the pair, in the layouts above: tagged fields, which docs/IMAGE.md lists.
 * One state has one image: version, mode and rule are written as what they mean, of the other words the bytes that
 * stand for something, and of base, size and spare words nothing. What isn't in it: waiting lists and the records of
 * several vCPUs, which the caller moves himself (they are plain bytes), and whatever he keeps besides, the levels of
 * his devices' lines among it.
 *
 * The I/O APIC may be of either version and the pair of any rule; base and size are 0xfec00000 and 0x1000. Arrays,
 * words and bytes, may not overlap, and no pointer may be null.
 */
#define SILLWANDER_IMAGE_SIZE 628

/* Writes the image to the buffer's start. One value, its length, 628; what is behind it in a longer buffer stays. Takes
   any words. sillwander_image_restore takes the image exactly if these keep their chips' rules, which a new board and
   pair do, and what their calls make of them; what isn't in an image isn't asked: words at another base or size, or
   with bits set that stand for nothing, write the image of those without, and so are restored at the base and size
   above with those bits 0. Refused, and the buffer untouched: 11 for fewer than 628 bytes. */
uint64_t sillwander_image_save(const uint64_t ioapic[32], const uint64_t apic[48], const uint64_t pic[4],
                               uint8_t *image, size_t bytes);

/* Restores what was saved: every word is written, the spare ones and the bits that stand for nothing as 0. Answers 0.
   Refused, and every word as it was: 10 for bytes that no state which keeps the rules writes. They are: word 30 of the
   I/O APIC agrees with its registers; an interrupt is deferred only in flight, and in flight only level-triggered (in
   version 0x11: and fit to be sent); bit 12 of a register is clear in version 0x20; each local register holds what it
   can store (the id a byte in xAPIC mode); nothing is requested or in service below vector 16; PPR follows TPR and the
   highest vector in service; of the pair, a base is a multiple of 8 and a step at most 3, what belongs to rule 2 is 0
   by another rule, and by rules 1 and 2 the master's request 2 is set exactly when a request of the slave counts. */
uint64_t sillwander_image_restore(const uint8_t *image, size_t bytes, uint64_t ioapic[32], uint64_t apic[48],
                                  uint64_t pic[4]);

#ifdef __cplusplus
}
#endif

#endif
