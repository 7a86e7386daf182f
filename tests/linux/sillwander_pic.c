/*
 * The pair of 8259s of a PC in QEMU, by Sillwander: a device in the place of QEMU's own two "isa-i8259" (hw/intc/i8259.c).
 *
 * All that the chips do is in include/sillwander.h. What is left for a machine's side is here: wires come in, INT goes out to the processor, the processor's
 * acknowledge cycle is a claim, and the guest's reads and writes of ports are passed on. QEMU holds its big lock around each of these, so no two calls overlap.
 *
 * The pair hears edges. A PC has level lines besides: ELCR, two ports of the south bridge, says which ones. Such a line asks for as long as it is up, so the pair
 * gets an edge whenever the line is up and could be taken: neither requested, nor in service, nor masked. The request of a line that goes down while it waits
 * isn't taken back (docs/DIFFERENCES.md, D-15): the guest gets one interrupt with nothing behind it. They are counted, as `late`.
 */
#include "qemu/osdep.h"
#include "hw/intc/i8259.h"
#include "hw/irq.h"
#include "hw/isa/isa.h"
#include "hw/qdev-properties.h"
#include "migration/vmstate.h"
#include "qapi/error.h"
#include "sysemu/runstate.h"
#include "sillwander.h"
#include "sillwander_log.h"

/* The layout of the words, as the header has it: of line n's chip, word n / 8. */
#define MASK 8
#define REQUESTS 16
#define IN_SERVICE 24
#define HAS(s, line, what) ((s)->words[(line) / 8] >> ((what) + (line) % 8) & 1)

#define TYPE_SILLWANDER_PIC "isa-i8259"
OBJECT_DECLARE_SIMPLE_TYPE(SillwanderPic, SILLWANDER_PIC)

struct SillwanderPic {
    ISADevice parent;
    MemoryRegion ports[2], elcr_ports;
    qemu_irq intr;
    uint64_t words[SILLWANDER_PIC_WORDS];
    uint8_t rule;
    uint16_t up, elcr;
    struct {
        unsigned long up, down, latched, restored, claims, none, again, once_more, late, reads, writes, refused;
    } count;
};

DeviceState *isa_pic; /* QEMU's processors ask this device for vectors */

/* An edge on a line is latched: what could be delivered is claimed with it, and given back at once, since the processor hasn't asked yet. All is as it was then,
   but by rule 2 where a chip rotates in automatic EOI mode: the claim turns its priorities, the restore doesn't turn them back, and the master's request 2
   may go with that (docs/PROMISES.md, `RestoredButPriorities`, `RequestTwoLost`). Linux doesn't use that mode; for guests that do, this isn't the way. */
static void latch(SillwanderPic *s, unsigned line)
{
    uint64_t claim = sillwander_logged(sillwander_pic_claim_irq(s->words, line), "claim %u", line);
    s->count.latched++;
    if (SILLWANDER_COUNT(claim) == 3) {
        s->count.restored++;
        sillwander_logged(sillwander_pic_restore_interrupt(s->words, claim), "restore %u %u %u", SILLWANDER_OF_THREE(claim, 0), SILLWANDER_OF_THREE(claim, 1),
                          SILLWANDER_OF_THREE(claim, 2));
    }
}

/* INT is up while a claim would find something. It is tried on a copy. */
static bool waits(const SillwanderPic *s)
{
    uint64_t copy[SILLWANDER_PIC_WORDS];
    memcpy(copy, s->words, sizeof copy);
    return SILLWANDER_COUNT(sillwander_pic_claim_pending_interrupt(copy)) == 3;
}

/* Whether the slave asks the master: its first unmasked request is before its first line in service. */
static bool slave_asks(const SillwanderPic *s)
{
    uint32_t requests = s->words[1] >> REQUESTS & ~(s->words[1] >> MASK) & 0xff;
    return requests != 0 && ctz32(requests) < ctz32((s->words[1] >> IN_SERVICE & 0xff) | 0x100);
}

/* After everything that changes the pair or its lines: level lines that are up ask again, and INT follows. By rule 0 one acknowledgement takes the master's
   request 2 away from all slave lines that wait (docs/DIFFERENCES.md, D-13): the first of them gets its edge once more. By the other rules that can't be. */
static void follow(SillwanderPic *s)
{
    for (unsigned line = 0; line < ISA_NUM_IRQS; line++)
        if ((s->up & s->elcr) >> line & 1 && !HAS(s, line, REQUESTS) && !HAS(s, line, IN_SERVICE) && !HAS(s, line, MASK)) {
            s->count.again++;
            latch(s, line);
        }
    if (s->rule == 0 && slave_asks(s) && !HAS(s, 2, REQUESTS)) {
        s->count.once_more++;
        latch(s, 8 + ctz32(s->words[1] >> REQUESTS & ~(s->words[1] >> MASK)));
    }
    qemu_set_irq(s->intr, waits(s));
}

static void set_line(void *opaque, int line, int level)
{
    SillwanderPic *s = opaque;
    uint16_t bit = 1u << line;
    bool changes = !(s->up & bit) != !level;
    *(level ? &s->count.up : &s->count.down) += 1;
    if (!changes || line == 2) /* line 2 is the slave's, and no device's */
        return;
    s->up ^= bit;
    if (level && !(s->elcr & bit))
        latch(s, line);
    if (!level && (s->elcr & bit) && HAS(s, line, REQUESTS))
        s->count.late++;
    follow(s);
}

/* The acknowledge cycle. Where nothing can be claimed any more, an 8259 shows its line 7. */
int pic_read_irq(DeviceState *dev)
{
    SillwanderPic *s = SILLWANDER_PIC(dev);
    uint64_t claim = sillwander_logged(sillwander_pic_claim_pending_interrupt(s->words), "claim-pending");
    bool some = SILLWANDER_COUNT(claim) == 3;
    int vector = some ? SILLWANDER_OF_THREE(claim, 0) : (s->words[0] & 0xff) + 7;
    *(some ? &s->count.claims : &s->count.none) += 1;
    follow(s);
    return vector;
}

int pic_get_output(DeviceState *dev)
{
    return waits(SILLWANDER_PIC(dev));
}

/* A refused read shows 0xff, a refused write is dropped: what a bus without an error line does. */
static uint64_t read_port(SillwanderPic *s, unsigned port, unsigned width)
{
    uint64_t code = sillwander_logged(sillwander_pic_handle_read(s->words, port, width), "pic-read %u 0x%x", width, port);
    s->count.reads++;
    s->count.refused += SILLWANDER_REFUSAL(code) != 0;
    follow(s); /* by rule 2 a read after a poll command is an acknowledgement */
    return SILLWANDER_REFUSAL(code) ? 0xff : SILLWANDER_VALUE(code);
}

static void write_port(SillwanderPic *s, unsigned port, uint64_t value, unsigned width)
{
    uint64_t code =
        sillwander_logged(sillwander_pic_handle_write(s->words, port, width, value), "pic-write %u 0x%x 0x%llx", width, port, (unsigned long long)value);
    s->count.writes++;
    s->count.refused += SILLWANDER_REFUSAL(code) != 0;
    follow(s);
}

static uint64_t master_read(void *opaque, hwaddr offset, unsigned width) { return read_port(opaque, 0x20 + offset, width); }
static uint64_t slave_read(void *opaque, hwaddr offset, unsigned width) { return read_port(opaque, 0xa0 + offset, width); }
static void master_write(void *opaque, hwaddr offset, uint64_t value, unsigned width) { write_port(opaque, 0x20 + offset, value, width); }
static void slave_write(void *opaque, hwaddr offset, uint64_t value, unsigned width) { write_port(opaque, 0xa0 + offset, value, width); }

/* ELCR is plain storage. Lines 0 to 2, 8 and 13 are edges in every PC. */
static uint64_t elcr_read(void *opaque, hwaddr offset, unsigned width)
{
    (void)width;
    return ((SillwanderPic *)opaque)->elcr >> (8 * offset) & 0xff;
}

static void elcr_write(void *opaque, hwaddr offset, uint64_t value, unsigned width)
{
    SillwanderPic *s = opaque;
    (void)width;
    s->elcr = (s->elcr & ~(0xff << (8 * offset))) | ((value & (offset ? 0xde : 0xf8)) << (8 * offset));
    follow(s);
}

/* An access of two bytes to an ISA port of one is two accesses. */
#define OF_BYTES .valid = { .min_access_size = 1, .max_access_size = 4 }, .impl = { .min_access_size = 1, .max_access_size = 1 }
static const MemoryRegionOps port_ops[2] = {
    { .read = master_read, .write = master_write, .endianness = DEVICE_LITTLE_ENDIAN, OF_BYTES },
    { .read = slave_read, .write = slave_write, .endianness = DEVICE_LITTLE_ENDIAN, OF_BYTES },
};
static const MemoryRegionOps elcr_ops = { .read = elcr_read, .write = elcr_write, .endianness = DEVICE_LITTLE_ENDIAN, OF_BYTES };

/* A new pair. The wires have no reset, and a line that is up already makes no edge. */
static void reset(DeviceState *dev)
{
    SillwanderPic *s = SILLWANDER_PIC(dev);
    sillwander_log_begin("pair");
    memset(&s->count, 0, sizeof s->count);
    s->elcr = 0;
    sillwander_logged(sillwander_pic_new_rule(s->words, s->rule), "pic-rule %u", s->rule);
    follow(s);
}

/* The machine stops, once its guest has ended. A line is stuck where it isn't masked, nothing is in service and INT is down, though its request waits or it is a
   level line that is up. */
static void stopped(void *opaque, bool running, RunState state)
{
    SillwanderPic *s = opaque;
    unsigned stuck = 0;
    (void)state;
    if (running)
        return;
    for (unsigned line = 0; line < ISA_NUM_IRQS; line++)
        stuck += line != 2 && (HAS(s, line, REQUESTS) || (s->up & s->elcr) >> line & 1) && !HAS(s, line, MASK) &&
                 !((s->words[0] | s->words[1]) >> IN_SERVICE & 0xff) && !waits(s);
    fprintf(stderr,
            "sillwander pair: rule=%u up=%lu down=%lu latched=%lu restored=%lu again=%lu once_more=%lu late=%lu claims=%lu none=%lu reads=%lu writes=%lu "
            "refused=%lu stuck=%u\n",
            s->rule, s->count.up, s->count.down, s->count.latched, s->count.restored, s->count.again, s->count.once_more, s->count.late, s->count.claims,
            s->count.none, s->count.reads, s->count.writes, s->count.refused, stuck);
    sillwander_log_end();
}

static void realize(DeviceState *dev, Error **errp)
{
    SillwanderPic *s = SILLWANDER_PIC(dev);
    ISADevice *isa = ISA_DEVICE(dev);
    if (SILLWANDER_REFUSAL(sillwander_pic_new_rule(s->words, s->rule))) {
        error_setg(errp, "a pair has rule 0, 1 or 2");
        return;
    }
    for (int k = 0; k < 2; k++) {
        memory_region_init_io(&s->ports[k], OBJECT(dev), &port_ops[k], s, "pic", 2);
        isa_register_ioport(isa, &s->ports[k], k == 0 ? 0x20 : 0xa0);
    }
    memory_region_init_io(&s->elcr_ports, OBJECT(dev), &elcr_ops, s, "elcr", 2);
    isa_register_ioport(isa, &s->elcr_ports, 0x4d0);
    qdev_init_gpio_in(dev, set_line, ISA_NUM_IRQS);
    qdev_init_gpio_out(dev, &s->intr, 1);
    qemu_add_vm_change_state_handler(stopped, s);
}

/* The machine asks for a pair by this, and gets the ends of its sixteen wires. */
qemu_irq *i8259_init(ISABus *bus, qemu_irq parent_irq)
{
    qemu_irq *lines = g_new0(qemu_irq, ISA_NUM_IRQS);
    ISADevice *isa = isa_new(TYPE_SILLWANDER_PIC);
    isa_pic = DEVICE(isa);
    isa_realize_and_unref(isa, bus, &error_fatal);
    qdev_connect_gpio_out(isa_pic, 0, parent_irq);
    for (int line = 0; line < ISA_NUM_IRQS; line++)
        lines[line] = qdev_get_gpio_in(isa_pic, line);
    return lines;
}

static Property properties[] = {
    DEFINE_PROP_UINT8("rule", SillwanderPic, rule, 1), /* -global isa-i8259.rule=0 */
    DEFINE_PROP_END_OF_LIST(),
};

/* The words aren't saved, so QEMU refuses to save the machine, rather than go on without them. A device that is to be saved or moved lists its words here. */
static const VMStateDescription unsaved = { .name = "sillwander-pair", .unmigratable = 1 };

static void class_init(ObjectClass *klass, void *data)
{
    DeviceClass *dc = DEVICE_CLASS(klass);
    (void)data;
    dc->realize = realize;
    dc->reset = reset;
    dc->vmsd = &unsaved;
    dc->user_creatable = false;
    device_class_set_props(dc, properties);
}

static const TypeInfo info = {
    .name = TYPE_SILLWANDER_PIC,
    .parent = TYPE_ISA_DEVICE,
    .instance_size = sizeof(SillwanderPic),
    .class_init = class_init,
};

static void register_types(void)
{
    type_register_static(&info);
}

type_init(register_types)
