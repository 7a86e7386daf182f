/*
 * The I/O APIC of a PC in QEMU, by Sillwander: a device in the place of QEMU's own "ioapic" (hw/intc/ioapic.c).
 *
 * All that the chip does is in include/sillwander.h. What is left for a machine's side is here: wires come in, messages to the local APICs go out, the local
 * APICs' EOIs come in, and the guest's reads and writes are passed on. QEMU holds its big lock around each of these, so no two calls overlap.
 */
#include "qemu/osdep.h"
#include "exec/address-spaces.h"
#include "hw/i386/ioapic.h"
#include "hw/i386/x86.h"
#include "hw/qdev-properties.h"
#include "hw/sysbus.h"
#include "migration/vmstate.h"
#include "qapi/error.h"
#include "sysemu/runstate.h"
#include "sillwander.h"
#include "sillwander_log.h"

#define BASE IO_APIC_DEFAULT_ADDRESS
#define SIZE 0x1000
#define LOCAL_APICS 0xfee00000
#define EOI_REGISTER 0x40

/* The layout of the words, as the header has it. */
#define SELECTOR 26
#define IN_FLIGHT 14
#define LEVEL 15
#define MASKED 16

#define TYPE_SILLWANDER_IOAPIC TYPE_IOAPIC
OBJECT_DECLARE_SIMPLE_TYPE(SillwanderIoapic, SILLWANDER_IOAPIC)

struct SillwanderIoapic {
    SysBusDevice parent;
    MemoryRegion window;
    uint64_t words[SILLWANDER_IOAPIC_WORDS];
    uint8_t version;
    uint32_t up; /* the wires, whatever the chip knows of them */
    struct {
        unsigned long up, down, sends, together, eois, ended, again, sending_writes, reads, writes, eoi_writes, refused;
    } count;
};

static SillwanderIoapic *the_ioapic; /* EOIs come from the local APICs, which know of no device */

/* What the chip sends goes where the entry's high word says, as a message on the APICs' bus: QEMU has an address space for that. */
static void deliver(SillwanderIoapic *s, unsigned gsi, uint32_t vector, uint32_t level)
{
    uint64_t entry = s->words[gsi];
    hwaddr to = LOCAL_APICS | (entry >> 56) << 12 | (entry >> 11 & 1) << 2;
    s->count.sends++;
    for (unsigned other = 0; other < IOAPIC_NUM_PINS; other++) /* counted: another line is in flight with the vector */
        s->count.together += level && other != gsi && (s->words[other] >> IN_FLIGHT & 1) && (s->words[other] & 0xff) == vector;
    stl_le_phys(X86_MACHINE(qdev_get_machine())->ioapic_as, to, vector | level << LEVEL);
}

/* What an EOI answers, by either version: lines whose interrupt is sent again. */
static void ended(SillwanderIoapic *s, uint64_t code)
{
    uint32_t again;
    switch (SILLWANDER_COUNT(code)) {
    case 1: /* version 0x11: the line that it ended */
        s->count.ended++;
        break;
    case 2: /* version 0x20: the set of lines that it ended, and the set of those that are sent again */
        s->count.ended += ctpop32(SILLWANDER_OF_TWO(code, 0));
        again = SILLWANDER_OF_TWO(code, 1);
        s->count.again += ctpop32(again);
        for (unsigned gsi = 0; gsi < IOAPIC_NUM_PINS; gsi++)
            if (again >> gsi & 1)
                deliver(s, gsi, s->words[gsi] & 0xff, 1);
        break;
    case 3: /* version 0x11: the line, and the vector and level that it sends again */
        s->count.ended++;
        s->count.again++;
        deliver(s, SILLWANDER_OF_THREE(code, 0), SILLWANDER_OF_THREE(code, 1), SILLWANDER_OF_THREE(code, 2));
        break;
    }
}

/* A wire. The PC's timer, ISA line 0, is wired to pin 2. */
static void set_line(void *opaque, int line, int level)
{
    SillwanderIoapic *s = opaque;
    unsigned gsi = line == 0 ? 2 : line;
    uint64_t code = sillwander_logged(sillwander_ioapic_set_gsi_level(s->words, gsi, level != 0), "line %u %s", gsi, level ? "up" : "down");
    *(level ? &s->count.up : &s->count.down) += 1;
    s->up = level ? s->up | 1u << gsi : s->up & ~(1u << gsi);
    if (SILLWANDER_COUNT(code) == 2)
        deliver(s, gsi, SILLWANDER_OF_TWO(code, 0), SILLWANDER_OF_TWO(code, 1));
}

/* The local APICs call this for each EOI of a level-triggered vector. */
void ioapic_eoi_broadcast(int vector)
{
    SillwanderIoapic *s = the_ioapic;
    if (s == NULL) /* a machine without an I/O APIC may have local APICs */
        return;
    s->count.eois++;
    ended(s, sillwander_logged(sillwander_ioapic_end_of_interrupt(s->words, vector), "eoi %d", vector));
}

/* A refused read shows 0, a refused write is dropped: what a bus without an error line does. */
static uint64_t window_read(void *opaque, hwaddr offset, unsigned width)
{
    SillwanderIoapic *s = opaque;
    uint64_t code = sillwander_logged(sillwander_ioapic_handle_read(s->words, BASE + offset, width), "io-read %u 0x%x", width, (unsigned)(BASE + offset));
    s->count.reads++;
    s->count.refused += SILLWANDER_REFUSAL(code) != 0;
    return SILLWANDER_REFUSAL(code) ? 0 : SILLWANDER_VALUE(code);
}

static void window_write(void *opaque, hwaddr offset, uint64_t value, unsigned width)
{
    SillwanderIoapic *s = opaque;
    uint64_t code = sillwander_logged(sillwander_ioapic_handle_write(s->words, BASE + offset, width, value), "io-write %u 0x%x 0x%llx", width,
                                      (unsigned)(BASE + offset), (unsigned long long)value);
    s->count.writes++;
    s->count.refused += SILLWANDER_REFUSAL(code) != 0;
    if (offset == EOI_REGISTER) {
        s->count.eoi_writes += s->version >= 0x20; /* there is no such register before */
        ended(s, code);
    } else if (SILLWANDER_COUNT(code) == 2) { /* the write of a low word made an entry fit whose line is up: it is the selected one */
        s->count.sending_writes++;
        deliver(s, ((uint32_t)s->words[SELECTOR] - 0x10) / 2, SILLWANDER_OF_TWO(code, 0), SILLWANDER_OF_TWO(code, 1));
    }
}

static const MemoryRegionOps window_ops = {
    .read = window_read,
    .write = window_write,
    .endianness = DEVICE_LITTLE_ENDIAN,
    .valid = { .min_access_size = 1, .max_access_size = 8 }, /* which widths there are is for the chip to say */
    .impl = { .min_access_size = 1, .max_access_size = 8 },
};

/* A new chip. The wires have no reset: a line that a device holds up is up for the new chip too. */
static void reset(DeviceState *dev)
{
    SillwanderIoapic *s = SILLWANDER_IOAPIC(dev);
    sillwander_log_begin("ioapic");
    memset(&s->count, 0, sizeof s->count);
    sillwander_logged(sillwander_ioapic_new_version(s->words, BASE, SIZE, s->version), "io-version 0x%x", s->version);
    for (unsigned gsi = 0; gsi < IOAPIC_NUM_PINS; gsi++)
        if (s->up >> gsi & 1) {
            s->count.up++;
            sillwander_logged(sillwander_ioapic_set_gsi_level(s->words, gsi, 1), "line %u up", gsi);
        }
}

/* The machine stops, once its guest has ended. A line is stuck where it is up, and its entry is level-triggered, not masked, and not in flight: nothing would
   send it again. That a guest left one is seen only if it ends without a shutdown, by which Linux masks all entries. */
static void stopped(void *opaque, bool running, RunState state)
{
    SillwanderIoapic *s = opaque;
    unsigned stuck = 0;
    (void)state;
    if (running)
        return;
    for (unsigned gsi = 0; gsi < IOAPIC_NUM_PINS; gsi++)
        stuck += (s->up >> gsi & 1) && (s->words[gsi] >> LEVEL & 1) && !(s->words[gsi] >> MASKED & 1) && !(s->words[gsi] >> IN_FLIGHT & 1);
    fprintf(stderr,
            "sillwander ioapic: version=0x%x up=%lu down=%lu sends=%lu together=%lu eois=%lu ended=%lu again=%lu sending_writes=%lu reads=%lu writes=%lu eoi_writes=%lu "
            "refused=%lu stuck=%u\n",
            s->version, s->count.up, s->count.down, s->count.sends, s->count.together, s->count.eois, s->count.ended, s->count.again,
            s->count.sending_writes, s->count.reads, s->count.writes, s->count.eoi_writes, s->count.refused, stuck);
    sillwander_log_end();
}

static void realize(DeviceState *dev, Error **errp)
{
    SillwanderIoapic *s = SILLWANDER_IOAPIC(dev);
    if (the_ioapic != NULL) {
        error_setg(errp, "there is one I/O APIC");
        return;
    }
    if (SILLWANDER_REFUSAL(sillwander_ioapic_new_version(s->words, BASE, SIZE, s->version))) {
        error_setg(errp, "an I/O APIC has version 0x11 or 0x20");
        return;
    }
    the_ioapic = s;
    memory_region_init_io(&s->window, OBJECT(dev), &window_ops, s, "ioapic", SIZE);
    sysbus_init_mmio(SYS_BUS_DEVICE(dev), &s->window);
    qdev_init_gpio_in(dev, set_line, IOAPIC_NUM_PINS);
    qemu_add_vm_change_state_handler(stopped, s);
}

static Property properties[] = {
    DEFINE_PROP_UINT8("version", SillwanderIoapic, version, 0x20), /* -global ioapic.version=0x11 */
    DEFINE_PROP_END_OF_LIST(),
};

/* The words aren't saved, so QEMU refuses to save the machine, rather than go on without them. A device that is to be saved or moved lists its words here. */
static const VMStateDescription unsaved = { .name = "sillwander-ioapic", .unmigratable = 1 };

static void class_init(ObjectClass *klass, void *data)
{
    DeviceClass *dc = DEVICE_CLASS(klass);
    (void)data;
    dc->realize = realize;
    dc->reset = reset;
    dc->vmsd = &unsaved;
    dc->user_creatable = false;
    device_class_set_props(dc, properties);
}

static const TypeInfo info = {
    .name = TYPE_SILLWANDER_IOAPIC,
    .parent = TYPE_SYS_BUS_DEVICE,
    .instance_size = sizeof(SillwanderIoapic),
    .class_init = class_init,
};

static void register_types(void)
{
    type_register_static(&info);
}

type_init(register_types)
