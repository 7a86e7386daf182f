/*
 * The few names of QEMU's interface that the two devices use, in our own words: enough for a compiler to check their types. Nothing here runs. Each header
 * beside this file has the name of one of QEMU's and holds this one alone.
 */
#ifndef SILLWANDER_STUB_H
#define SILLWANDER_STUB_H

#include <stdbool.h>
#include <stdint.h>
#include <stdio.h>
#include <stdlib.h>
#include <string.h>

typedef uint64_t hwaddr;
typedef struct Error Error;
typedef struct Object Object;
typedef struct ObjectClass ObjectClass;
typedef struct DeviceState DeviceState;
typedef struct ISABus ISABus;
typedef struct AddressSpace AddressSpace;
typedef struct irq_end *qemu_irq;
typedef struct { int unused; } ISADevice;
typedef struct { int unused; } SysBusDevice;
typedef struct { int unused; } MemoryRegion;
typedef struct { AddressSpace *ioapic_as; } X86MachineState;
typedef struct { const char *name; size_t offset; uint8_t number; } Property;
typedef struct { const char *name; int unmigratable; } VMStateDescription;
typedef struct {
    void (*realize)(DeviceState *dev, Error **errp);
    void (*reset)(DeviceState *dev);
    const VMStateDescription *vmsd;
    bool user_creatable;
} DeviceClass;
typedef struct {
    const char *name, *parent;
    size_t instance_size;
    void (*class_init)(ObjectClass *klass, void *data);
} TypeInfo;
enum { DEVICE_LITTLE_ENDIAN = 2 };
typedef int RunState;
typedef struct {
    uint64_t (*read)(void *opaque, hwaddr addr, unsigned size);
    void (*write)(void *opaque, hwaddr addr, uint64_t data, unsigned size);
    int endianness;
    struct { unsigned min_access_size, max_access_size; } valid, impl;
} MemoryRegionOps;

#define IO_APIC_DEFAULT_ADDRESS 0xfec00000
#define IOAPIC_NUM_PINS 24
#define ISA_NUM_IRQS 16
#define TYPE_IOAPIC "ioapic"
#define TYPE_ISA_DEVICE "isa-device"
#define TYPE_SYS_BUS_DEVICE "sys-bus-device"

/* A cast that QEMU checks when it runs. */
#define OBJECT(x) ((Object *)(x))
#define DEVICE(x) ((DeviceState *)(x))
#define ISA_DEVICE(x) ((ISADevice *)(x))
#define SYS_BUS_DEVICE(x) ((SysBusDevice *)(x))
#define DEVICE_CLASS(x) ((DeviceClass *)(x))
#define X86_MACHINE(x) ((X86MachineState *)(x))
#define OBJECT_DECLARE_SIMPLE_TYPE(type, NAME) \
    typedef struct type type;                  \
    static inline type *NAME(const void *object) { return (type *)(uintptr_t)object; }

#define DEFINE_PROP_UINT8(name, type, field, number) { name, offsetof(type, field), number }
#define DEFINE_PROP_END_OF_LIST() { NULL, 0, 0 }
#define type_init(function) \
    void type_init_##function(void); \
    void type_init_##function(void) { function(); }
#define g_new0(type, count) ((type *)calloc(count, sizeof(type)))

extern Error *error_fatal;
extern DeviceState *isa_pic;
void error_setg(Error **errp, const char *format, ...);
void *qemu_add_vm_change_state_handler(void (*handler)(void *opaque, bool running, RunState state), void *opaque);
void type_register_static(const TypeInfo *info);
Object *qdev_get_machine(void);
void device_class_set_props(DeviceClass *dc, Property *properties);
void qdev_init_gpio_in(DeviceState *dev, void (*handler)(void *opaque, int line, int level), int count);
void qdev_init_gpio_out(DeviceState *dev, qemu_irq *pins, int count);
void qdev_connect_gpio_out(DeviceState *dev, int pin, qemu_irq end);
qemu_irq qdev_get_gpio_in(DeviceState *dev, int pin);
void qemu_set_irq(qemu_irq end, int level);
void memory_region_init_io(MemoryRegion *region, Object *owner, const MemoryRegionOps *ops, void *opaque, const char *name, uint64_t size);
void sysbus_init_mmio(SysBusDevice *dev, MemoryRegion *region);
int isa_register_ioport(ISADevice *dev, MemoryRegion *region, uint16_t start);
ISADevice *isa_new(const char *name);
bool isa_realize_and_unref(ISADevice *dev, ISABus *bus, Error **errp);
void stl_le_phys(AddressSpace *space, hwaddr addr, uint32_t value);
int ctpop32(uint32_t value);
int ctz32(uint32_t value);

void ioapic_eoi_broadcast(int vector);
qemu_irq *i8259_init(ISABus *bus, qemu_irq parent_irq);
int pic_get_output(DeviceState *dev);
int pic_read_irq(DeviceState *dev);

#endif
