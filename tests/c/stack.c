/*
 * How much stack a call takes: each is made on a painted stack of its own, and what is no longer painted after it counts, the red zone below the stack pointer
 * with it. docs/LINK.md says the most. Arguments are made up, and so are the words once in eight rounds: the others go on from what the calls before left. Images are whole
 * and damaged. The calls are those that go deep, and some beside them; what they take has to be seen, so that too little is wrong as well.
 */
#include <sillwander.h>
#include <stdio.h>
#include <string.h>

enum { SIZE = 32768, MOST = 4096, MOST_OF_RESTORE = 12288, LEAST = 1000, ROUNDS = 500, PAINT = 0xd7 };

static _Alignas(64) unsigned char stack[SIZE];
static const unsigned char painted[8] = {PAINT, PAINT, PAINT, PAINT, PAINT, PAINT, PAINT, PAINT};
static unsigned long calls, wrong;

static uint64_t state = 1;

static uint64_t any(void) /* xorshift */
{
    state ^= state << 13;
    state ^= state >> 7;
    state ^= state << 17;
    return state;
}

static uint64_t below(uint64_t n) { return (any() >> 33) % n; }
static uint64_t at(const void *lent) { return (uint64_t)lent; }

/* What a call with seven numbers takes of the painted stack. The seventh lies on it, as System V says; the call's own return address is counted. */
static unsigned long taken(void (*call)(void), uint64_t a, uint64_t b, uint64_t c, uint64_t d, uint64_t e, uint64_t f, uint64_t g)
{
    unsigned char *top = stack + SIZE - 16;
    register uint64_t r8 __asm__("r8") = e;
    register uint64_t r9 __asm__("r9") = f;
    memset(stack, PAINT, SIZE);
    memcpy(top, &g, sizeof g);
    __asm__ volatile("movq %%rsp, %%rbx\n\tmovq %[top], %%rsp\n\tcall *%%rax\n\tmovq %%rbx, %%rsp"
                     : "+a"(call), "+D"(a), "+S"(b), "+d"(c), "+c"(d), "+r"(r8), "+r"(r9)
                     : [top] "r"(top)
                     : "rbx", "r10", "r11", "cc", "memory", "xmm0", "xmm1", "xmm2", "xmm3", "xmm4", "xmm5", "xmm6", "xmm7", "xmm8", "xmm9", "xmm10", "xmm11",
                       "xmm12", "xmm13", "xmm14", "xmm15");
    calls++;
    unsigned char *lowest = stack; /* in steps of a word, and then to the byte */
    while (lowest < top && memcmp(lowest, painted, sizeof painted) == 0)
        lowest += sizeof painted;
    while (lowest < top && *lowest == PAINT)
        lowest++;
    return (unsigned long)(top - lowest);
}

static unsigned long deepest[2]; /* of all calls but the restore, and of the restore */
static const char *name[2] = {"none", "none"};

static void held(const char *what, int is_restore, unsigned long bytes)
{
    unsigned long most = is_restore ? MOST_OF_RESTORE : MOST;
    if (bytes > deepest[is_restore])
        deepest[is_restore] = bytes, name[is_restore] = what;
    if (bytes > most && wrong++ < 10)
        printf("stack.c: %s takes %lu bytes of stack, and %lu are the most\n", what, bytes, most);
}

#define TAKEN(call, a, b, c, d, e, f, g) \
    held(#call, (void (*)(void))call == (void (*)(void))sillwander_image_restore, taken((void (*)(void))call, a, b, c, d, e, f, g))

static uint64_t io[32], apic[48], pic[4], ipi[1], set[1];
static uint8_t lists[2 * SILLWANDER_LIST_BYTES], image[SILLWANDER_IMAGE_SIZE], plan[24];
static sillwander_vcpu vcpus[64];
static uint16_t ranges[24];
static uint64_t used[4];

static void made_up(uint64_t *words, unsigned count)
{
    for (unsigned k = 0; k < count; k++)
        words[k] = any();
}

static void call_io(void)
{
    if (below(8) == 0)
        made_up(io, 31);
    io[29] = below(2) ? 0x20 : 0x11;
    TAKEN(sillwander_ioapic_handle_write, at(io), io[27], 4, 0x10 + below(0x30), 0, 0, 0);
    TAKEN(sillwander_ioapic_handle_write, at(io), io[27] + 0x10, 4, any(), 0, 0, 0);
    TAKEN(sillwander_ioapic_set_gsi_level, at(io), below(24), below(2), 0, 0, 0, 0);
    TAKEN(sillwander_ioapic_end_of_interrupt, at(io), below(2) ? io[below(24)] & 0xff : below(256), 0, 0, 0, 0, 0);
    TAKEN(sillwander_board_set_gsi_level, at(io), at(apic), below(24), below(2), 0, 0, 0);
    TAKEN(sillwander_board_accept_interrupt, at(apic), 0, 0, 0, 0, 0, 0);
    TAKEN(sillwander_board_handle_eoi, at(io), at(apic), 0, 0, 0, 0, 0);
    TAKEN(sillwander_board_handle_write, at(io), at(apic), io[27] + 0x10 * below(5), 4, any(), 0, 0);
}

static void call_local(void)
{
    if (below(8) == 0)
        made_up(apic, 48), apic[1] = below(64);
    TAKEN(sillwander_lapic_accept_interrupt, at(apic), below(256), below(2), 0, 0, 0, 0);
    TAKEN(sillwander_lapic_handle_eoi, at(apic), 0, 0, 0, 0, 0, 0);
    TAKEN(sillwander_lapic_handle_read, at(apic), 0x10 * below(0x40), 0, 0, 0, 0, 0);
    TAKEN(sillwander_lapic_handle_write, at(apic), below(2) ? 0x300 : 0x10 * below(0x40), any(), apic[0] ? 8 : 4, 64, any(), at(ipi));
    for (unsigned k = 0; k < 64; k++)
        vcpus[k].regs.ldr = (uint32_t)any(), vcpus[k].regs.x2apic = below(2);
    TAKEN(sillwander_vcpus_send, at(vcpus), 64, below(64), below(4) ? 0x300 : 0x3f0, any(), below(2) ? 4 : 8, any());
}

static void call_pair(void)
{
    if (below(8) == 0)
        made_up(pic, 2);
    pic[2] = below(4) ? 2 : below(2);
    TAKEN(sillwander_pic_claim_irq, at(pic), below(16), 0, 0, 0, 0, 0);
    TAKEN(sillwander_pic_pulse_irq, at(pic), below(16), 0, 0, 0, 0, 0);
    TAKEN(sillwander_pic_next_interrupt, at(pic), 0, 0, 0, 0, 0, 0);
    TAKEN(sillwander_pic_claim_pending_interrupt, at(pic), 0, 0, 0, 0, 0, 0);
    TAKEN(sillwander_pic_restore_interrupt, at(pic), 3ull << 48 | below(4) << 32 | below(16) << 16 | below(256), 0, 0, 0, 0, 0);
    TAKEN(sillwander_pic_handle_write, at(pic), (below(2) ? 0x20 : 0xa0) + below(2), 1, below(256), 0, 0, 0);
    TAKEN(sillwander_pic_handle_read, at(pic), (below(2) ? 0x20 : 0xa0) + below(2), 1, 0, 0, 0, 0);
    lists[65] = below(2) ? 64 : (uint8_t)below(256);
    TAKEN(sillwander_waiting_claim_irq, at(lists), sizeof lists, at(pic), 0, below(16), 0, 0);
    TAKEN(sillwander_waiting_claim_pending_interrupt, at(lists), sizeof lists, at(pic), 0, 0, 0, 0);
    TAKEN(sillwander_waiting_take, at(lists), sizeof lists, 1, below(256), 0, 0, 0);
    TAKEN(sillwander_waiting_cancel, at(lists), sizeof lists, 1, below(256), 0, 0, 0);
    TAKEN(sillwander_waiting_deliver, at(lists), sizeof lists, 1, 0, 0, 0, 0);
}

static void call_planner(void)
{
    uint64_t first = 16 + below(200);
    for (unsigned k = 0; k < 24; k++) {
        uint64_t lowest = first + below(8);
        ranges[k] = SILLWANDER_RANGE(lowest, lowest + below(32));
    }
    for (unsigned k = 0; k < 4; k++)
        used[k] = any() & any();
    TAKEN(sillwander_plan, at(ranges), 24, at(used), at(plan), sizeof plan, 0, 0);
    TAKEN(sillwander_plan_check, at(ranges), 24, at(used), at(plan), sizeof plan, 0, 0);
    TAKEN(sillwander_plan_shortage, at(ranges), 24, at(used), at(set), 0, 0, 0);
}

static void call_image(void)
{
    uint64_t from_io[32], from_apic[48], from_pic[4], to_io[32], to_apic[48], to_pic[4];
    sillwander_ioapic_new_default_version(from_io, below(2) ? 0x20 : 0x11);
    sillwander_lapic_new(from_apic);
    sillwander_pic_new_rule(from_pic, below(3));
    TAKEN(sillwander_image_save, at(from_io), at(from_apic), at(from_pic), at(image), sizeof image, 0, 0);
    TAKEN(sillwander_image_restore, at(image), sizeof image, at(to_io), at(to_apic), at(to_pic), 0, 0);
    for (uint64_t k = below(4); k > 0; k--)
        image[below(sizeof image)] = (uint8_t)any();
    TAKEN(sillwander_image_restore, at(image), below(4) ? sizeof image : below(sizeof image), at(to_io), at(to_apic), at(to_pic), 0, 0);
}

int main(void)
{
    /* memcpy and memset are the caller's, and so is their stack: the loader finds them here, before anything is painted. */
    sillwander_ioapic_new_default(io), sillwander_lapic_new(apic), sillwander_pic_new(pic);
    sillwander_image_save(io, apic, pic, image, sizeof image);
    sillwander_image_restore(image, sizeof image, io, apic, pic);
    sillwander_vcpus_send(vcpus, 64, 0, 0x300, 0x40, 4, ~0ull);
    sillwander_plan(ranges, 0, used, plan, sizeof plan);
    for (unsigned k = 0; k < ROUNDS; k++)
        call_io(), call_local(), call_pair(), call_planner(), call_image();
    printf("stack: %lu calls, %lu wrong; the deepest took %lu bytes (%s), a restore of an image %lu\n", calls, wrong, deepest[0], name[0], deepest[1]);
    if (deepest[0] < LEAST || deepest[1] < LEAST)
        printf("stack.c: less was seen than calls take: %d bytes at least\n", LEAST), wrong++;
    return wrong != 0;
}
