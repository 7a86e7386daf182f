/*
 * A disk on GSI 10, from the guest's programming to the end of its interrupt. The caller owns the states: arrays of words.
 *
 *     gcc -I include examples/link.c target/staticlib/libvioapic_c.a target/staticlib/libvlapic_c.a -o link
 */
#include "sillwander.h"
#include <stdio.h>

int main(void)
{
    uint64_t io[SILLWANDER_IOAPIC_WORDS], local[SILLWANDER_LAPIC_WORDS], ipi[1];
    sillwander_ioapic_new_default(io);
    sillwander_lapic_new(local);
    if (SILLWANDER_REFUSAL(sillwander_lapic_setup(local, 0, 0, 2)) != 0)
        return 1;

    /* The guest selects entry 10's low word, and makes it level-triggered with vector 0x41. */
    sillwander_ioapic_handle_write(io, 0xfec00000, 4, 0x10 + 2 * 10);
    sillwander_ioapic_handle_write(io, 0xfec00010, 4, 0x8041);

    /* The device raises its line: two values, vector and level. The local APIC accepts the vector. */
    uint64_t sent = sillwander_ioapic_set_gsi_level(io, 10, 1);
    if (SILLWANDER_COUNT(sent) == 2) {
        printf("inject vector 0x%x, level %u\n", SILLWANDER_OF_TWO(sent, 0), SILLWANDER_OF_TWO(sent, 1));
        sillwander_lapic_accept_interrupt(local, SILLWANDER_OF_TWO(sent, 0), SILLWANDER_OF_TWO(sent, 1));
    }

    /* The guest's EOI, while the line is still up: the local APIC broadcasts it, and the I/O APIC sends again. A new I/O APIC is of version 0x20, and answers with two
       sets of lines, a bit each: those that the EOI ended, and those that it sends again. */
    uint64_t broadcast = sillwander_lapic_handle_eoi(local);
    if (SILLWANDER_COUNT(broadcast) == 1) {
        uint64_t ended = sillwander_ioapic_end_of_interrupt(io, SILLWANDER_VALUE(broadcast));
        if (SILLWANDER_COUNT(ended) == 2)
            printf("EOI of 0x%x ended the lines 0x%x; inject it again for the lines 0x%x\n", SILLWANDER_VALUE(broadcast),
                   SILLWANDER_OF_TWO(ended, 0), SILLWANDER_OF_TWO(ended, 1));
    }

    /* The guest sends vector 0x50 to the other vCPU of two. */
    uint64_t command = sillwander_lapic_handle_write(local, 0x300, 0xc0050, 4, 2, 3, ipi);
    if (SILLWANDER_COUNT(command) == 2)
        printf("IPI of kind %u, vector 0x%x, to the vCPUs 0x%lx\n", SILLWANDER_OF_TWO(command, 0), SILLWANDER_OF_TWO(command, 1),
               (unsigned long)ipi[0]);

    /* A width that there isn't. */
    printf("refused with %u\n", SILLWANDER_REFUSAL(sillwander_ioapic_handle_read(io, 0xfec00000, 2)));
    return 0;
}
