/*
 * One IPI among several vCPUs, TIMES times: COUNT records in xAPIC mode, flat, of which TARGETS are reached, all by one logical destination or (WAY 1) by the shorthand
 * "others". bench/vcpus counts what a call costs.
 */
#include "sillwander.h"

static sillwander_vcpu records[64];

int main(void)
{
    for (unsigned i = 0; i < COUNT; i++) {
        records[i].regs.dfr = 0xffffffff;
        records[i].regs.ldr = i < TARGETS ? 0x01000000u : 0x02000000u;
    }
    records[0].regs.icr_hi = 0x01000000u;
    uint64_t masks = 0;
    for (unsigned t = 0; t < TIMES; t++)
        masks |= sillwander_vcpus_send(records, COUNT, 0, 0x300, WAY ? 0xc0041 : 0x841, 4, ~0ull).mask;
    unsigned reached = 0;
    for (unsigned i = 0; i < 64; i++)
        reached += masks >> i & 1;
    return reached != (WAY ? COUNT - 1u : TARGETS + 0u);
}
