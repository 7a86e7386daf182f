/*
 * Calls of a vCPU's waiting list, TIMES times: in bytes for COUNT vCPUs, of which the last one has WAITING vectors waiting. WAY 0 takes one in and delivers the oldest, 1 takes
 * one in and cancels it, the youngest, 2 takes one in, 3 counts. bench/waiting counts what they cost.
 */
#include "sillwander.h"

static uint8_t lists[COUNT * SILLWANDER_LIST_BYTES];
static volatile unsigned times = TIMES; /* so that the loop is the same machine code however often it goes round */

int main(void)
{
    const size_t bytes = sizeof lists, vcpu = COUNT - 1;
    for (unsigned k = 0; k < WAITING; k++)
        if (sillwander_waiting_take(lists, bytes, vcpu, 0x20 + k) != 0)
            return 1;
    uint64_t answers = 0;
    for (unsigned t = times; t != 0; t--) {
        if (WAY <= 2)
            answers |= sillwander_waiting_take(lists, bytes, vcpu, 0xf0);
        if (WAY == 0)
            answers |= sillwander_waiting_deliver(lists, bytes, vcpu);
        if (WAY == 1)
            answers |= sillwander_waiting_cancel(lists, bytes, vcpu, 0xf0);
        if (WAY == 3)
            answers |= sillwander_waiting_count(lists, bytes, vcpu);
    }
    return SILLWANDER_REFUSAL(answers) != (WAY == 2 && WAITING == 64 ? SILLWANDER_LIST_FULL : 0);
}
