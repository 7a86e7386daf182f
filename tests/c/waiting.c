/* The waiting lists against a model of their own: for each vCPU an array of vectors, the oldest first, that moves whole at each delivery. And the pair's claims into them
   against the pair's own calls on a copy of its words. */
#include <sillwander.h>
#include <stdio.h>
#include <string.h>

#define VCPUS 3
#define REST 5 /* bytes behind the lists, which belong to no vCPU */
#define BYTES (VCPUS * SILLWANDER_LIST_BYTES + REST)

static unsigned long checks, wrong;

static void same(const char *what, uint64_t is, uint64_t should)
{
    checks++;
    if (is != should && wrong++ < 20)
        printf("%s: %#lx, and should be %#lx\n", what, (unsigned long)is, (unsigned long)should);
}

static uint64_t state = 1;

static unsigned below(unsigned n) /* xorshift */
{
    state ^= state << 13;
    state ^= state >> 7;
    state ^= state << 17;
    return (unsigned)(state >> 33) % n;
}

/* ---- the model */

struct list {
    unsigned many;
    uint8_t vectors[64];
};

static uint64_t one(uint64_t value) { return 1ull << 48 | value; }
static uint64_t refused(uint64_t why) { return why << 56; }

static uint64_t take(struct list *l, uint8_t vector)
{
    if (l->many == 64)
        return refused(9);
    l->vectors[l->many++] = vector;
    return 0;
}

static uint64_t removed(struct list *l, unsigned k)
{
    uint8_t vector = l->vectors[k];
    for (l->many--; k < l->many; k++)
        l->vectors[k] = l->vectors[k + 1];
    return one(vector);
}

static uint64_t deliver(struct list *l) { return l->many ? removed(l, 0) : 0; }

static uint64_t cancel(struct list *l, uint8_t vector)
{
    for (unsigned k = 0; k < l->many; k++)
        if (l->vectors[k] == vector)
            return removed(l, k);
    return 0;
}

/* which list the bytes of one are */
static struct list read_list(const uint8_t *bytes)
{
    struct list l = {bytes[65] > 64 ? 64 : bytes[65], {0}};
    for (unsigned k = 0; k < l.many; k++)
        l.vectors[k] = bytes[(bytes[64] + k) % 64];
    return l;
}

static void compare(const uint8_t *bytes, const struct list *lists)
{
    for (unsigned v = 0; v < VCPUS; v++) {
        same("count", sillwander_waiting_count(bytes, BYTES, v), one(lists[v].many));
        for (unsigned k = 0; k < lists[v].many; k++)
            same("peek", sillwander_waiting_peek(bytes, BYTES, v, k), one(lists[v].vectors[k]));
        same("peek behind", sillwander_waiting_peek(bytes, BYTES, v, lists[v].many), 0);
        same("peek far behind", sillwander_waiting_peek(bytes, BYTES, v, ~0ull), 0);
    }
}

/* ---- the pair */

/* what the pair's own calls do: a claim, and where the vector finds no place, its restoration */
static uint64_t claim(struct list *l, uint64_t pic[4], int raise, uint64_t irq)
{
    uint64_t code = raise ? sillwander_pic_claim_irq(pic, irq) : sillwander_pic_claim_pending_interrupt(pic);
    if (SILLWANDER_COUNT(code) == 3 && take(l, (uint8_t)code) != 0) {
        same("restored", sillwander_pic_restore_interrupt(pic, code), 0);
        return refused(9);
    }
    return code;
}

static void guest(uint64_t pic[4], uint64_t mine[4])
{
    static const uint64_t ports[4] = {0x20, 0x21, 0xa0, 0xa1}, commands[4] = {0x20, 0x60, 0xa0, 0xc3};
    unsigned k = below(4);
    uint64_t value = k % 2 == 0 ? commands[below(4)] | below(2) : below(3) == 0 ? below(256) : 0;
    sillwander_pic_handle_write(pic, ports[k], 1, value);
    sillwander_pic_handle_write(mine, ports[k], 1, value);
}

/* ---- one run: any calls, often enough with a full list */

static void run(uint8_t *bytes, unsigned rule, unsigned steps)
{
    struct list lists[VCPUS];
    uint64_t pic[4], mine[4];
    uint8_t rest[REST];
    for (unsigned v = 0; v < VCPUS; v++)
        lists[v] = read_list(bytes + v * SILLWANDER_LIST_BYTES);
    memcpy(rest, bytes + BYTES - REST, REST);
    sillwander_pic_new_rule(pic, rule);
    sillwander_pic_handle_write(pic, 0x21, 1, 0);
    sillwander_pic_handle_write(pic, 0xa1, 1, 0);
    memcpy(mine, pic, sizeof mine);
    unsigned filling = below(2);
    for (unsigned k = 0; k < steps; k++) {
        unsigned v = below(VCPUS), vector = below(8) == 0 ? below(256) : 0x40 + below(4), what = below(filling ? 8 : 12);
        uint64_t irq = below(18);
        if (below(200) == 0)
            filling = !filling;
        if (what < 3)
            same("take", sillwander_waiting_take(bytes, BYTES, v, vector), take(&lists[v], (uint8_t)vector));
        else if (what == 3)
            same("cancel", sillwander_waiting_cancel(bytes, BYTES, v, vector), cancel(&lists[v], (uint8_t)vector));
        else if (what == 4)
            same("claim_irq", sillwander_waiting_claim_irq(bytes, BYTES, pic, v, irq), claim(&lists[v], mine, 1, irq));
        else if (what == 5)
            same("claim_pending_interrupt", sillwander_waiting_claim_pending_interrupt(bytes, BYTES, pic, v), claim(&lists[v], mine, 0, 0));
        else if (what == 6)
            guest(pic, mine);
        else
            same("deliver", sillwander_waiting_deliver(bytes, BYTES, v), deliver(&lists[v]));
        if (k % 16 == 0)
            compare(bytes, lists);
        same("the pair", memcmp(pic, mine, sizeof pic) != 0, 0);
    }
    compare(bytes, lists);
    same("the bytes behind", memcmp(rest, bytes + BYTES - REST, REST) != 0, 0);
}

/* ---- refusals: nothing of the bytes and the pair changes */

static void refusals(uint8_t *bytes, size_t many, size_t vcpu)
{
    uint8_t before[64 * SILLWANDER_LIST_BYTES + SILLWANDER_LIST_BYTES];
    uint64_t pic[4], was[4];
    memcpy(before, bytes, many);
    sillwander_pic_new_rule(pic, 1);
    sillwander_pic_handle_write(pic, 0x21, 1, 0);
    memcpy(was, pic, sizeof was);
    same("new of no vCPU", sillwander_waiting_new(bytes, many, vcpu), refused(5));
    same("take of no vCPU", sillwander_waiting_take(bytes, many, vcpu, 0x41), refused(5));
    same("deliver of no vCPU", sillwander_waiting_deliver(bytes, many, vcpu), refused(5));
    same("cancel of no vCPU", sillwander_waiting_cancel(bytes, many, vcpu, 0x41), refused(5));
    same("count of no vCPU", sillwander_waiting_count(bytes, many, vcpu), refused(5));
    same("peek of no vCPU", sillwander_waiting_peek(bytes, many, vcpu, 0), refused(5));
    same("claim_irq of no vCPU", sillwander_waiting_claim_irq(bytes, many, pic, vcpu, 1), refused(5));
    same("claim_pending_interrupt of no vCPU", sillwander_waiting_claim_pending_interrupt(bytes, many, pic, vcpu), refused(5));
    same("the bytes of a refusal", memcmp(before, bytes, many) != 0, 0);
    same("the pair of a refusal", memcmp(was, pic, sizeof was) != 0, 0);
}

int main(void)
{
    static uint8_t bytes[64 * SILLWANDER_LIST_BYTES + SILLWANDER_LIST_BYTES];

    /* new lists, then bytes of any kind */
    for (unsigned k = 0; k < 60; k++) {
        memset(bytes, 0, sizeof bytes);
        if (k % 3 == 2)
            for (unsigned i = 0; i < BYTES; i++)
                bytes[i] = (uint8_t)below(256);
        if (k % 3 == 1)
            for (unsigned v = 0; v < VCPUS; v++) {
                bytes[v * SILLWANDER_LIST_BYTES + 65] = (uint8_t)below(256);
                same("new", sillwander_waiting_new(bytes, BYTES, v), 0);
            }
        run(bytes, k / 3 % 3, 4000);
    }

    /* every number of waiting ones at every head: the next one is taken in exactly below 64; the bytes of a refusal stay */
    for (unsigned head = 0; head < 256; head++)
        for (unsigned many = 0; many < 256; many++) {
            uint8_t list[SILLWANDER_LIST_BYTES], before[SILLWANDER_LIST_BYTES];
            for (unsigned k = 0; k < 64; k++)
                list[k] = (uint8_t)(k + 1);
            list[64] = (uint8_t)head;
            list[65] = (uint8_t)many;
            memcpy(before, list, sizeof list);
            struct list l = read_list(list);
            same("a full list", sillwander_waiting_take(list, sizeof list, 0, 0x80), take(&l, 0x80));
            if (many >= 64)
                same("its bytes", memcmp(before, list, sizeof list) != 0, 0);
            same("cancel", sillwander_waiting_cancel(list, sizeof list, 0, before[(head + 7) % 64]), cancel(&l, before[(head + 7) % 64]));
            same("deliver", sillwander_waiting_deliver(list, sizeof list, 0), deliver(&l));
            struct list after = read_list(list);
            same("the list", after.many != l.many || memcmp(after.vectors, l.vectors, l.many) != 0, 0);
        }

    /* how many vCPUs: as many as fit, and 64 at most; a vector that is none */
    refusals(bytes, 0, 0);
    refusals(bytes, 65, 0);
    refusals(bytes, 131, 1);
    refusals(bytes, BYTES, VCPUS);
    refusals(bytes, sizeof bytes, 64);
    refusals(bytes, sizeof bytes, ~0ull);
    refusals(bytes, sizeof bytes, 1ull << 63);
    same("vCPU 63", sillwander_waiting_new(bytes, sizeof bytes, 63), 0);
    same("vector 256", sillwander_waiting_take(bytes, sizeof bytes, 63, 256), refused(5));
    same("vector 256 cancelled", sillwander_waiting_cancel(bytes, sizeof bytes, 63, 256), refused(5));
    same("nothing waits", sillwander_waiting_count(bytes, sizeof bytes, 63), one(0));

    printf("waiting lists: %lu checks, %lu wrong\n", checks, wrong);
    return wrong != 0;
}
