/*
 * Images of a board and the pair, called from C, against a model of their own: a reader and a writer after docs/IMAGE.md, and a test of the rules that an image's chips must keep, after
 * the data sheets and document 02 (T-11). Good images are damaged: every bit changed, every cut, bytes behind them, fields swapped, doubled, left out, renamed and made longer, groups too
 * deep. Each one is taken or refused as the model says: refused with 10 and every lent word as it was, or taken, and then what is restored writes exactly these bytes.
 *
 * Whatever is lent ends where a page ends that nobody may touch, so that a call which reads or writes behind it faults.
 */
#define _DEFAULT_SOURCE
#include "sillwander.h"
#include <stdio.h>
#include <string.h>
#include <sys/mman.h>

enum { PAGE = 4096, SHOWN = 20, SIZE = SILLWANDER_IMAGE_SIZE, ROOM = 2048 };
#define BASE 0xfec00000ull

struct chips {
    uint64_t io[SILLWANDER_IOAPIC_WORDS], apic[SILLWANDER_LAPIC_WORDS], pic[SILLWANDER_PIC_WORDS];
};

static uint64_t *io, *apic, *pic; /* lent */
static uint8_t *end;              /* of the lent bytes */
static struct chips now;          /* what stood in the lent words last */
static unsigned long asked, wrong, taken, refused_images;
static const char *part = "";

static void check(int line, const char *text, int is_so)
{
    asked++;
    if (!is_so && wrong++ < SHOWN)
        printf("image.c:%d: %s: %s isn't so\n", line, part, text);
}
#define CHECK(is_so) check(__LINE__, #is_so, (is_so))

static uint64_t one(uint64_t a) { return (uint64_t)1 << 48 | a; }
static uint64_t refused(uint64_t number) { return number << 56; }

static uint64_t state = 0x2545f4914f6cdd1d;
static uint64_t any(void)
{
    state ^= state >> 12, state ^= state << 25, state ^= state >> 27;
    return state * 0x2545f4914f6cdd1dull;
}
static unsigned dice(unsigned sides) { return (unsigned)((any() >> 33) % sides); }

/* ---- The model: docs/IMAGE.md, "Fields" */

struct place {
    const uint8_t *at, *end;
    int bad;
};

/* The field with this tag and length stands here: its body. */
static struct place field(struct place *p, unsigned tag, size_t length)
{
    struct place body = {p->at, p->at, 1};
    if (p->bad || p->end - p->at < 3 || p->at[0] != tag || p->at[1] != length % 256 || p->at[2] != length / 256 || (size_t)(p->end - p->at) < 3 + length) {
        p->bad = 1;
        return body;
    }
    body = (struct place){p->at + 3, p->at + 3 + length, 0};
    p->at = body.end;
    return body;
}
static uint64_t number(struct place *p, unsigned tag, size_t length)
{
    struct place body = field(p, tag, length);
    uint64_t n = 0;
    if (!body.bad)
        for (size_t k = length; k > 0; k--)
            n = n << 8 | body.at[k - 1];
    return n;
}
static int is_whole(struct place p) { return !p.bad && p.at == p.end; }

static int read_image(const uint8_t *bytes, size_t length, struct chips *c)
{
    struct place all = {bytes, bytes + length, 0};
    memset(c, 0, sizeof *c);
    c->io[27] = BASE, c->io[28] = 0x1000;
    struct place board = field(&all, 0x80, 625);
    struct place io = field(&board, 0x81, 293), apic = field(&board, 0x82, 291), pair = field(&board, 0x83, 32);
    for (unsigned k = 0; k < 24; k++)
        c->io[k] = number(&io, k, 8);
    c->io[24] = number(&io, 24, 3), c->io[25] = number(&io, 25, 3), c->io[26] = number(&io, 26, 4);
    c->io[29] = number(&io, 29, 1), c->io[30] = number(&io, 30, 3);
    c->apic[0] = number(&apic, 0, 1);
    for (unsigned k = 1; k < 42; k++)
        c->apic[k] = number(&apic, k, 4);
    c->pic[2] = number(&pair, 2, 1);
    struct place master = field(&pair, 0x84, 11), slave = field(&pair, 0x85, 11);
    c->pic[0] = number(&master, 0, 8), c->pic[1] = number(&slave, 1, 8);
    return is_whole(all) && is_whole(board) && is_whole(io) && is_whole(apic) && is_whole(pair) && is_whole(master) && is_whole(slave);
}

static uint8_t *put(uint8_t *at, unsigned tag, unsigned length)
{
    at[0] = (uint8_t)tag, at[1] = (uint8_t)(length % 256), at[2] = (uint8_t)(length / 256);
    return at + 3;
}
static uint8_t *put_number(uint8_t *at, unsigned tag, unsigned length, uint64_t n)
{
    at = put(at, tag, length);
    for (unsigned k = 0; k < length; k++, n >>= 8)
        *at++ = (uint8_t)n;
    return at;
}
/* Of the version, the mode and the rule, what the number means; of the pair's chips, the bits that stand for something by its rule; of the others, as many low bytes as the format has. */
static void write_image(uint8_t *at, const struct chips *c)
{
    uint64_t rule = c->pic[2] == 1 || c->pic[2] == 2 ? c->pic[2] : 0, stands = ((uint64_t)1 << (rule == 2 ? 51 : 44)) - 1;
    at = put(put(at, 0x80, 625), 0x81, 293);
    for (unsigned k = 0; k < 24; k++)
        at = put_number(at, k, 8, c->io[k]);
    at = put_number(at, 24, 3, c->io[24]);
    at = put_number(at, 25, 3, c->io[25]);
    at = put_number(at, 26, 4, c->io[26]);
    at = put_number(at, 29, 1, c->io[29] == 0x20 ? 0x20 : 0x11);
    at = put_number(at, 30, 3, c->io[30]);
    at = put_number(put(at, 0x82, 291), 0, 1, c->apic[0] != 0);
    for (unsigned k = 1; k < 42; k++)
        at = put_number(at, k, 4, c->apic[k]);
    at = put_number(put(at, 0x83, 32), 2, 1, rule);
    at = put_number(put(at, 0x84, 11), 0, 8, c->pic[0] & stands);
    put_number(put(at, 0x85, 11), 1, 8, c->pic[1] & stands);
}

/* ---- The model: which states keep the rules */

/* 82093AA, IOREDTBL. In flight: Remote IRR, bit 14, and the word of lines in flight says the same. Deferred only in flight, in flight only level-triggered (bit 15); in version 0x11 only what
   can be sent: unmasked, of fixed delivery, from vector 16 up. Version 0x20: Delivery Status, bit 12, is never stored. */
static int keeps_io(const uint64_t *io)
{
    if (io[29] != 0x11 && io[29] != 0x20)
        return 0;
    for (unsigned g = 0; g < 24; g++) {
        uint64_t e = io[g];
        int flies = e >> 14 & 1, is_fit = !(e & 0x10700) && (e & 0xff) >= 16;
        if (flies != (int)(io[30] >> g & 1) || ((io[24] >> g & 1) && !flies))
            return 0;
        if (flies && (!(e & 0x8000) || (io[29] == 0x11 && !is_fit)))
            return 0;
        if (io[29] == 0x20 && (e & 0x1000))
            return 0;
    }
    return 1;
}

/* SDM volume 3, the APIC chapter: the bits of each register; PPR; no vector below 16. */
static int keeps_apic(const uint64_t *a)
{
    static const uint32_t stored[7] = {0x117ff, 0x710ff, 0x117ff, 0x117ff, 0x1f7ff, 0x1f7ff, 0x110ff}; /* LVT: CMCI, timer, thermal, counters, LINT0, LINT1, error */
    if (a[0] > 1 || a[2] > 0xff || a[4] & 0xffffff || (a[5] & 0xfffffff) != 0xfffffff || a[7] & ~0x60ull || a[8] & ~0x60ull || a[9] & 0x1000)
        return 0;
    if ((!a[0] && (a[1] > 0xff || a[10] & 0xffffff)) || a[18] & 0xffff || a[34] & 0xffff)
        return 0;
    for (unsigned k = 0; k < 7; k++)
        if (a[11 + k] & ~(uint64_t)stored[k])
            return 0;
    unsigned highest = 0;
    for (unsigned v = 16; v < 256; v++)
        if (a[18 + v / 32] >> (v % 32) & 1)
            highest = v;
    return a[3] == (a[2] / 16 >= highest / 16 ? a[2] : highest / 16 * 16);
}

/* 8259A. Whether a request counts, and so the chip asks: it is unmasked, and above every line in service; in special mask mode the masked ones are in nobody's way. Priorities fall from the
   highest line round. */
static int asks(uint64_t chip, int is_full)
{
    unsigned first = is_full ? (unsigned)(chip >> 44 & 7) : 0;
    for (unsigned n = 0; n < 8; n++) {
        unsigned k = (first + n) % 8, is_masked = (unsigned)(chip >> (8 + k) & 1);
        if ((chip >> (24 + k) & 1) && !(is_full && (chip >> 48 & 1) && is_masked))
            return 0;
        if ((chip >> (16 + k) & 1) && !is_masked)
            return 1;
    }
    return 0;
}
static int keeps_pair(const uint64_t *pic)
{
    if (pic[2] > 2)
        return 0;
    for (unsigned k = 0; k < 2; k++)
        if (pic[k] % 8 || (pic[k] >> 32 & 0xff) > 3 || pic[k] >> (pic[2] == 2 ? 51 : 44))
            return 0;
    return pic[2] == 0 || (int)(pic[0] >> 18 & 1) == asks(pic[1], pic[2] == 2);
}
static int keeps(const struct chips *c) { return keeps_io(c->io) && keeps_apic(c->apic) && keeps_pair(c->pic); }

/* ---- The calls, against the model */

static void lend(const struct chips *c) { memcpy(io, c->io, sizeof c->io), memcpy(apic, c->apic, sizeof c->apic), memcpy(pic, c->pic, sizeof c->pic); }
static void look(void) { memcpy(now.io, io, sizeof now.io), memcpy(now.apic, apic, sizeof now.apic), memcpy(now.pic, pic, sizeof now.pic); }

static uint64_t save(const struct chips *c, uint8_t *to, size_t bytes)
{
    lend(c);
    uint64_t code = sillwander_image_save(io, apic, pic, to, bytes);
    look();
    CHECK(!memcmp(c, &now, sizeof now));
    return code;
}

/* An image is taken or refused as the model says. */
static int judge(const uint8_t *bytes, size_t length)
{
    struct chips model, before;
    uint8_t again[SIZE];
    int is_good = read_image(bytes, length, &model) && keeps(&model);
    memcpy(end - length, bytes, length);
    memset(&before, 0xa5, sizeof before);
    lend(&before);
    uint64_t code = sillwander_image_restore(end - length, length, io, apic, pic);
    look();
    CHECK(!memcmp(end - length, bytes, length));
    if (is_good) {
        taken++;
        CHECK(code == 0);
        CHECK(!memcmp(&now, &model, sizeof model));
        CHECK(save(&model, again, SIZE) == one(SIZE));
        CHECK(length == SIZE && !memcmp(again, bytes, SIZE));
    } else {
        refused_images++;
        CHECK(code == refused(SILLWANDER_BAD_IMAGE));
        CHECK(!memcmp(&now, &before, sizeof before));
    }
    return is_good;
}

/* Any words, into buffers of any length: the image at the start, or 11 and the buffer as it was. */
static void saving(void)
{
    part = "saving any words";
    for (unsigned run = 0; run < 1500; run++) {
        struct chips c;
        uint64_t *words = (uint64_t *)&c;
        uint8_t wanted[ROOM], image[SIZE];
        size_t length = run < 640 ? run : dice(ROOM);
        for (unsigned k = 0; k < sizeof c / 8; k++)
            words[k] = dice(3) == 0 ? any() : any() >> (dice(63) + 1);
        if (dice(2))
            c.io[29] = 0x11 + 15 * dice(2), c.apic[0] = dice(3), c.pic[2] = dice(4);
        for (size_t k = 0; k < length; k++)
            wanted[k] = end[-(long)length + (long)k] = (uint8_t)any();
        write_image(image, &c);
        if (length >= SIZE)
            memcpy(wanted, image, SIZE);
        CHECK(save(&c, end - length, length) == (length >= SIZE ? one(SIZE) : refused(SILLWANDER_TOO_SHORT)));
        CHECK(!memcmp(wanted, end - length, length));
        judge(image, SIZE);
    }
}

/* ---- States that calls made */

static void entry(struct chips *c, unsigned gsi, uint64_t low)
{
    sillwander_board_handle_write(c->io, c->apic, BASE, 4, 0x10 + 2 * gsi);
    sillwander_board_handle_write(c->io, c->apic, BASE + 0x10, 4, low);
}

/* One call, the same for the same dice: its code. */
static uint64_t called(struct chips *c)
{
    static const uint64_t ports[4] = {0x20, 0x21, 0xa0, 0xa1}, commands[8] = {0x20, 0x60, 0xa0, 0xc3, 0x80, 0x68, 0x0c, 0x48};
    unsigned v = 0x0e + dice(12) * 20, k = dice(4), g = dice(4);
    switch (dice(12)) {
    case 0: return sillwander_board_set_gsi_level(c->io, c->apic, g, 1);
    case 1: return sillwander_board_set_gsi_level(c->io, c->apic, g, dice(2));
    case 2: return sillwander_board_accept_interrupt(c->apic);
    case 3: return sillwander_board_handle_eoi(c->io, c->apic);
    case 4: return sillwander_board_write_tpr(c->apic, dice(3) ? 0 : dice(256));
    case 5: entry(c, g, v | (dice(4) ? 0x8000u : 0) | (dice(5) ? 0 : 0x10000u)); return 0;
    case 6: return sillwander_board_receive(c->apic, v, dice(2));
    case 7: return sillwander_board_handle_write(c->io, c->apic, BASE + (dice(2) ? 0 : 0x40), 4, v);
    case 8: return sillwander_pic_claim_irq(c->pic, dice(16));
    case 9: return sillwander_pic_claim_pending_interrupt(c->pic);
    case 10: return sillwander_pic_handle_write(c->pic, ports[k], 1, k % 2 == 0 ? (dice(12) ? commands[dice(8)] + dice(2) : 0x11) : dice(3) ? 0 : dice(256));
    default: return sillwander_pic_handle_read(c->pic, ports[k], 1);
    }
}

/* A new board and pair, or an I/O APIC of version 0x11 in the board's place and registers that no call of the board writes. */
static void start(struct chips *c, unsigned rule, unsigned version)
{
    memset(c, 0, sizeof *c);
    sillwander_board_new(c->io, c->apic);
    sillwander_pic_new_rule(c->pic, rule);
    sillwander_pic_handle_write(c->pic, 0x21, 1, 0);
    sillwander_pic_handle_write(c->pic, 0xa1, 1, 0);
    if (version == 0x11) {
        uint64_t ipi[1];
        sillwander_ioapic_new_version(c->io, BASE, 0x1000, 0x11);
        sillwander_lapic_setup(c->apic, dice(2), 3, 4);
        sillwander_lapic_handle_write(c->apic, 0xf0, 0x1ff, 4, 4, 15, ipi);
        sillwander_lapic_handle_write(c->apic, 0x320, any(), 4, 4, 15, ipi);
        sillwander_lapic_handle_write(c->apic, 0x350, any(), 4, 4, 15, ipi);
        sillwander_lapic_handle_write(c->apic, 0xd0, any(), 4, 4, 15, ipi);
    }
    for (unsigned g = 0; g < 4; g++)
        entry(c, g, 0x8030 + 0x11 * g);
}

/* What calls made is saved, is taken, and goes on as the one that it was saved from. */
static void made_by_calls(void)
{
    part = "states that calls made";
    for (unsigned run = 0; run < 600; run++) {
        struct chips one_run;
        uint8_t image[SIZE], model[SIZE];
        start(&one_run, run % 3, run % 7 == 0 ? 0x11 : 0x20);
        for (unsigned k = dice(80); k > 0; k--)
            called(&one_run);
        write_image(model, &one_run);
        CHECK(save(&one_run, image, SIZE) == one(SIZE) && !memcmp(image, model, SIZE));
        CHECK(judge(image, SIZE));
        CHECK(!memcmp(&now, &one_run, sizeof one_run));
        struct chips moved = now;
        for (unsigned k = 0; k < 40; k++) {
            uint64_t same_dice = state, here = called(&one_run);
            state = same_dice;
            CHECK(called(&moved) == here);
        }
        CHECK(!memcmp(&moved, &one_run, sizeof moved));
    }
}

/* Words at another base and size, with what stands for nothing set: they write the same image, which is taken, and what is restored stands at the board's base with 0 there. */
static void at_another_base(void)
{
    part = "words at another base";
    for (unsigned run = 0; run < 60; run++) {
        struct chips here, there;
        uint8_t image[SIZE], same[SIZE];
        start(&here, run % 3, run % 7 == 0 ? 0x11 : 0x20);
        for (unsigned k = dice(40); k > 0; k--)
            called(&here);
        there = here;
        there.io[27] = 0xfed00000, there.io[28] = any(), there.io[31] = any(), there.pic[3] = any();
        for (unsigned k = 42; k < 48; k++)
            there.apic[k] = any();
        for (unsigned k = 0; k < 2; k++)
            there.pic[k] |= any() >> 52 << 52;
        CHECK(save(&here, image, SIZE) == one(SIZE) && save(&there, same, SIZE) == one(SIZE) && !memcmp(image, same, SIZE));
        CHECK(judge(same, SIZE) && !memcmp(&now, &here, sizeof here));
        CHECK(now.io[27] == BASE && now.io[28] == 0x1000);
    }
}

/* ---- Damage */

/* An image as a tree: a number has its bytes, a group its fields. Lengths are written as what stands in it, so that only what is meant is wrong. */
struct node {
    unsigned tag, count, is_group;
    unsigned fields[48];
    uint8_t bytes[16];
};
static struct node tree[128];
static unsigned nodes;

static unsigned grown(const uint8_t *at) /* the field that stands there */
{
    unsigned me = nodes++, length = at[1] + 256u * at[2];
    struct node *n = tree + me;
    n->tag = at[0], n->is_group = at[0] >= 0x80, n->count = 0;
    if (!n->is_group) {
        n->count = length;
        memcpy(n->bytes, at + 3, length);
        return me;
    }
    for (const uint8_t *f = at + 3; f < at + 3 + length; f += 3 + f[1] + 256u * f[2])
        tree[me].fields[tree[me].count++] = grown(f);
    return me;
}
static uint8_t *written(uint8_t *at, unsigned me)
{
    const struct node *n = tree + me;
    uint8_t *body = at + 3;
    for (unsigned k = 0; k < n->count; k++)
        if (n->is_group)
            body = written(body, n->fields[k]);
        else
            *body++ = n->bytes[k];
    put(at, n->tag, (unsigned)(body - at - 3));
    return body;
}
static int judged(void)
{
    static uint8_t bytes[PAGE];
    return judge(bytes, (size_t)(written(bytes, 0) - bytes));
}

static void swapped(struct node *group, unsigned i, unsigned j)
{
    unsigned f = group->fields[i];
    group->fields[i] = group->fields[j], group->fields[j] = f;
}

static void fields_damaged(const uint8_t *image)
{
    nodes = 0, grown(image);
    part = "an image as a tree";
    CHECK(nodes == 80 && judged());
    for (unsigned n = 0; n < 80; n++) {
        struct node was = tree[n];
        part = "another tag";
        for (unsigned tag = 0; tag < 256; tag += 1 + dice(3)) {
            tree[n].tag = tag;
            CHECK(judged() == (tag == was.tag));
        }
        tree[n] = was;
        if (!was.is_group) {
            part = "another width";
            tree[n].count++, tree[n].bytes[was.count] = 0;
            CHECK(!judged());
            tree[n].count = was.count - 1;
            CHECK(!judged());
            tree[n].count = 0;
            CHECK(!judged());
            tree[n] = was;
            continue;
        }
        for (unsigned i = 0; i < was.count; i++) {
            part = "a field swapped with another";
            for (unsigned j = i + 1; j < was.count; j++) {
                swapped(tree + n, i, j);
                CHECK(!judged());
                unsigned *a = &tree[was.fields[i]].tag, *b = &tree[was.fields[j]].tag, tag = *a;
                *a = *b, *b = tag; /* and now the values alone */
                judged();
                *b = *a, *a = tag;
                tree[n] = was;
            }
            part = "a field doubled";
            memcpy(tree[n].fields + i + 1, was.fields + i, (was.count - i) * sizeof *was.fields), tree[n].count++;
            CHECK(!judged());
            part = "a field left out";
            tree[n] = was;
            memcpy(tree[n].fields + i, was.fields + i + 1, (was.count - i - 1) * sizeof *was.fields), tree[n].count--;
            CHECK(!judged());
            tree[n] = was;
        }
        part = "a group too deep";
        for (unsigned k = 0; k < was.count; k++) { /* each field in a group of its own */
            tree[80] = (struct node){was.tag, 1, 1, {was.fields[k]}, {0}};
            tree[n].fields[k] = 80;
            CHECK(!judged());
            tree[n] = was;
        }
        tree[80] = was, tree[n].count = 1, tree[n].fields[0] = 80; /* the group in a group */
        CHECK(!judged());
        tree[n] = was;
    }
}

static void damaged(const uint8_t *image)
{
    uint8_t bytes[ROOM];
    part = "a bit changed";
    memcpy(bytes, image, SIZE);
    for (unsigned k = 0; k < 8 * SIZE; k++) {
        bytes[k / 8] ^= (uint8_t)(1 << (k % 8));
        judge(bytes, SIZE);
        bytes[k / 8] ^= (uint8_t)(1 << (k % 8));
    }
    part = "cut";
    for (size_t k = 0; k < SIZE; k++)
        CHECK(!judge(bytes, k));
    part = "bytes behind it";
    memset(bytes + SIZE, 0, ROOM - SIZE);
    for (size_t k = SIZE + 1; k < SIZE + 24; k++)
        CHECK(!judge(bytes, k));
    memcpy(bytes + SIZE, image, SIZE);
    CHECK(!judge(bytes, SIZE + 3) && !judge(bytes, 2 * SIZE));
    part = "several bytes changed";
    for (unsigned run = 0; run < 2000; run++) {
        memcpy(bytes, image, SIZE);
        for (unsigned k = dice(4) + 1; k > 0; k--)
            bytes[dice(SIZE)] = dice(3) ? (uint8_t)any() : 0;
        judge(bytes, dice(8) ? SIZE : dice(ROOM));
    }
    fields_damaged(image);
}

/* Bytes that are no image at all, and groups in groups without an end. */
static void no_images(void)
{
    static uint8_t bytes[ROOM];
    part = "no image";
    CHECK(!judge(bytes, 0));
    for (unsigned run = 0; run < 500; run++) {
        size_t length = dice(ROOM);
        for (size_t k = 0; k < length; k++)
            bytes[k] = dice(4) ? (uint8_t)any() : (uint8_t)(0x80 + dice(6));
        CHECK(!judge(bytes, length));
    }
    for (unsigned depth = 1; depth <= 600; depth += 1 + depth / 20) {
        for (unsigned k = 0; k < depth; k++)
            put(bytes + 3 * k, 0x80 + (k < 6 ? k : k % 6), 3 * (depth - k - 1));
        CHECK(!judge(bytes, 3 * depth));
        for (unsigned k = 0; k < depth; k++)
            bytes[3 * k] = 0x80;
        CHECK(!judge(bytes, 3 * depth));
    }
}

static void *pages(void) /* the end of one that can be used */
{
    unsigned char *two = mmap(NULL, 2 * PAGE, PROT_READ | PROT_WRITE, MAP_PRIVATE | MAP_ANONYMOUS, -1, 0);
    if (two == MAP_FAILED || mprotect(two + PAGE, PAGE, PROT_NONE) != 0)
        return NULL;
    return two + PAGE;
}

int main(void)
{
    io = pages(), apic = pages(), pic = pages(), end = pages();
    if (io == NULL || apic == NULL || pic == NULL || end == NULL)
        return 2;
    io -= SILLWANDER_IOAPIC_WORDS, apic -= SILLWANDER_LAPIC_WORDS, pic -= SILLWANDER_PIC_WORDS;
    saving();
    made_by_calls();
    at_another_base();
    for (unsigned k = 0; k < 6; k++) {
        struct chips c;
        uint8_t image[SIZE];
        start(&c, k % 3, k == 3 ? 0x11 : 0x20);
        for (unsigned n = k < 1 ? 0 : 60 + dice(100); n > 0; n--)
            called(&c);
        part = "a good image";
        CHECK(save(&c, image, SIZE) == one(SIZE) && judge(image, SIZE));
        damaged(image);
    }
    no_images();
    part = "what was met";
    CHECK(taken > 5000 && refused_images > 20000);
    printf("C image: %lu checks, %lu wrong; %lu images taken, %lu refused\n", asked, wrong, taken, refused_images);
    return wrong == 0 ? 0 : 1;
}
