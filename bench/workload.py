"""The script of the benchmark: 64 KiB of what a guest and its devices do, as fields of document 01. The same bytes on every machine.

Only fields that the original answers by itself are in it: no NMI, INIT or startup (which it only logs), no SVR bit 8, no reads of the start's DFR.
"""
from scripts import (NAMED, accept, assert_gsi, claim, claim_pending, io_eoi, line, local_eoi, local_read, local_write, pic_read, pic_write, read_window, select,
                     setup, window, write_low)

LONGEST = 65_536
ICR, ICR_HIGH, TPR, PPR, LDR, DFR = 0x300, 0x310, 0x80, 0xA0, 0xD0, 0xE0
LEVEL = 0x8000


def start():
    """The guest programs its controllers, which are named as the original's: version 0x11, rule 0."""
    fields = [*NAMED.values(), setup(0, 1, 8, 0xFF), local_write(DFR, 0xFFFFFFFF), local_write(LDR, 0x02000000)]
    for gsi in range(24):
        fields += write_low(gsi, 0x30 + gsi if gsi < 16 else LEVEL | 0x30 + gsi)
        fields += [select(0x11 + 2 * gsi), window(0x01000000)]
    for port, base in ((0x20, 0x20), (0xA0, 0x28)):
        fields += [pic_write(port, 0x11), pic_write(port + 1, base), pic_write(port + 1, 4), pic_write(port + 1, 1), pic_write(port + 1, 0)]
    return fields


def work(n):
    """Once around: a disk, a timer, a legacy device, an IPI, a mask and unmask."""
    disk, timer, legacy = 16 + n % 8, n % 16, (n * 5) % 16
    fields = [line(disk, 1), accept(0x30 + disk, 1), local_eoi(), line(disk, 0), io_eoi(0x30 + disk), io_eoi(0x30 + disk)]
    fields += [assert_gsi(timer), accept(0x30 + timer, 0), local_eoi()]
    fields += [claim(legacy), pic_write(0xA0, 0x20), pic_write(0x20, 0x20), claim_pending(), pic_read(0x21)]
    fields += [local_write(ICR, 0x40050), local_write(ICR_HIGH, n % 8 << 24), local_write(ICR, 0x51), local_write(TPR, n % 64), local_read(PPR)]
    return fields + [select(0x10 + 2 * disk), read_window(), window(LEVEL | 0x10000 | 0x30 + disk), window(LEVEL | 0x30 + disk)]


def script():
    fields = start()
    size, n = sum(map(len, fields)), 0
    while True:
        more = work(n)
        size, n = size + sum(map(len, more)), n + 1
        if size > LONGEST:
            return b"".join(fields)
        fields += more
