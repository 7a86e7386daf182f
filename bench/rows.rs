//! The rows: what is done once around, written once for every side, and with which chips and numbers.

use crate::{
    Row,
    caller::{Caller, Counted, Recorded},
    host::{KNOWN, SUMS, inject_all, injected},
    kinds::*,
    sides::{Width::*, *},
};
use std::{arch::asm, hint::black_box};

/// A remark in the machine code, and no instruction: without it the compiler makes one function of two that are the
/// same, and their counts can't be told apart.
macro_rules! mark {
    ($name:ident, $side:ident) => {
        // SAFETY: there is no instruction.
        unsafe { asm!(concat!("# ", stringify!($name), " ", stringify!($side)), options(nomem, nostack, preserves_flags)) }
    };
}

fn ready<C>(mut chip: C, setup: impl FnOnce(&mut C)) -> C {
    setup(&mut chip);
    chip
}

/// A row: its name and kind of chip, what is done before it, what is done once around, and the numbers for that, which
/// the compiler can't see through.
macro_rules! row {
    ($name:ident, $kind:ident, $setup:expr, $once:expr, [$($number:expr),*]) => {
        mod $name {
            use super::*;

            const N: usize = <[u64]>::len(&[$($number),*]);

            row!(@side $name, original, $kind::Original, $once);
            row!(@side $name, boundary, $kind::Boundary, $once);
            row!(@side $name, krate, $kind::Krate, $once);
            row!(@side $name, locked, $kind::Behind, $once);

            pub const ROW: Row = Row {
                name: stringify!($name),
                around: [
                    |times| original(&mut ready($kind::original(), $setup), times, black_box([$($number),*])),
                    |times| boundary(&mut ready($kind::boundary(), $setup), times, black_box([$($number),*])),
                    |times| krate(&mut ready($kind::krate(), $setup), times, black_box([$($number),*])),
                    |times| locked(&mut ready($kind::locked(), $setup), times, black_box([$($number),*])),
                ],
                answers: [
                    |times| recorded(&mut ready($kind::original(), $setup), times, $once, [$($number),*]),
                    |times| recorded(&mut ready($kind::boundary(), $setup), times, $once, [$($number),*]),
                    |times| recorded(&mut ready($kind::krate(), $setup), times, $once, [$($number),*]),
                    |times| recorded(&mut ready($kind::locked(), $setup), times, $once, [$($number),*]),
                ],
                is_like_original: true,
            };
        }
    };
    (@side $name:ident, $side:ident, $chip:ty, $once:expr) => {
        #[inline(never)]
        pub fn $side(chip: &mut $chip, times: u64, mut numbers: [u64; N]) {
            mark!($name, $side);
            for _ in 0..times {
                $once(chip, &mut Counted, &mut numbers);
            }
        }
    };
}

/// What is answered so many times around; last, the sum of what was injected.
fn recorded<C, const N: usize>(
    chip: &mut C,
    times: u64,
    once: fn(&mut C, &mut Recorded, &mut [u64; N]),
    mut numbers: [u64; N],
) -> Recorded {
    let mut caller = Recorded::default();
    injected();
    for _ in 0..times {
        once(chip, &mut caller, &mut numbers);
    }
    caller.value(injected());
    caller
}

#[inline(always)]
fn nothing<C>(_chip: &mut C, _caller: &mut impl Caller, _: &mut [u64; 0]) {
    // SAFETY: there is no instruction.
    unsafe { asm!("", options(nomem, nostack, preserves_flags)) }
}

row!(empty, io, |_| (), nothing, []);

// ---- the I/O APIC

#[inline(always)]
fn up_and_down(io: &mut impl Io, caller: &mut impl Caller, [gsi]: &mut [u64; 1]) {
    caller.took(io.set_level(*gsi, true));
    caller.took(io.set_level(*gsi, false));
}

#[inline(always)]
fn up_down_and_eoi(io: &mut impl Io<Ended: Tell>, caller: &mut impl Caller, [gsi, vector]: &mut [u64; 2]) {
    up_and_down(io, caller, &mut [*gsi]);
    eoi(io, caller, &mut [*vector]);
}

#[inline(always)]
fn assert(io: &mut impl Io, caller: &mut impl Caller, [gsi]: &mut [u64; 1]) {
    caller.took(io.assert(*gsi));
}

#[inline(always)]
fn assert_and_eoi(io: &mut impl Io<Ended: Tell>, caller: &mut impl Caller, [gsi, vector]: &mut [u64; 2]) {
    assert(io, caller, &mut [*gsi]);
    eoi(io, caller, &mut [*vector]);
}

#[inline(always)]
fn eoi(io: &mut impl Io<Ended: Tell>, caller: &mut impl Caller, [vector]: &mut [u64; 1]) {
    match io.eoi(*vector) {
        Some(ended) => ended.tell(*vector, caller),
        None => caller.nothing(),
    }
}

/// What a caller does with an EOI's answer: it has a look at what ended, and injects each interrupt that is sent again.
trait Tell {
    fn tell(self, vector: u64, caller: &mut impl Caller);
}

impl Tell for Line {
    #[inline(always)]
    fn tell(self, _vector: u64, caller: &mut impl Caller) {
        caller.value(self.line);
        caller.took(self.sent);
    }
}

impl Tell for Lines {
    #[inline(always)]
    fn tell(self, vector: u64, caller: &mut impl Caller) {
        caller.lines(self.ended);
        let mut sent = self.sent;
        if sent == 0 {
            caller.nothing();
        }
        while sent != 0 {
            caller.took(Some([vector, 1]));
            sent &= sent - 1;
        }
    }
}

#[inline(always)]
fn write_window<const FLIP: u64>(io: &mut impl Io, caller: &mut impl Caller, [select, window, register, word]: &mut [u64; 4]) {
    *word ^= FLIP;
    caller.done(io.write(*select, Dword, *register));
    caller.done(io.write(*window, Dword, *word));
}

/// As a threaded handler does: masked, ended, unmasked. The chip has the entry selected.
#[inline(always)]
fn mask_eoi_unmask(io: &mut impl Io<Ended: Tell>, caller: &mut impl Caller, [window, masked, vector, word]: &mut [u64; 4]) {
    caller.done(io.write(*window, Dword, *masked));
    eoi(io, caller, &mut [*vector]);
    caller.took(io.open(*word));
}

#[inline(always)]
fn read_window(io: &mut impl Io, caller: &mut impl Caller, [window]: &mut [u64; 1]) {
    caller.done(io.read(*window, Dword));
}

#[inline(always)]
fn vector_for(io: &mut impl Io, caller: &mut impl Caller, [gsi]: &mut [u64; 1]) {
    caller.took(io.vector_for(*gsi));
}

#[inline(always)]
fn range(io: &mut impl Io, caller: &mut impl Caller, _: &mut [u64; 0]) {
    caller.took(Some(io.range()));
}

#[inline(always)]
fn renew_io(io: &mut impl Io, _caller: &mut impl Caller, _: &mut [u64; 0]) {
    io.renew();
}

const LEVEL_2: [(u64, u64); 1] = [(0x14, 0x8030)];
const EDGE_2: [(u64, u64); 1] = [(0x14, 0x30)];
const LEVEL_20: [(u64, u64); 1] = [(0x38, 0x8030)];
const EDGE_20: [(u64, u64); 1] = [(0x38, 0x30)];
/// The two share a vector. In version 0x20 each EOI sends both again; the original's sends line 2.
const LEVEL_2_AND_5: [(u64, u64); 2] = [(0x14, 0x8030), (0x1a, 0x8030)];

/// All 24 entries are level-triggered, each with a vector of its own.
const LEVEL_ALL: [(u64, u64); 24] = {
    let mut entries = [(0x10, 0x8030); 24];
    let mut gsi = 1;
    while gsi < 24 {
        let (register, word) = entries[gsi - 1];
        entries[gsi] = (register + 2, word + 1);
        gsi += 1;
    }
    entries
};

/// Lines that are up, and in flight where they are level-triggered.
fn held(io: &mut impl Io, setup: &[(u64, u64)], lines: impl IntoIterator<Item = u64>) {
    io.program(setup);
    for gsi in lines {
        io.set_level(gsi, true).expect("it is sent");
    }
}

row!(line_edge_2, io, |io| io.program(&EDGE_2), up_and_down, [2]);
row!(line_level_2, io, |io| io.program(&LEVEL_2), up_and_down, [2]);
row!(line_edge_20, io, |io| io.program(&EDGE_20), up_and_down, [20]);
row!(line_and_eoi_2, io, |io| io.program(&LEVEL_2), up_down_and_eoi, [2, 0x30]);
row!(assert_edge_2, io, |io| io.program(&EDGE_2), assert, [2]);
row!(assert_eoi_2, io, |io| io.program(&LEVEL_2), assert_and_eoi, [2, 0x30]);
row!(assert_eoi_20, io, |io| io.program(&LEVEL_20), assert_and_eoi, [20, 0x30]);
row!(eoi_resend_2, io, |io| held(io, &LEVEL_2, [2]), eoi, [0x30]);
row!(eoi_resend_20, io, |io| held(io, &LEVEL_20, [20]), eoi, [0x30]);
row!(eoi_unused, io, |io| io.program(&LEVEL_ALL), eoi, [0x99]);
row!(eoi_unused_one, io, |io| held(io, &LEVEL_20, [20]), eoi, [0x99]);
row!(eoi_unused_all, io, |io| held(io, &LEVEL_ALL, 0..24), eoi, [0x99]);
row!(assert_eoi_2_v20, io20, |io| io.program(&LEVEL_2), assert_and_eoi, [2, 0x30]);
row!(assert_eoi_20_v20, io20, |io| io.program(&LEVEL_20), assert_and_eoi, [20, 0x30]);
row!(eoi_resend_2_v20, io20, |io| held(io, &LEVEL_2, [2]), eoi, [0x30]);
row!(eoi_resend_20_v20, io20, |io| held(io, &LEVEL_20, [20]), eoi, [0x30]);
row!(eoi_unused_v20, io20, |io| io.program(&LEVEL_ALL), eoi, [0x99]);
row!(eoi_unused_one_v20, io20, |io| held(io, &LEVEL_20, [20]), eoi, [0x99]);
row!(eoi_unused_all_v20, io20, |io| held(io, &LEVEL_ALL, 0..24), eoi, [0x99]);
row!(eoi_shared_v20, io20, |io| held(io, &LEVEL_2_AND_5, [2, 5]), eoi, [0x30]);
row!(write_low_changed, io, |io| io.program(&LEVEL_2), write_window::<0x10000>, [SELECT, WINDOW, 0x14, 0x8030]);
row!(write_low_same, io, |io| io.program(&LEVEL_2), write_window::<0>, [SELECT, WINDOW, 0x14, 0x8030]);
row!(write_low_changed_held, io, |io| held(io, &LEVEL_2, [2]), write_window::<0x10000>, [SELECT, WINDOW, 0x14, 0x8030]);
row!(write_low_same_held, io, |io| held(io, &LEVEL_2, [2]), write_window::<0>, [SELECT, WINDOW, 0x14, 0x8030]);
row!(write_high, io, |io| io.program(&LEVEL_2), write_window::<0x0300_0000>, [SELECT, WINDOW, 0x15, 0x0100_0000]);
row!(read_low, io, |io| io.program(&LEVEL_2), read_window, [WINDOW]);
row!(write_low_changed_v20, io20, |io| io.program(&LEVEL_2), write_window::<0x10000>, [SELECT, WINDOW, 0x14, 0x8030]);
row!(write_low_same_v20, io20, |io| io.program(&LEVEL_2), write_window::<0>, [SELECT, WINDOW, 0x14, 0x8030]);
row!(write_low_changed_held_v20, io20, |io| held(io, &LEVEL_2, [2]), write_window::<0x10000>, [SELECT, WINDOW, 0x14, 0x8030]);
row!(write_low_same_held_v20, io20, |io| held(io, &LEVEL_2, [2]), write_window::<0>, [SELECT, WINDOW, 0x14, 0x8030]);
row!(mask_eoi_unmask_v20, io20, |io| held(io, &LEVEL_2, [2]), mask_eoi_unmask, [WINDOW, 0x18030, 0x30, 0x8030]);
row!(write_high_v20, io20, |io| io.program(&LEVEL_2), write_window::<0x0300_0000>, [SELECT, WINDOW, 0x15, 0x0100_0000]);
row!(read_low_v20, io20, |io| io.program(&LEVEL_2), read_window, [WINDOW]);
row!(vector_for_gsi, io, |io| io.program(&LEVEL_2), vector_for, [2]);
row!(address_range, io, |_| (), range, []);
row!(io_new, io, |_| (), renew_io, []);

// ---- the pair

#[inline(always)]
fn took_claim<P: Pic>(claim: Option<P::Claim>, caller: &mut impl Caller) {
    caller.took(claim.map(|claim| [P::vector(&claim)]));
}

#[inline(always)]
fn claim_and_eoi<P: Pic>(pic: &mut P, caller: &mut impl Caller, [irq, port, eoi]: &mut [u64; 3]) {
    took_claim::<P>(pic.claim(*irq), caller);
    caller.done(pic.write(*port, Byte, *eoi));
}

#[inline(always)]
fn claim_and_eois<P: Pic>(pic: &mut P, caller: &mut impl Caller, [irq, slave, master, eoi]: &mut [u64; 4]) {
    claim_and_eoi(pic, caller, &mut [*irq, *slave, *eoi]);
    caller.done(pic.write(*master, Byte, *eoi));
}

#[inline(always)]
fn claim_and_restore<P: Pic>(pic: &mut P, caller: &mut impl Caller, [irq]: &mut [u64; 1]) {
    match pic.claim(*irq) {
        Some(claim) => {
            caller.value(P::vector(&claim));
            pic.restore(claim);
        }
        None => caller.nothing(),
    }
}

#[inline(always)]
fn claim_pending<P: Pic>(pic: &mut P, caller: &mut impl Caller, _: &mut [u64; 0]) {
    took_claim::<P>(pic.claim_pending(), caller);
}

#[inline(always)]
fn pulse_and_next(pic: &mut impl Pic, caller: &mut impl Caller, [irq]: &mut [u64; 1]) {
    caller.took(pic.pulse(*irq));
    caller.took(pic.next());
}

#[inline(always)]
fn mask_written_and_read(pic: &mut impl Pic, caller: &mut impl Caller, [port, mask]: &mut [u64; 2]) {
    caller.done(pic.write(*port, Byte, *mask));
    caller.done(pic.read(*port, Byte));
}

#[inline(always)]
fn renew_pic(pic: &mut impl Pic, _caller: &mut impl Caller, _: &mut [u64; 0]) {
    pic.renew();
}

/// No line is masked.
fn open(pic: &mut impl Pic) {
    pic.program(&[(0x21, 0), (0xa1, 0)]);
}

/// Lines 13 and, through it, 2 are in service, and 5.
fn in_service(pic: &mut impl Pic) {
    open(pic);
    for irq in [5, 13] {
        pic.pulse(irq).expect("it is above what is in service");
    }
}

row!(pic_claim_eoi_4, pic, open, claim_and_eoi, [4, 0x20, 0x20]);
row!(pic_claim_eoi_12, pic, open, claim_and_eois, [12, 0xa0, 0x20, 0x20]);
row!(pic_claim_restore_4, pic, open, claim_and_restore, [4]);
row!(pic_claim_restore_12, pic, open, claim_and_restore, [12]);
row!(pic_claim_eoi_1_over, pic, in_service, claim_and_eoi, [1, 0x20, 0x20]);
row!(pic_pending_none, pic, open, claim_pending, []);
row!(pic_pulse_masked, pic, |_| (), pulse_and_next, [4]);
row!(pic_mask_write_read, pic, open, mask_written_and_read, [0xa1, 0x0f]);
row!(pic_new, pic, |_| (), renew_pic, []);
row!(pic_claim_eoi_4_cascade, cascade, open, claim_and_eoi, [4, 0x20, 0x20]);
row!(pic_claim_eoi_12_cascade, cascade, open, claim_and_eois, [12, 0xa0, 0x20, 0x20]);
row!(pic_claim_restore_4_cascade, cascade, open, claim_and_restore, [4]);
row!(pic_claim_restore_12_cascade, cascade, open, claim_and_restore, [12]);
row!(pic_claim_eoi_1_over_cascade, cascade, in_service, claim_and_eoi, [1, 0x20, 0x20]);
row!(pic_mask_write_read_cascade, cascade, open, mask_written_and_read, [0xa1, 0x0f]);
// In the full profile, and with rotation, which the original's EOI does without.
row!(pic_claim_eoi_4_full, full, open, claim_and_eoi, [4, 0x20, 0x20]);
row!(pic_claim_eoi_4_rotating, full, open, claim_and_eoi, [4, 0x20, 0xa0]);
row!(pic_claim_eoi_12_full, full, open, claim_and_eois, [12, 0xa0, 0x20, 0x20]);
row!(pic_claim_restore_4_full, full, open, claim_and_restore, [4]);
row!(pic_mask_write_read_full, full, open, mask_written_and_read, [0xa1, 0x0f]);

// ---- the local APIC

#[inline(always)]
fn accept_and_eoi(local: &mut impl Local<SUMS>, caller: &mut impl Caller, [vector]: &mut [u64; 1]) {
    local.accept(*vector, true);
    caller.took(local.eoi());
}

/// A fixed IPI is injected in each of its vCPUs: the original does so itself.
#[inline(always)]
fn write_icr<const HOST: u8>(local: &mut impl Local<HOST>, caller: &mut impl Caller, [offset, command]: &mut [u64; 2]) {
    match local.write(*offset, Dword, *command) {
        Ok(Some([0, vector, vcpus])) => inject_all(vcpus, vector),
        Ok(Some(other)) => caller.took(Some(other)),
        Ok(None) => (),
        Err(refusal) => caller.refused(refusal),
    }
}

#[inline(always)]
fn write_tpr_and_read_ppr(local: &mut impl Local<SUMS>, caller: &mut impl Caller, [tpr, ppr, word]: &mut [u64; 3]) {
    write_icr::<SUMS>(local, caller, &mut [*tpr, *word]);
    caller.done(local.read(*ppr));
}

/// DFR flat, LDR 2: the original's page starts with DFR 0.
fn flat<const HOST: u8>(local: &mut impl Local<HOST>) {
    local.program(&[(0xe0, 0xffff_ffff), (0xd0, 0x0200_0000)]);
}

fn flat_31_in_service(local: &mut impl Local<SUMS>) {
    flat::<SUMS>(local);
    local.accept(0x31, true);
}

/// The interrupt command's destination.
fn flat_to<const HOST: u8>(local: &mut impl Local<HOST>, destination: u64) {
    flat::<HOST>(local);
    local.program(&[(0x310, destination << 24)]);
}

row!(accept_eoi_31, local, flat::<SUMS>, accept_and_eoi, [0x31]);
row!(accept_eoi_f1, local, flat::<SUMS>, accept_and_eoi, [0xf1]);
row!(accept_eoi_51_over_31, local, flat_31_in_service, accept_and_eoi, [0x51]);
row!(icr_self, local, |local| flat_to::<SUMS>(local, 0), write_icr::<SUMS>, [0x300, 0x4_0050]);
row!(icr_physical, local, |local| flat_to::<SUMS>(local, 3), write_icr::<SUMS>, [0x300, 0x50]);
row!(icr_physical_known, local_known, |local| flat_to::<KNOWN>(local, 3), write_icr::<KNOWN>, [0x300, 0x50]);
row!(icr_logical, local, |local| flat_to::<SUMS>(local, 2), write_icr::<SUMS>, [0x300, 0x850]);
row!(tpr_write_ppr_read, local, flat::<SUMS>, write_tpr_and_read_ppr, [0x80, 0xa0, 0x20]);

// ---- the board

/// An interrupt from its line to its EOI.
#[inline(always)]
fn line_accept_eoi(board: &mut impl Board<Ended: Tell>, caller: &mut impl Caller, [gsi, vector]: &mut [u64; 2]) {
    caller.took(board.set_level(*gsi, true));
    caller.took(board.accept());
    caller.took(board.set_level(*gsi, false));
    board_eoi(board, caller, &mut [*vector]);
}

#[inline(always)]
fn accept_eoi_again(board: &mut impl Board<Ended: Tell>, caller: &mut impl Caller, vector: &mut [u64; 1]) {
    caller.took(board.accept());
    board_eoi(board, caller, vector);
}

#[inline(always)]
fn board_eoi(board: &mut impl Board<Ended: Tell>, caller: &mut impl Caller, [vector]: &mut [u64; 1]) {
    match board.eoi() {
        Some(ended) => ended.tell(*vector, caller),
        None => caller.nothing(),
    }
}

row!(board_line_accept_eoi, board, |board| board.program(&LEVEL_2), line_accept_eoi, [2, 0x30]);
row!(
    board_accept_eoi_resend,
    board,
    |board| {
        board.program(&LEVEL_2);
        board.set_level(2, true).expect("it is sent");
    },
    accept_eoi_again,
    [0x30]
);

pub const ROWS: &[&Row] = &[
    &empty::ROW,
    &line_edge_2::ROW,
    &line_level_2::ROW,
    &line_edge_20::ROW,
    &line_and_eoi_2::ROW,
    &assert_edge_2::ROW,
    &assert_eoi_2::ROW,
    &assert_eoi_20::ROW,
    &eoi_resend_2::ROW,
    &eoi_resend_20::ROW,
    &eoi_unused::ROW,
    &eoi_unused_one::ROW,
    &eoi_unused_all::ROW,
    &assert_eoi_2_v20::ROW,
    &assert_eoi_20_v20::ROW,
    &eoi_resend_2_v20::ROW,
    &eoi_resend_20_v20::ROW,
    &eoi_unused_v20::ROW,
    &eoi_unused_one_v20::ROW,
    &eoi_unused_all_v20::ROW,
    &Row { is_like_original: false, ..eoi_shared_v20::ROW },
    &write_low_changed::ROW,
    &write_low_same::ROW,
    &write_low_changed_held::ROW,
    &write_low_same_held::ROW,
    &write_high::ROW,
    &read_low::ROW,
    &write_low_changed_v20::ROW,
    &write_low_same_v20::ROW,
    &write_low_changed_held_v20::ROW,
    &write_low_same_held_v20::ROW,
    &Row { is_like_original: false, ..mask_eoi_unmask_v20::ROW },
    &write_high_v20::ROW,
    &read_low_v20::ROW,
    &vector_for_gsi::ROW,
    &pic_claim_eoi_4::ROW,
    &pic_claim_eoi_12::ROW,
    &pic_claim_restore_4::ROW,
    &pic_claim_restore_12::ROW,
    &pic_claim_eoi_1_over::ROW,
    &pic_pending_none::ROW,
    &pic_pulse_masked::ROW,
    &pic_mask_write_read::ROW,
    &pic_claim_eoi_4_cascade::ROW,
    &pic_claim_eoi_12_cascade::ROW,
    &pic_claim_restore_4_cascade::ROW,
    &pic_claim_restore_12_cascade::ROW,
    &pic_claim_eoi_1_over_cascade::ROW,
    &pic_mask_write_read_cascade::ROW,
    &pic_claim_eoi_4_full::ROW,
    &pic_claim_eoi_4_rotating::ROW,
    &pic_claim_eoi_12_full::ROW,
    &pic_claim_restore_4_full::ROW,
    &pic_mask_write_read_full::ROW,
    &accept_eoi_31::ROW,
    &accept_eoi_f1::ROW,
    &accept_eoi_51_over_31::ROW,
    &icr_self::ROW,
    &icr_physical::ROW,
    &icr_physical_known::ROW,
    &icr_logical::ROW,
    &tpr_write_ppr_read::ROW,
    &board_line_accept_eoi::ROW,
    &board_accept_eoi_resend::ROW,
    &address_range::ROW,
    &io_new::ROW,
    &pic_new::ROW,
];
