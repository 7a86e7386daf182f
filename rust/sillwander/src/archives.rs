//! The functions of the archives, as include/sillwander.h declares them.
//!
//! They are safe to call: it is proved that each takes any words and any numbers, and touches nothing but the words that it is lent. A reference to an
//! array is the pointer that C passes. The planner's, the waiting lists', the images' and that of several vCPUs take pointers with a count, and are called with those of slices.

use super::vcpus::Vcpu;

/// How many words an I/O APIC's state has.
pub const IOAPIC_WORDS: usize = 32;
/// How many words a pair of 8259s' state has.
pub const PIC_WORDS: usize = 4;
/// How many words a local APIC's state has.
pub const LAPIC_WORDS: usize = 48;

type IoApic = [u64; IOAPIC_WORDS];
type Pic = [u64; PIC_WORDS];
type Lapic = [u64; LAPIC_WORDS];

// Where build.rs didn't find them, nothing is linked, and the compiler's sentence about this one says why.
#[cfg(sillwander_without_archives)]
#[link(name = "the archives of sillwander: run tools/archives, or name their folder by SILLWANDER_ARCHIVES", kind = "static")]
unsafe extern "C" {}

/// An archive's functions. They are called by System V's convention, on targets too where `extern "C"` is another one; a
/// processor that hasn't it only makes documents and lints.
macro_rules! archive {
    ($archive:literal, $($functions:tt)*) => {
        #[cfg(target_arch = "x86_64")]
        #[link(name = $archive, kind = "static")]
        unsafe extern "sysv64" { $($functions)* }

        #[cfg(not(target_arch = "x86_64"))]
        #[link(name = $archive, kind = "static")]
        unsafe extern "C" { $($functions)* }
    };
}

// SAFETY: the signatures are the header's; that the functions keep to them is proved.
archive! { "vioapic_c",
    pub safe fn sillwander_ioapic_new(words: &mut IoApic, base: u64, size: u64) -> u64;
    pub safe fn sillwander_ioapic_new_version(words: &mut IoApic, base: u64, size: u64, version: u64) -> u64;
    pub safe fn sillwander_ioapic_new_default(words: &mut IoApic) -> u64;
    pub safe fn sillwander_ioapic_new_default_version(words: &mut IoApic, version: u64) -> u64;
    pub safe fn sillwander_ioapic_vector_for_gsi(words: &IoApic, gsi: u64) -> u64;
    pub safe fn sillwander_ioapic_assert_gsi(words: &mut IoApic, gsi: u64) -> u64;
    pub safe fn sillwander_ioapic_set_gsi_level(words: &mut IoApic, gsi: u64, asserted: u64) -> u64;
    pub safe fn sillwander_ioapic_end_of_interrupt(words: &mut IoApic, vector: u64) -> u64;
    pub safe fn sillwander_ioapic_address_range(words: &IoApic, range: &mut [u64; 2]) -> u64;
    pub safe fn sillwander_ioapic_handle_read(words: &IoApic, addr: u64, width: u64) -> u64;
    pub safe fn sillwander_ioapic_handle_write(words: &mut IoApic, addr: u64, width: u64, value: u64) -> u64;
}

// SAFETY: as above.
archive! { "vpic_c",
    pub safe fn sillwander_pic_new(words: &mut Pic) -> u64;
    pub safe fn sillwander_pic_new_rule(words: &mut Pic, rule: u64) -> u64;
    pub safe fn sillwander_pic_port_ranges(ranges: &mut [u64; 4]) -> u64;
    pub safe fn sillwander_pic_claim_irq(words: &mut Pic, irq: u64) -> u64;
    pub safe fn sillwander_pic_claim_pending_interrupt(words: &mut Pic) -> u64;
    pub safe fn sillwander_pic_pulse_irq(words: &mut Pic, irq: u64) -> u64;
    pub safe fn sillwander_pic_next_interrupt(words: &mut Pic) -> u64;
    pub safe fn sillwander_pic_restore_interrupt(words: &mut Pic, claim: u64) -> u64;
    pub safe fn sillwander_pic_handle_read(words: &mut Pic, port: u64, width: u64) -> u64;
    pub safe fn sillwander_pic_handle_write(words: &mut Pic, port: u64, width: u64, value: u64) -> u64;
}

// SAFETY: as above.
archive! { "vlapic_c",
    pub safe fn sillwander_lapic_setup(words: &mut Lapic, x2apic: u64, vcpu_id: u64, vcpu_num: u64) -> u64;
    pub safe fn sillwander_lapic_new(words: &mut Lapic) -> u64;
    pub safe fn sillwander_lapic_accept_interrupt(words: &mut Lapic, vector: u64, level_triggered: u64) -> u64;
    pub safe fn sillwander_lapic_handle_eoi(words: &mut Lapic) -> u64;
    pub safe fn sillwander_lapic_handle_read(words: &Lapic, offset: u64) -> u64;
    pub safe fn sillwander_lapic_handle_write(
        words: &mut Lapic,
        offset: u64,
        value: u64,
        width: u64,
        vcpu_num: u64,
        active_vcpus: u64,
        ipi: &mut [u64; 1],
    ) -> u64;
}

// SAFETY: as above. Two arrays that are lent at once are apart, as two `&mut` are.
archive! { "board_c",
    pub safe fn sillwander_board_new(ioapic: &mut IoApic, apic: &mut Lapic) -> u64;
    pub safe fn sillwander_board_set_gsi_level(ioapic: &mut IoApic, apic: &mut Lapic, gsi: u64, asserted: u64) -> u64;
    pub safe fn sillwander_board_accept_interrupt(apic: &mut Lapic) -> u64;
    pub safe fn sillwander_board_handle_eoi(ioapic: &mut IoApic, apic: &mut Lapic) -> u64;
    pub safe fn sillwander_board_write_tpr(apic: &mut Lapic, value: u64) -> u64;
    pub safe fn sillwander_board_handle_write(ioapic: &mut IoApic, apic: &mut Lapic, addr: u64, width: u64, value: u64) -> u64;
    pub safe fn sillwander_board_receive(apic: &mut Lapic, vector: u64, level_triggered: u64) -> u64;
}

// SAFETY: as above. Each pointer has as many elements behind it as the number after it says.
archive! { "planner_c",
    pub fn sillwander_plan_check(ranges: *const u16, lines: usize, taken: &[u64; 4], plan: *const u8, bytes: usize) -> u64;
    pub fn sillwander_plan(ranges: *const u16, lines: usize, taken: &[u64; 4], plan: *mut u8, bytes: usize) -> u64;
    pub fn sillwander_plan_shortage(ranges: *const u16, lines: usize, taken: &[u64; 4], set: &mut [u64; 1]) -> u64;
}

/// What [`sillwander_vcpus_send`] answers: a code, and the vCPUs that an IPI was sent to.
#[repr(C)]
pub struct Sent {
    pub code: u64,
    pub mask: u64,
}

// SAFETY: as above. The pointer has `count` records behind it, whose layout is C's (`repr(C)`).
archive! { "vcpus",
    pub fn sillwander_vcpus_send(
        records: *mut Vcpu,
        count: usize,
        sender: u64,
        offset: u64,
        value: u64,
        width: u64,
        active: u64,
    ) -> Sent;
}

// SAFETY: as above.
archive! { "waiting_c",
    pub fn sillwander_waiting_new(lists: *mut u8, bytes: usize, vcpu_id: usize) -> u64;
    pub fn sillwander_waiting_take(lists: *mut u8, bytes: usize, vcpu_id: usize, vector: u64) -> u64;
    pub fn sillwander_waiting_deliver(lists: *mut u8, bytes: usize, vcpu_id: usize) -> u64;
    pub fn sillwander_waiting_cancel(lists: *mut u8, bytes: usize, vcpu_id: usize, vector: u64) -> u64;
    pub fn sillwander_waiting_count(lists: *const u8, bytes: usize, vcpu_id: usize) -> u64;
    pub fn sillwander_waiting_peek(lists: *const u8, bytes: usize, vcpu_id: usize, place: usize) -> u64;
    pub fn sillwander_waiting_claim_irq(
        lists: *mut u8,
        bytes: usize,
        pic: &mut [u64; PIC_WORDS],
        vcpu_id: usize,
        irq: u64,
    ) -> u64;
    pub fn sillwander_waiting_claim_pending_interrupt(
        lists: *mut u8,
        bytes: usize,
        pic: &mut [u64; PIC_WORDS],
        vcpu_id: usize,
    ) -> u64;
}

// SAFETY: as above.
archive! { "image_c",
    pub fn sillwander_image_save(ioapic: &IoApic, apic: &Lapic, pic: &Pic, image: *mut u8, bytes: usize) -> u64;
    pub fn sillwander_image_restore(image: *const u8, bytes: usize, ioapic: &mut IoApic, apic: &mut Lapic, pic: &mut Pic) -> u64;
}
