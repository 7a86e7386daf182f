//! The pair of rule 2, the full 8259A profile: each chip's priorities rotate (document 02, T-04), and it takes special mask mode, polls and nested slaves (T-06).

use sillwander::{EmulatedPic, PicRule, X86AccessWidth::Byte};

const EOI: usize = 0x20;
const ROTATING_EOI: usize = 0xa0;
const SET_PRIORITY: usize = 0xc0;

/// A new pair without a masked line.
fn opened(rule: PicRule) -> EmulatedPic {
    let mut pic = EmulatedPic::new_rule(rule);
    write(&mut pic, 0x21, 0);
    write(&mut pic, 0xa1, 0);
    pic
}

fn write(pic: &mut EmulatedPic, port: u16, byte: usize) {
    pic.handle_write(port.into(), Byte, byte).expect("the port takes it");
}

/// Lines 3 and 4 ask again whenever they are served: the lines of six acknowledgements, each ended by the command.
fn served(rule: PicRule, command: usize) -> Vec<u8> {
    let mut pic = opened(rule);
    write(&mut pic, 0x21, 0xff);
    assert_eq!((pic.pulse_irq(3), pic.pulse_irq(4)), (None, None));
    write(&mut pic, 0x21, 0);
    (0..6)
        .map(|_| {
            let line = pic.next_interrupt().expect("two lines ask") - 8;
            assert_eq!(pic.pulse_irq(line), None);
            write(&mut pic, 0x20, command);
            line
        })
        .collect()
}

/// From each lowest line, the order in which all of the slave's lines are served.
fn ring() {
    for lowest in 0..8 {
        let mut pic = opened(PicRule::Full);
        write(&mut pic, 0xa0, SET_PRIORITY + lowest);
        write(&mut pic, 0xa1, 0xff);
        for line in 8..16 {
            assert_eq!(pic.pulse_irq(line), None);
        }
        write(&mut pic, 0xa1, 0);
        for rank in 0..8 {
            assert_eq!(pic.next_interrupt().map(usize::from), Some(0x70 + (lowest + 1 + rank) % 8));
            write(&mut pic, 0xa0, EOI);
            write(&mut pic, 0x20, EOI);
        }
        assert_eq!(pic.next_interrupt(), None);
    }
}

fn read(pic: &mut EmulatedPic, port: u16) -> usize {
    pic.handle_read(port.into(), Byte).expect("the port is the pair's")
}

/// Poll command: the next read of either port acknowledges the highest line that counts; a write doesn't end it.
fn poll() {
    let mut pic = opened(PicRule::Full);
    write(&mut pic, 0x20, 0x0c);
    assert_eq!(read(&mut pic, 0x21), 0);
    assert_eq!(pic.pulse_irq(3), Some(0x0b));
    assert_eq!(pic.pulse_irq(5), None);
    write(&mut pic, 0x20, 0x0c);
    write(&mut pic, 0x20, EOI);
    assert_eq!([0x21, 0x20].map(|port| read(&mut pic, port)), [0x85, 0]);
    write(&mut pic, 0x20, 0x0b);
    assert_eq!(read(&mut pic, 0x20), 1 << 5);
}

/// Special mask mode: a masked line in service blocks none. Special fully nested mode: the master takes line 2 again, and the claim names the slave's bit alone.
fn modes() {
    let mut pic = opened(PicRule::Full);
    assert_eq!((pic.pulse_irq(1), pic.pulse_irq(6)), (Some(0x09), None));
    write(&mut pic, 0x21, 1 << 1);
    assert_eq!(pic.next_interrupt(), None);
    write(&mut pic, 0x20, 0x68);
    assert_eq!(pic.next_interrupt(), Some(0x0e));

    let mut pic = EmulatedPic::new_rule(PicRule::Full);
    for (port, byte) in [(0x20, 0x11), (0x21, 8), (0x21, 4), (0x21, 0x11), (0xa1, 0)] {
        write(&mut pic, port, byte);
    }
    assert_eq!(pic.pulse_irq(9), Some(0x71));
    assert_eq!(pic.pulse_irq(3), None);
    let claim = pic.claim_irq(8).expect("line 8 is above line 9");
    let text = format!("{claim:?}");
    assert!(text.contains("master_in_service: false") && text.contains("slave_in_service: true"), "{text}");
    pic.restore_interrupt(claim);
    write(&mut pic, 0x20, 0x0b);
    assert_eq!(read(&mut pic, 0x20), 1 << 2);
}

fn main() {
    assert_eq!(served(PicRule::Full, ROTATING_EOI), [3, 4, 3, 4, 3, 4]);
    assert_eq!(served(PicRule::Full, EOI), [3; 6]);
    assert_eq!(served(PicRule::Cascade, ROTATING_EOI), [3; 6]);
    ring();
    poll();
    modes();
    // A restore doesn't turn priorities back: line 0 was made lowest, and line 1 is claimed, restored and claimed again.
    let mut pic = opened(PicRule::Full);
    write(&mut pic, 0x20, SET_PRIORITY);
    let claim = pic.claim_irq(1).expect("nothing is in its way");
    pic.restore_interrupt(claim);
    assert_eq!(pic.pulse_irq(0), Some(0x09));
    println!("the full profile: rotating EOIs serve lines in turn, from every lowest line; polls and modes");
}
