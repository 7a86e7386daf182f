//! The pair of rule 1: examples 7 and 8 as document 02 (T-02) has them, beside the original's rule, and a claim that is restored at once.

use sillwander::{EmulatedPic, Locked, PicRule, X86AccessWidth::Byte};

/// A new pair without a masked line.
fn opened(rule: PicRule) -> EmulatedPic {
    let mut pic = EmulatedPic::new_rule(rule);
    for port in [0x21_u16, 0xa1] {
        pic.handle_write(port.into(), Byte, 0).expect("the port takes it");
    }
    pic
}

/// An EOI to both chips.
fn end(pic: &mut EmulatedPic) {
    for port in [0xa0_u16, 0x20] {
        pic.handle_write(port.into(), Byte, 0x20).expect("the port takes it");
    }
}

fn requests(pic: &mut EmulatedPic) -> [usize; 2] {
    [0x20_u16, 0xa0].map(|port| pic.handle_read(port.into(), Byte).expect("the port is the pair's"))
}

/// Lines 12, 13 and 14 wait, and are served one after the other; the last vector by each rule.
fn example_7(rule: PicRule) -> Option<u8> {
    let mut pic = opened(rule);
    assert_eq!([12, 13, 14].map(|line| pic.pulse_irq(line)), [Some(0x74), None, None]);
    end(&mut pic);
    assert_eq!(pic.next_interrupt(), Some(0x75));
    end(&mut pic);
    pic.next_interrupt()
}

fn restored_at_once() {
    for line in (0..16).filter(|line| *line != 2) {
        let mut pic = opened(PicRule::Cascade);
        let claim = pic.claim_irq(line).expect("nothing is in its way");
        assert_eq!(format!("{claim:?}").contains("slave_in_service: true"), line >= 8);
        assert_eq!(requests(&mut pic), [0, 0]);
        pic.restore_interrupt(claim);
        assert_eq!(requests(&mut pic), if line < 8 { [1 << line, 0] } else { [4, 1 << (line - 8)] });
        assert!(pic.claim_pending_interrupt().is_some());
    }
}

fn main() {
    assert_eq!(example_7(PicRule::Latch), None);
    assert_eq!(example_7(PicRule::Cascade), Some(0x76));
    // Example 8: line 2 is the slave's.
    assert_eq!(opened(PicRule::Latch).pulse_irq(2), Some(0x0a));
    let mut pic = opened(PicRule::Cascade);
    assert_eq!((pic.pulse_irq(2), requests(&mut pic)), (None, [0, 0]));
    restored_at_once();
    // Which rule a new pair has, where none is named.
    assert_eq!(PicRule::default(), PicRule::Cascade);
    for mut pic in [EmulatedPic::new(), EmulatedPic::default()] {
        pic.handle_write(0x21_u16.into(), Byte, 0).expect("the port takes it");
        assert_eq!((pic.pulse_irq(2), requests(&mut pic)), (None, [0, 0]));
    }
    let shared = Locked::new(opened(PicRule::Cascade));
    assert_eq!(shared.with(|pic| pic.pulse_irq(12)), Some(0x74));
    println!("the cascade rule: example 7 ends with 0x76, example 8 answers nothing");
}
