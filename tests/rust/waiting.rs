//! The waiting lists from Rust. tests/rust/run runs this file as it stands, and then has rustc compile it once for each `--cfg`, which must be refused with the error that
//! stands behind it.

use sillwander::{EmulatedPic, PicRule, WaitingLists, X86AccessWidth::Byte, X86Port, X86VlapicError};

fn main() -> Result<(), X86VlapicError> {
    let mut lists = WaitingLists::<2>::new();
    for vector in [0x41, 0x42, 0x41, 0x43] {
        lists.take(1, vector)?;
    }
    assert_eq!(format!("{lists:x?}"), "{0: [], 1: [41, 42, 41, 43]}");

    // the oldest first; a cancellation takes the oldest of its vector
    assert_eq!(lists.deliver(1)?, Some(0x41));
    assert_eq!(lists.cancel(1, 0x41)?, Some(0x41));
    assert_eq!(lists.cancel(1, 0x41)?, None);
    assert_eq!((lists.count(1)?, lists.peek(1, 1)?, lists.peek(1, 2)?), (2, Some(0x43), None));
    assert_eq!((lists.deliver(1)?, lists.deliver(1)?, lists.deliver(1)?), (Some(0x42), Some(0x43), None));
    #[cfg(shared)] // E0596: a list is lent for writing
    {
        let lent = &lists;
        lent.take(0, 0x41)?;
    }
    #[cfg(swapped)] // E0308: a vCPU's number isn't a vector's
    lists.take(0x41u8, 1usize)?;
    #[cfg(words)] // E0308: a pair isn't its words
    lists.claim_irq(&mut [0u64; 4], 0, 1)?;
    #[cfg(inside)] // E0451: the bytes are the lists' own
    let _ = WaitingLists::<2> { lists: [[0; 66]; 2] };

    // 64 places, and the 65th is refused; a place that is freed is used again
    for k in 0..64 {
        lists.take(0, k)?;
    }
    let full = lists.clone();
    assert_eq!(lists.take(0, 0x41), Err(X86VlapicError::ListFull));
    assert_eq!(lists, full);

    // a claim that finds no place is restored, and another vCPU can have it; one that finds nothing is done
    let mut pic = EmulatedPic::new_rule(PicRule::Cascade);
    assert_eq!(lists.claim_pending_interrupt(&mut pic, 0)?, None);
    pic.handle_write(X86Port::new(0x21), Byte, 0)?;
    assert_eq!(lists.claim_irq(&mut pic, 0, 1), Err(X86VlapicError::ListFull));
    assert_eq!(lists, full);
    assert_eq!(lists.claim_irq(&mut pic, 2, 0), Err(X86VlapicError::OutOfRange));
    assert_eq!(lists.claim_pending_interrupt(&mut pic, 1)?, Some(0x09));
    assert_eq!(lists.claim_pending_interrupt(&mut pic, 1)?, None);
    assert_eq!(lists.deliver(1)?, Some(0x09));
    assert_eq!(lists.deliver(0)?, Some(0));
    lists.take(0, 0x41)?;
    assert_eq!(lists.peek(0, 63)?, Some(0x41));
    lists.clear(0)?;
    lists.clear(1)?;
    assert_eq!(lists, WaitingLists::new());
    assert_eq!(X86VlapicError::ListFull.number(), 9);
    println!("the waiting lists answer as they should");
    Ok(())
}
