//! The planner from Rust. tests/rust/run runs this file as it stands, and then has rustc compile it once for each `--cfg`, which must be refused with the error that
//! stands behind it.

use sillwander::{TakenVectors, VectorRange, VectorShortage, X86VlapicError, check_vectors, plan_vectors, vector_shortage};

fn main() {
    let mut taken = TakenVectors::new();
    (0x20..=0x40).for_each(|vector| taken.insert(vector));
    assert!(taken.contains(0x40) && !taken.contains(0x41));

    // last spring's two lines, which had one vector
    let mut plan = [7; 3];
    let lines = [VectorRange::new(0x41, 0x42), VectorRange::new(0x41, 0x41)];
    #[cfg(words)] // E0308: a range isn't a number
    let lines = [0x4241u16, 0x4141];
    #[cfg(shared)] // E0308: a plan is lent for writing
    assert_eq!(plan_vectors(&lines, &taken, &plan), Ok(()));
    #[cfg(swapped)] // E0308: a plan isn't the set of taken vectors
    assert_eq!(plan_vectors(&lines, &plan, &mut plan), Ok(()));
    #[cfg(inside)] // E0423: a range is made by its two ends
    let lines = [VectorRange(0x4241)];
    assert_eq!(plan_vectors(&lines, &taken, &mut plan), Ok(()));
    assert_eq!(plan, [0x42, 0x41, 7]);
    assert!(check_vectors(&lines, &taken, &plan));
    assert!(!check_vectors(&lines, &taken, &[0x41, 0x41]));
    assert!(!check_vectors(&lines, &taken, &[0x42]));
    assert_eq!(vector_shortage(&lines, &taken), Ok(None));

    // a third line: there is no plan, and the lent one stays
    let crowd = [lines[0], lines[1], VectorRange::new(0x30, 0x42)];
    assert_eq!((crowd[2].lowest(), crowd[2].highest()), (0x30, 0x42));
    assert_eq!(plan_vectors(&crowd, &taken, &mut plan), Err(X86VlapicError::NoPlan));
    assert_eq!(vector_shortage(&crowd, &taken), Ok(Some(VectorShortage { lowest: 0x30, highest: 0x42, lines: 0b111 })));
    assert_eq!(plan, [0x42, 0x41, 7]);

    // the other refusals, in their order
    let inverted = [VectorRange::new(0x42, 0x41); 25];
    assert_eq!(plan_vectors(&inverted, &taken, &mut []), Err(X86VlapicError::OutOfRange));
    assert_eq!(plan_vectors(&inverted[..4], &taken, &mut plan), Err(X86VlapicError::TooShort));
    assert_eq!(plan_vectors(&inverted[..3], &taken, &mut plan), Err(X86VlapicError::InvalidInput));
    assert_eq!(vector_shortage(&inverted, &taken), Err(X86VlapicError::OutOfRange));
    assert_eq!(vector_shortage(&inverted[..3], &taken), Err(X86VlapicError::InvalidInput));
    assert_eq!(plan_vectors(&[], &taken, &mut plan), Ok(()));
    assert_eq!(plan, [0x42, 0x41, 7]);
    assert_eq!((X86VlapicError::NoPlan.number(), X86VlapicError::TooShort.number()), (8, 11));
    println!("the planner answers as it should");
}
