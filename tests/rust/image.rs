//! A board and a pair that are moved, from Rust. tests/rust/run runs this file as it stands, and then has rustc compile it once for each `--cfg`, which must be refused with the
//! error that stands behind it. tests/c/image.c has every damage, and a model.

use sillwander::{
    EmulatedBoard, EmulatedPic, IMAGE_SIZE, IoApicEois, PicRule,
    X86AccessWidth::{Byte, Dword},
    X86GuestPhysAddr, X86Port, X86VlapicError,
};

/// A board with line 3 in service, and a pair with line 12 in service and line 13 waiting behind it.
fn in_mid_service() -> Result<(EmulatedBoard, EmulatedPic), X86VlapicError> {
    let (mut board, mut pic) = (EmulatedBoard::new(), EmulatedPic::new_rule(PicRule::Cascade));
    board.handle_write(X86GuestPhysAddr::from_usize(0xfec0_0000), Dword, 0x16)?;
    board.handle_write(X86GuestPhysAddr::from_usize(0xfec0_0010), Dword, 0x8041)?;
    assert!(board.set_gsi_level(3, true).is_some());
    assert_eq!(board.accept_interrupt(), Some(0x41));
    for port in [0x21, 0xa1] {
        pic.handle_write(X86Port::new(port), Byte, 0)?;
    }
    assert_eq!((pic.pulse_irq(12), pic.pulse_irq(13)), (Some(0x74), None));
    Ok((board, pic))
}

/// The guest goes on: the EOI ends line 3 and sends it again; the slave's EOI and the master's let line 13 through.
fn goes_on(board: &mut EmulatedBoard, pic: &mut EmulatedPic) -> Result<(), X86VlapicError> {
    assert_eq!(board.handle_eoi(), Some(IoApicEois { cleared: 8, sent: 8 }));
    assert_eq!((board.accept_interrupt(), board.accept_interrupt()), (Some(0x41), None));
    for port in [0xa0, 0x20] {
        pic.handle_write(X86Port::new(port), Byte, 0x20)?;
    }
    assert_eq!((pic.next_interrupt(), pic.next_interrupt()), (Some(0x75), None));
    Ok(())
}

fn main() -> Result<(), X86VlapicError> {
    let (mut board, mut pic) = in_mid_service()?;
    let mut image = [0xa5; IMAGE_SIZE + 2];
    assert_eq!(board.save(&pic, &mut image)?, IMAGE_SIZE);
    assert_eq!(image[IMAGE_SIZE..], [0xa5; 2]);
    assert_eq!(board.save(&pic, &mut image[..IMAGE_SIZE - 1]), Err(X86VlapicError::TooShort));
    let image = &image[..IMAGE_SIZE];
    #[cfg(words)] // E0308: a pair isn't its words
    board.save(&[0u64; 4], &mut [0; IMAGE_SIZE])?;
    #[cfg(shared)] // E0596: what is restored is lent for writing
    {
        let lent = &board;
        lent.restore(&mut pic, image)?;
    }
    #[cfg(short)] // E0308: an image is bytes
    board.save(&pic, &mut [0u64; IMAGE_SIZE])?;
    #[cfg(inside)] // E0451: the words are the board's own
    let _ = EmulatedBoard { ioapic: [0; 32], apic: [0; 48] };

    let (mut there, mut its_pic) = (EmulatedBoard::new(), EmulatedPic::new());
    for bad in [&image[..IMAGE_SIZE - 1], &[], &[image, &[0]].concat()] {
        assert_eq!(there.restore(&mut its_pic, bad), Err(X86VlapicError::BadImage));
    }
    assert_eq!((there.handle_eoi(), its_pic.next_interrupt()), (None, None)); // new still

    // an I/O APIC of version 0x11, which this board isn't; and PPR that doesn't follow what is in service: every bit stays
    for (at, byte) in [(292, 0x11), (323, 0xff)] {
        let (mut bad, mut before, mut after) = (image.to_vec(), [0; IMAGE_SIZE], [0; IMAGE_SIZE]);
        assert_ne!(bad[at], byte);
        bad[at] = byte;
        let (mut kept, mut its) = in_mid_service()?;
        kept.handle_eoi();
        kept.save(&its, &mut before)?;
        assert_eq!(kept.restore(&mut its, &bad), Err(X86VlapicError::BadImage));
        kept.save(&its, &mut after)?;
        assert_eq!(before, after);
        assert_ne!(before[..], bad[..]);
    }
    there.restore(&mut its_pic, image)?;
    goes_on(&mut there, &mut its_pic)?;
    goes_on(&mut board, &mut pic)?;

    // one state has one image
    let (mut here, mut beside) = ([0; IMAGE_SIZE], [0; IMAGE_SIZE]);
    board.save(&pic, &mut here)?;
    there.save(&its_pic, &mut beside)?;
    assert_eq!(here, beside);
    assert_ne!(here[..], image[..]);
    assert_eq!(X86VlapicError::BadImage.number(), 10);
    println!("images are read and written as they should be");
    Ok(())
}
