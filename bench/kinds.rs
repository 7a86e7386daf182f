//! The kinds of chips that rows use, on each side.

use crate::{
    host::{Host, KNOWN, SUMS},
    sides::*,
};

type TheirIo = x86_vlapic::EmulatedIoApic;
type TheirPic = x86_vlapic::EmulatedPic;
type TheirLocal<const HOST: u8 = SUMS> = x86_vlapic::EmulatedLocalApic<Host<HOST>>;

/// A kind of chip: the original's, its words, and ours.
macro_rules! kind {
    ($name:ident, $original:ty = $new:expr, $words:ty = $new_words:expr, $ours:ty = $new_ours:expr) => {
        pub mod $name {
            use super::*;

            pub type Original = Plain<$original>;
            pub type Boundary = $words;
            pub type Krate = Plain<$ours>;
            pub type Behind = Locked<$ours>;

            pub fn original() -> Original {
                Plain($new)
            }
            pub fn boundary() -> Boundary {
                $new_words
            }
            pub fn krate() -> Krate {
                Plain($new_ours)
            }
            pub fn locked() -> Behind {
                Locked::new($new_ours)
            }
        }
    };
}

kind!(io, TheirIo = TheirIo::new_default(), IoWords<Line> = IoWords::new(), sillwander::EmulatedIoApic11 = Default::default());
// The original has no version 0x20 and no rules 1 and 2: beside them stand its version 0x11 and its rule 0.
kind!(io20, TheirIo = TheirIo::new_default(), IoWords<Lines> = IoWords::new(), sillwander::EmulatedIoApic20 = Default::default());
kind!(
    pic,
    TheirPic = TheirPic::new(),
    PicWords = PicWords::new(0),
    sillwander::EmulatedPic = sillwander::EmulatedPic::new_rule(sillwander::PicRule::Latch)
);
kind!(
    cascade,
    TheirPic = TheirPic::new(),
    PicWords = PicWords::new(1),
    sillwander::EmulatedPic = sillwander::EmulatedPic::new_rule(sillwander::PicRule::Cascade)
);
kind!(
    full,
    TheirPic = TheirPic::new(),
    PicWords = PicWords::new(2),
    sillwander::EmulatedPic = sillwander::EmulatedPic::new_rule(sillwander::PicRule::Full)
);
// vCPU 1 of 8.
fn our_local() -> sillwander::EmulatedLocalApic {
    sillwander::EmulatedLocalApic::new(false, 1, 8).expect("vCPU 1 of 8")
}
kind!(local, TheirLocal = TheirLocal::new(0, 1), LocalWords = LocalWords::new(1, 8), sillwander::EmulatedLocalApic = our_local());
kind!(
    local_known,
    TheirLocal<KNOWN> = TheirLocal::new(0, 1),
    LocalWords = LocalWords::new(1, 8),
    sillwander::EmulatedLocalApic = our_local()
);
kind!(board, InTurn = InTurn::new(), BoardWords = BoardWords::new(), sillwander::EmulatedBoard = Default::default());
