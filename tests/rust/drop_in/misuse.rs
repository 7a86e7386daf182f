//! What the types of `sillwander::x86_vlapic` don't let a caller do. tests/rust/run compiles this file as it stands, and
//! then once for each `--cfg`, which rustc must refuse with the error that stands behind it.

#![allow(dead_code)]

use sillwander::x86_vlapic::{
    EmulatedIoApic, EmulatedLocalApic, EmulatedPic, PicInterruptClaim, X86AccessWidth, X86GuestPhysAddr,
};

fn restored_once(pic: &EmulatedPic, claim: PicInterruptClaim) {
    #[cfg(copied)] // E0382: used after it was moved
    pic.restore_interrupt(claim);
    #[cfg(cloned)] // E0599: no method `clone`
    pic.restore_interrupt(claim.clone());
    pic.restore_interrupt(claim);
}

fn widths(io: &EmulatedIoApic, addr: X86GuestPhysAddr) {
    let width = X86AccessWidth::Dword;
    #[cfg(plain)] // E0308: the plain API's width, whose errors are others
    let width = sillwander::X86AccessWidth::Dword;
    #[cfg(port)] // E0308: a port isn't an address
    let addr = sillwander::x86_vlapic::X86Port::new(0x20);
    let _ = io.handle_read(addr, width);
}

struct NoHost;

fn is_shared<T: Send + Sync>() {}

fn main() {
    is_shared::<EmulatedPic>();
    is_shared::<EmulatedIoApic>();
    #[cfg(host)] // E0277: a type that is no host
    is_shared::<EmulatedLocalApic<NoHost>>();
    let _ = core::marker::PhantomData::<(NoHost, fn(&EmulatedLocalApic<a_host::Host>))>;
}

mod a_host {
    use sillwander::x86_vlapic::{X86InterruptVector, X86VcpuId, X86VlapicHostOps, X86VlapicResult};

    /// A host needs three answers.
    pub struct Host;

    impl X86VlapicHostOps for Host {
        fn vcpu_num() -> usize {
            1
        }
        fn active_vcpus() -> usize {
            1
        }
        fn inject_interrupt(_vcpu_id: X86VcpuId, _vector: X86InterruptVector) -> X86VlapicResult {
            Ok(())
        }
    }
}
