//! Stand-in for the LVT LINT0 register's missing file: the fields at their places in the SDM's figure of the local vector table.

use tock_registers::{LocalRegisterCopy, register_bitfields, registers::ReadWrite};

register_bitfields! {
    u32,
    pub LVT_LINT0 [
        Mask OFFSET(16) NUMBITS(1) [],
        TriggerMode OFFSET(15) NUMBITS(1) [],
        RemoteIRR OFFSET(14) NUMBITS(1) [],
        InterruptInputPinPolarity OFFSET(13) NUMBITS(1) [],
        DeliveryStatus OFFSET(12) NUMBITS(1) [],
        DeliveryMode OFFSET(8) NUMBITS(3) [
            ExtINT = 0b111
        ],
        Vector OFFSET(0) NUMBITS(8) [],
    ]
}

pub type LvtLint0RegisterMmio = ReadWrite<u32, LVT_LINT0::Register>;
pub type LvtLint0RegisterLocal = LocalRegisterCopy<u32, LVT_LINT0::Register>;
