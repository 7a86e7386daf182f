//! Stand-in for the LVT error register's missing file: the fields at their places in the SDM's figure of the local vector table.

use tock_registers::{LocalRegisterCopy, register_bitfields, registers::ReadWrite};

register_bitfields! {
    u32,
    pub LVT_ERROR [
        Mask OFFSET(16) NUMBITS(1) [],
        DeliveryStatus OFFSET(12) NUMBITS(1) [],
        Vector OFFSET(0) NUMBITS(8) [],
    ]
}

pub type LvtErrorRegisterMmio = ReadWrite<u32, LVT_ERROR::Register>;
pub type LvtErrorRegisterLocal = LocalRegisterCopy<u32, LVT_ERROR::Register>;
