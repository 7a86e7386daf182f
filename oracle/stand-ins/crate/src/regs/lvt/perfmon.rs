//! Stand-in for the LVT performance counter register's missing file: the fields at their places in the SDM's figure of the local vector table.

use tock_registers::{LocalRegisterCopy, register_bitfields, registers::ReadWrite};

register_bitfields! {
    u32,
    pub LVT_PERFORMANCE_COUNTER [
        Mask OFFSET(16) NUMBITS(1) [],
        DeliveryStatus OFFSET(12) NUMBITS(1) [],
        DeliveryMode OFFSET(8) NUMBITS(3) [],
        Vector OFFSET(0) NUMBITS(8) [],
    ]
}

pub type LvtPerformanceCounterRegisterMmio = ReadWrite<u32, LVT_PERFORMANCE_COUNTER::Register>;
pub type LvtPerformanceCounterRegisterLocal = LocalRegisterCopy<u32, LVT_PERFORMANCE_COUNTER::Register>;
