//! Stand-in for the LVT thermal monitor register's missing file: the fields at their places in the SDM's figure of the local vector table.

use tock_registers::{LocalRegisterCopy, register_bitfields, registers::ReadWrite};

register_bitfields! {
    u32,
    pub LVT_THERMAL_MONITOR [
        Mask OFFSET(16) NUMBITS(1) [],
        DeliveryStatus OFFSET(12) NUMBITS(1) [],
        DeliveryMode OFFSET(8) NUMBITS(3) [],
        Vector OFFSET(0) NUMBITS(8) [],
    ]
}

pub type LvtThermalMonitorRegisterMmio = ReadWrite<u32, LVT_THERMAL_MONITOR::Register>;
pub type LvtThermalMonitorRegisterLocal = LocalRegisterCopy<u32, LVT_THERMAL_MONITOR::Register>;
