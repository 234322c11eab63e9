use crate::gaps::GAPS;
use crate::refusal::Fault;

/// The highest rate of a port, in kbit/s.
const MAX_RATE: u32 = 1_000_000;

/// What a port admits: the least gap in ms, the most units of 1/16 kbit/s, and the most bytes, one frame of every link.
#[derive(Clone, Copy)]
pub struct Limits {
    floor: u32,
    units: u32,
    bytes: u32,
}

impl Limits {
    /// What a port admits, from its rate and share in kbit/s and its floor in ms.
    pub fn of_port(rate: u32, share: u32, floor: u8) -> Result<Limits, Fault> {
        if !(1..=MAX_RATE).contains(&rate) {
            return Err(Fault::RateOutOfRange);
        }
        if !(1..=rate).contains(&share) {
            return Err(Fault::ShareOutOfRange);
        }
        if !GAPS.contains(&floor.into()) {
            return Err(Fault::FloorNotAGap);
        }
        Ok(Limits {
            floor: floor.into(),
            units: 16 * share,
            // 400 times the bytes are at most 23 times the rate
            bytes: 23 * rate / 400,
        })
    }

    /// Are the gap, what is reserved and the bytes within?
    pub fn admit(&self, gap: u16, units: u32, bytes: u32) -> bool {
        u32::from(gap) >= self.floor && units <= self.units && bytes <= self.bytes
    }
}
