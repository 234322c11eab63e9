use crate::cycle::common_cycle;
use crate::gaps::GAPS;
use crate::plan::Flow;

/// The largest MTU, in bytes.
const MTU_MAX: u16 = 1471;

/// The bytes of a frame beside those of the message.
const FRAME_OVERHEAD: u32 = 67;

/// A pair that serves a link, with the bytes of its frame and the units of 1/16 kbit/s that it reserves.
#[derive(Clone, Copy)]
pub struct Candidate {
    pub gap: u16,
    pub mtu: u16,
    pub frame: u32,
    pub units: u32,
}

impl Candidate {
    /// The candidate of that gap and MTU.
    fn new(gap: u16, mtu: u16) -> Candidate {
        let frame = u32::from(mtu) + FRAME_OVERHEAD;
        Candidate {
            gap,
            mtu,
            frame,
            units: frame * 128 / u32::from(gap),
        }
    }
}

/// What a link has to send in one common cycle.
struct Demand {
    period: u64,
    messages: Vec<Message>,
}

/// A payload in bytes, and how often it is sent in one common cycle.
struct Message {
    payload: u32,
    times: u64,
}

/// The candidate at each gap, in rising gap.
pub fn candidates(flows: &[Flow]) -> Vec<Candidate> {
    let demand = Demand::of(flows);
    let candidate = |gap: &u16| Some(Candidate::new(*gap, demand.least_mtu(*gap)?));
    GAPS.iter().filter_map(candidate).collect()
}

impl Demand {
    /// What the flows demand.
    fn of(flows: &[Flow]) -> Demand {
        let period = common_cycle(flows.iter().map(|flow| flow.cycle));
        let message = |flow: &Flow| Message {
            payload: flow.payload.into(),
            times: period / u64::from(flow.cycle),
        };
        Demand {
            period,
            messages: flows.iter().map(message).collect(),
        }
    }

    /// The least MTU that serves the flows at this gap. The frames fall as the MTU rises, so halving finds it.
    fn least_mtu(&self, gap: u16) -> Option<u16> {
        let mut low = 1;
        let mut high = MTU_MAX + 1;
        while low < high {
            let mid = (low + high) / 2;
            if self.is_met(gap, mid) {
                high = mid;
            } else {
                low = mid + 1;
            }
        }
        (low <= MTU_MAX).then_some(low)
    }

    /// Does every frame have its gap?
    fn is_met(&self, gap: u16, mtu: u16) -> bool {
        let sent =
            |message: &Message| u64::from(message.payload.div_ceil(mtu.into())) * message.times;
        let frames: u64 = self.messages.iter().map(sent).sum();
        u64::from(gap) * frames <= self.period
    }
}
