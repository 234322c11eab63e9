use crate::candidate::{Candidate, candidates};
use crate::limits::Limits;
use crate::plan::{Link, Plan};
use crate::refusal::{Fault, Refusal};
use crate::search::{Solved, search};

/// What a setting costs.
#[derive(Clone, Copy)]
pub enum Measure {
    /// What is reserved.
    Reserve,
    /// The bytes of one frame of every link, and between equals what is reserved.
    Burst,
}

impl Measure {
    /// The measure that the byte tells.
    pub fn of(byte: u8) -> Result<Measure, Fault> {
        match byte {
            1 => Ok(Measure::Reserve),
            2 => Ok(Measure::Burst),
            _ => Err(Fault::UnknownMeasure),
        }
    }
}

/// Gives each link of the plan the pair of the setting that costs least.
pub fn solve(
    plan: &Plan,
    limits: Limits,
    measure: Measure,
    allowance: u32,
) -> Result<Solved, Refusal> {
    if let Some(link) = plan.links.iter().find(|link| link.flows.is_empty()) {
        return Err(link.refused(Fault::LinkWithoutFlow));
    }
    let found = plan.links.iter().map(some_candidates);
    let links = found.collect::<Result<Vec<_>, _>>()?;
    if links.is_empty() {
        return Ok(Solved::default());
    }
    Ok(search_by(measure, &links, limits, allowance)?)
}

/// Searches the candidates by the measure.
fn search_by(
    measure: Measure,
    links: &[Vec<Candidate>],
    limits: Limits,
    allowance: u32,
) -> Result<Solved, Fault> {
    match measure {
        Measure::Reserve => search(links, limits, allowance, u32::MAX, |units, _| units),
        Measure::Burst => {
            let burst = |units, bytes| (bytes, units);
            search(links, limits, allowance, (u32::MAX, u32::MAX), burst)
        }
    }
}

/// The candidates of a link, of which there has to be one.
fn some_candidates(link: &Link) -> Result<Vec<Candidate>, Refusal> {
    let found = candidates(&link.flows);
    if found.is_empty() {
        return Err(link.refused(Fault::LinkWithoutCandidate));
    }
    Ok(found)
}

impl Link {
    /// A refusal that tells the link.
    fn refused(&self, fault: Fault) -> Refusal {
        Refusal {
            fault,
            detail: self.name.into(),
        }
    }
}
