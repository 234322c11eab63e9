use crate::candidate::Candidate;
use crate::limits::Limits;
use crate::plan::MAX_LINKS;
use crate::refusal::Fault;
use std::slice;

/// The setting that costs least, and the visits that the search took. The default is that of no link.
#[derive(Default)]
pub struct Solved {
    pub visits: u32,
    pub setting: Vec<Candidate>,
}

/// What the pairs of the links before come to, and the candidates of a link that were not tried yet.
#[derive(Clone)]
struct Level<'a> {
    bytes: u32,
    units: u32,
    rest: slice::Iter<'a, Candidate>,
}

impl<'a> Level<'a> {
    /// Where no candidate of the link was tried.
    fn fresh(units: u32, bytes: u32, candidates: &'a [Candidate]) -> Level<'a> {
        Level {
            units,
            bytes,
            rest: candidates.iter(),
        }
    }

    /// The level as the search goes on with it: past all candidates where the best costs no more than the pairs before.
    fn pruned<T: PartialOrd>(self, best: T, key: impl Fn(u32, u32) -> T) -> Level<'a> {
        if key(self.units, self.bytes) >= best {
            return Level {
                rest: [].iter(),
                ..self
            };
        }
        self
    }
}

/// Walks through the choices of one candidate for each link, from link to link and back. The key says what units and
/// bytes cost, and the worst is above all that it says. There is a link.
// inlined, the loop would share its registers with the caller
#[inline(never)]
pub fn search<T: Copy + PartialOrd>(
    links: &[Vec<Candidate>],
    limits: Limits,
    allowance: u32,
    worst: T,
    key: impl Fn(u32, u32) -> T,
) -> Result<Solved, Fault> {
    let mut stack: [Level; MAX_LINKS] = std::array::from_fn(|_| Level::fresh(0, 0, &[]));
    let mut depth = 0;
    let mut here = Level::fresh(0, 0, &links[0]);
    let mut setting = Vec::with_capacity(links.len());
    let mut best = worst;
    let mut visits = 0;
    loop {
        let Some(candidate) = here.rest.next() else {
            // all candidates of the link were tried
            if depth == 0 {
                return ended(visits, setting);
            }
            depth -= 1;
            here = stack[depth].clone().pruned(best, &key);
            continue;
        };
        if visits == allowance {
            return Err(Fault::Spent);
        }
        visits += 1;
        let units = here.units + candidate.units;
        let bytes = here.bytes + candidate.frame;
        // most visits end at the first of the two
        if key(units, bytes) >= best || !limits.admit(candidate.gap, units, bytes) {
            continue;
        }
        if depth + 1 < links.len() {
            stack[depth] = here;
            depth += 1;
            here = Level::fresh(units, bytes, &links[depth]);
        } else {
            best = key(units, bytes);
            // at each level before, the candidate tried last was chosen
            setting.clear();
            for (level, link) in stack[..depth].iter().zip(links) {
                setting.push(link[link.len() - level.rest.len() - 1]);
            }
            setting.push(*candidate);
        }
    }
}

/// How a search ends that is not spent.
fn ended(visits: u32, setting: Vec<Candidate>) -> Result<Solved, Fault> {
    if setting.is_empty() {
        return Err(Fault::NothingWithin);
    }
    Ok(Solved { visits, setting })
}
