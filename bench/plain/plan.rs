use crate::cycle::common_cycle;
use crate::refusal::Fault;

/// The most links in a plan.
pub const MAX_LINKS: usize = 64;

/// The most flows in a plan, of all its links together.
const MAX_FLOWS: usize = 256;

/// The largest payload of a flow, in bytes.
const MAX_PAYLOAD: u16 = 8192;

/// The longest cycle of a flow, in milliseconds.
const MAX_CYCLE: u16 = 10_000;

/// The longest common cycle of a link, in milliseconds.
const MAX_COMMON_CYCLE: u64 = 1_000_000;

/// A message flow: a payload in bytes, sent once every cycle of so many milliseconds.
#[derive(Clone, Copy)]
pub struct Flow {
    pub name: u16,
    pub payload: u16,
    pub cycle: u16,
}

/// A link and its flows.
pub struct Link {
    pub name: u16,
    pub flows: Vec<Flow>,
}

/// The links of a port, in the order of their adding.
#[derive(Default)]
pub struct Plan {
    pub links: Vec<Link>,
}

impl Plan {
    /// Adds a link, the last in plan order.
    pub fn add_link(&mut self, name: u16) -> Result<(), Fault> {
        if self.links.len() >= MAX_LINKS {
            return Err(Fault::TooManyLinks);
        }
        if self.links.iter().any(|link| link.name == name) {
            return Err(Fault::LinkTaken);
        }
        let flows = Vec::new();
        self.links.push(Link { name, flows });
        Ok(())
    }

    /// Adds a flow to a link that stands.
    pub fn add_flow(&mut self, link: u16, flow: Flow) -> Result<(), Fault> {
        let at = self.links.iter().position(|other| other.name == link);
        let at = at.ok_or(Fault::UnknownLink)?;
        if self.find(flow.name).is_some() {
            return Err(Fault::FlowTaken);
        }
        if self.flow_count() >= MAX_FLOWS {
            return Err(Fault::TooManyFlows);
        }
        let link = &mut self.links[at];
        link.ask_figures(flow)?;
        link.flows.push(flow);
        Ok(())
    }

    /// Gives a flow that stands another payload and cycle.
    pub fn amend(&mut self, flow: Flow) -> Result<(), Fault> {
        let (link, at) = self.find(flow.name).ok_or(Fault::UnknownFlow)?;
        let link = &mut self.links[link];
        link.ask_figures(flow)?;
        link.flows[at] = flow;
        Ok(())
    }

    /// Strikes a flow that stands.
    pub fn withdraw(&mut self, flow: u16) -> Result<(), Fault> {
        let (link, at) = self.find(flow).ok_or(Fault::UnknownFlow)?;
        self.links[link].flows.swap_remove(at);
        Ok(())
    }

    /// The places of the link and of the flow of that name in it. A plan has few flows, so it goes along them.
    fn find(&self, flow: u16) -> Option<(usize, usize)> {
        let of_link = |(place, link): (usize, &Link)| Some((place, link.place_of(flow)?));
        self.links.iter().enumerate().find_map(of_link)
    }

    /// The flows of all links together.
    fn flow_count(&self) -> usize {
        self.links.iter().map(|link| link.flows.len()).sum()
    }
}

impl Link {
    /// The place of the flow of that name.
    fn place_of(&self, flow: u16) -> Option<usize> {
        self.flows.iter().position(|other| other.name == flow)
    }

    /// Asks about the figures that the flow would have, as a new one or in place of the one of its name.
    fn ask_figures(&self, flow: Flow) -> Result<(), Fault> {
        if !(1..=MAX_PAYLOAD).contains(&flow.payload) {
            return Err(Fault::PayloadOutOfRange);
        }
        if !(1..=MAX_CYCLE).contains(&flow.cycle) {
            return Err(Fault::CycleOutOfRange);
        }
        if self.cycle_with(flow) > MAX_COMMON_CYCLE {
            return Err(Fault::CommonCycleTooLong);
        }
        Ok(())
    }

    /// The common cycle with this flow, in place of the one of its name if there is one.
    fn cycle_with(&self, flow: Flow) -> u64 {
        let others = self.flows.iter().filter(|other| other.name != flow.name);
        let cycles = others.map(|other| other.cycle);
        common_cycle(cycles.chain([flow.cycle]))
    }
}
