use crate::limits::Limits;
use crate::plan::Plan;
use crate::reader::Command;
use crate::refusal::Refusal;
use crate::search::Solved;
use crate::solve::{Measure, solve};

/// What the commands of a script work on: what the port admits, once its figures are accepted, and the plan.
#[derive(Default)]
pub struct Planning {
    limits: Option<Limits>,
    pub plan: Plan,
}

impl Planning {
    /// Performs the command, and tells what was found if it is a solve. The reader sees to it that the port is first.
    pub fn perform(&mut self, command: Command) -> Result<Option<Solved>, Refusal> {
        match command {
            Command::Port { rate, share, floor } => {
                self.limits = Some(Limits::of_port(rate, share, floor)?);
            }
            Command::AddLink { name } => self.plan.add_link(name)?,
            Command::AddFlow { link, flow } => self.plan.add_flow(link, flow)?,
            Command::Amend { flow } => self.plan.amend(flow)?,
            Command::Withdraw { flow } => self.plan.withdraw(flow)?,
            Command::Solve { measure, allowance } => {
                let limits = self.limits.expect("the port comes first");
                let measure = Measure::of(measure)?;
                return solve(&self.plan, limits, measure, allowance).map(Some);
            }
        }
        Ok(None)
    }
}
