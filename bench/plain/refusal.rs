/// Which question is answered no, by its number.
#[derive(Clone, Copy, PartialEq, Eq)]
pub enum Fault {
    RateOutOfRange = 1,
    ShareOutOfRange = 2,
    FloorNotAGap = 3,
    TooManyLinks = 4,
    LinkTaken = 5,
    UnknownLink = 6,
    FlowTaken = 7,
    TooManyFlows = 8,
    PayloadOutOfRange = 9,
    CycleOutOfRange = 10,
    CommonCycleTooLong = 11,
    UnknownFlow = 12,
    LinkWithoutFlow = 13,
    LinkWithoutCandidate = 16,
    Spent = 17,
    NothingWithin = 18,
    ScriptTooLong = 24,
    UnknownByte = 25,
    OperandsCut = 26,
    PortMisplaced = 27,
    UnknownMeasure = 28,
}

/// Why a command is refused: the question, and the name of a link or the place of a command, or 0.
#[derive(Clone, Copy)]
pub struct Refusal {
    pub fault: Fault,
    pub detail: u32,
}

impl Refusal {
    /// Does it end the run of the script?
    pub fn ends_run(self) -> bool {
        matches!(self.fault as u8, 1..=3 | 24..=27)
    }
}

impl From<Fault> for Refusal {
    fn from(fault: Fault) -> Refusal {
        Refusal { fault, detail: 0 }
    }
}
