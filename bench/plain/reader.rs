use crate::plan::Flow;
use crate::refusal::{Fault, Refusal};

/// The most bytes of a script.
pub const SCRIPT_MAX: usize = 32_768;

/// A command of a script, with its operands.
#[derive(Clone, Copy)]
pub enum Command {
    Port { rate: u32, share: u32, floor: u8 },
    AddLink { name: u16 },
    AddFlow { link: u16, flow: Flow },
    Amend { flow: Flow },
    Withdraw { flow: u16 },
    Solve { measure: u8, allowance: u32 },
}

/// Reads the commands of a script, one after the other. Nothing is read behind a refusal.
pub struct Reader<'a> {
    script: &'a [u8],
    place: usize,
}

impl<'a> Reader<'a> {
    /// A reader that begins at the first byte.
    pub fn new(script: &'a [u8]) -> Reader<'a> {
        Reader { script, place: 0 }
    }

    /// Reads the command that begins with that byte.
    fn read(&mut self, byte: u8, mut operands: Operands) -> Result<Command, Fault> {
        let command = operands.command(byte)?;
        if matches!(command, Command::Port { .. }) != (self.place == 0) {
            return Err(Fault::PortMisplaced);
        }
        self.place = self.script.len() - operands.0.len();
        Ok(command)
    }
}

impl Iterator for Reader<'_> {
    type Item = Result<Command, Refusal>;

    fn next(&mut self) -> Option<Result<Command, Refusal>> {
        let detail = self.place as u32;
        let (byte, rest) = self.script[self.place..].split_first()?;
        let read = self.read(*byte, Operands(rest));
        Some(read.map_err(|fault| Refusal { fault, detail }))
    }
}

/// The bytes behind the first one of a command.
struct Operands<'a>(&'a [u8]);

impl Operands<'_> {
    /// The command that begins with that byte.
    fn command(&mut self, byte: u8) -> Result<Command, Fault> {
        Ok(match byte {
            b'P' => Command::Port {
                rate: self.long()?,
                share: self.long()?,
                floor: self.byte()?,
            },
            b'L' => Command::AddLink {
                name: self.short()?,
            },
            b'F' => Command::AddFlow {
                link: self.short()?,
                flow: self.flow()?,
            },
            b'A' => Command::Amend { flow: self.flow()? },
            b'W' => Command::Withdraw {
                flow: self.short()?,
            },
            b'S' => Command::Solve {
                measure: self.byte()?,
                allowance: self.long()?,
            },
            _ => return Err(Fault::UnknownByte),
        })
    }

    /// A flow with its figures.
    fn flow(&mut self) -> Result<Flow, Fault> {
        Ok(Flow {
            name: self.short()?,
            payload: self.short()?,
            cycle: self.short()?,
        })
    }

    fn byte(&mut self) -> Result<u8, Fault> {
        self.take().map(u8::from_be_bytes)
    }

    fn short(&mut self) -> Result<u16, Fault> {
        self.take().map(u16::from_be_bytes)
    }

    fn long(&mut self) -> Result<u32, Fault> {
        self.take().map(u32::from_be_bytes)
    }

    /// The next bytes, as many as are asked for.
    fn take<const N: usize>(&mut self) -> Result<[u8; N], Fault> {
        let (taken, rest) = self.0.split_first_chunk().ok_or(Fault::OperandsCut)?;
        self.0 = rest;
        Ok(*taken)
    }
}
