use crate::plan::Plan;
use crate::planning::Planning;
use crate::reader::{Reader, SCRIPT_MAX};
use crate::refusal::{Fault, Refusal};
use crate::search::Solved;
use std::io;
use std::io::Write;

/// Runs the script and writes the lines of every command, one command after the other.
pub fn write_lines(script: &[u8], out: &mut impl Write) -> io::Result<()> {
    if script.len() > SCRIPT_MAX {
        return write_refusal(out, 0, Fault::ScriptTooLong.into());
    }
    let mut planning = Planning::default();
    for (command, read) in (1..).zip(Reader::new(script)) {
        match read.and_then(|read| planning.perform(read)) {
            Ok(None) => writeln!(out, "{command} 0")?,
            Ok(Some(solved)) => write_setting(out, command, &planning.plan, &solved)?,
            Err(refusal) => {
                write_refusal(out, command, refusal)?;
                if refusal.ends_run() {
                    break;
                }
            }
        }
    }
    Ok(())
}

/// Writes the line of a refused command.
fn write_refusal(out: &mut impl Write, command: u32, refusal: Refusal) -> io::Result<()> {
    writeln!(out, "{command} {} {}", refusal.fault as u8, refusal.detail)
}

/// Writes the lines of a solve.
fn write_setting(
    out: &mut impl Write,
    command: u32,
    plan: &Plan,
    solved: &Solved,
) -> io::Result<()> {
    let Solved { visits, setting } = solved;
    let units: u32 = setting.iter().map(|pair| pair.units).sum();
    let bytes: u32 = setting.iter().map(|pair| pair.frame).sum();
    writeln!(out, "{command} 0 {units} {bytes} {visits}")?;
    for (link, pair) in plan.links.iter().zip(setting) {
        writeln!(out, "{} {} {}", link.name, pair.gap, pair.mtu)?;
    }
    Ok(())
}
