//! The packets that the arguments name.

use crate::folders::{files, Found};
use crate::inputs::Input;
use crate::progress::Progress;
use crate::{dump, hex, Failure};
use std::fmt;

/// How packets are given.
pub struct Packets {
    pub inputs: Vec<Input>,
    /// They are written in hexadecimal.
    pub hex: bool,
    /// Each line is one, in hexadecimal.
    pub lines: bool,
}

/// The name of a packet: its file, and its line where each line is one.
pub struct Name<'a> {
    pub input: &'a Input,
    pub line: Option<usize>,
}

impl fmt::Display for Name<'_> {
    fn fmt(&self, to: &mut fmt::Formatter<'_>) -> fmt::Result {
        write!(to, "{}", self.input)?;
        self.line.map_or(Ok(()), |line| write!(to, ":{line}"))
    }
}

impl Name<'_> {
    /// The name as it is, control characters too.
    pub fn plain(&self) -> String {
        let line = self.line.map_or(String::new(), |line| format!(":{line}"));
        self.input.name().to_string_lossy().into_owned() + &line
    }
}

/// What is done with a packet: its bytes, or why it cannot be read.
pub type Visit<'a> = dyn FnMut(&Name<'_>, Result<&[u8], &str>) -> Result<(), Failure> + 'a;

impl Packets {
    /// Whether there can be more than one, so that each is named.
    pub fn are_named(&self) -> bool {
        let is_folder = |input: &Input| input.path().is_some_and(|path| path.is_dir());
        self.lines || self.inputs.len() > 1 || self.inputs.iter().any(is_folder)
    }

    /// Visits the packets in order.
    pub fn each(&self, visit: &mut Visit<'_>) -> Result<(), Failure> {
        let found: Vec<Found> = self.inputs.iter().flat_map(|input| files(input, false)).collect();
        let progress = Progress::new("packets", (!self.lines).then_some(found.len()));
        let mut counted = |name: &Name<'_>, packet: Result<&[u8], &str>| {
            progress.step();
            visit(name, packet)
        };
        for found in &found {
            match found {
                Ok(input) if self.lines => each_line(input, &mut counted)?,
                Ok(input) => {
                    let packet = self.packet(input);
                    counted(&Name { input, line: None }, packet.as_deref().map_err(String::as_str))?;
                }
                Err((input, why)) => counted(&Name { input, line: None }, Err(why))?,
            }
        }
        Ok(())
    }

    /// The only one, which is no folder.
    pub fn only(&self) -> Result<(Name<'_>, Vec<u8>), String> {
        let name = Name { input: &self.inputs[0], line: None };
        let packet = self.packet(name.input).map_err(|why| format!("{name}: {why}"))?;
        Ok((name, packet))
    }

    fn packet(&self, input: &Input) -> Result<Vec<u8>, String> {
        let bytes = input.bytes()?;
        match self.hex {
            true if dump::is_dump(&bytes) => dump::bytes_of(&bytes),
            true => hex::bytes_of(&bytes),
            false => Ok(bytes),
        }
        .map_err(|wrong: hex::Wrong| wrong.to_string())
    }
}

fn each_line(input: &Input, visit: &mut Visit<'_>) -> Result<(), Failure> {
    let lines = match input.lines() {
        Ok(lines) => lines,
        Err(why) => return visit(&Name { input, line: None }, Err(&why)),
    };
    for (number, line) in (1..).zip(lines) {
        let name = Name { input, line: Some(number) };
        let line = match line {
            Ok(line) => line,
            Err(why) => return visit(&name, Err(&why)),
        };
        let packet = hex::bytes_of(&line).map_err(|wrong| wrong.in_line());
        visit(&name, packet.as_deref().map_err(String::as_str))?;
    }
    Ok(())
}
