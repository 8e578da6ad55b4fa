//! The transport: machine control commands applied to a quarter frame generator.
//!
//! Locate stops the generator at its target, where a number that drop-frame skips is moved to the next valid one. A negative
//! target is then counted back from midnight: minus one second is 23:59:59:00, and minus zero is zero. Play and Deferred Play
//! set it running forward, Stop and Pause stop it. The other commands change nothing.
//!
//! [`apply`] takes one command, and [`obey`] a whole command string.

use crate::ffi;
use crate::mmc::MmcCommand;
use crate::mtc::MtcGenerator;
use crate::universal::SysexError;

/// What became of a command that was not refused.
#[derive(Debug, Clone, Copy, PartialEq, Eq, Hash)]
pub enum Outcome {
    /// The command was for this device and has acted.
    Done,
    /// The command was for another device, and changed nothing.
    NotMine,
}

/// What became of a command string.
#[derive(Debug, Clone, Copy, PartialEq, Eq, Hash)]
pub struct Run {
    /// How many commands were read.
    pub commands: usize,
    /// How many of those were refused. A refused one does not hold up those behind it.
    pub refused: usize,
    /// Why the reading ended: [`SysexError::End`], or [`SysexError::Length`] where the string is cut short.
    pub stop: SysexError,
}

/// Applies one command of a message for `device_id` to the generator of the device `own`. Refuses a device above 127, and a
/// Locate target that is blank or not valid; the generator is then as it was.
///
/// ```
/// use fimbrast::mmc::MmcCommand;
/// use fimbrast::mtc::{Direction, MtcGenerator, MtcTime, TimeCodeType};
/// use fimbrast::transport::{apply, Outcome};
/// use fimbrast::universal::SysexError;
///
/// let start = MtcTime::from_frame_count(0, TimeCodeType::Fps25);
/// let mut generator = MtcGenerator::new(start, Direction::Forward);
/// assert_eq!(apply(&mut generator, 0x7F, 5, &MmcCommand::Stop), Ok(Outcome::Done));
/// assert_eq!(generator.next_byte(), None);
/// assert_eq!(apply(&mut generator, 6, 5, &MmcCommand::Play), Ok(Outcome::NotMine));
/// assert_eq!(generator.next_byte(), None);
/// assert_eq!(apply(&mut generator, 128, 5, &MmcCommand::Play), Err(SysexError::Device));
/// ```
pub fn apply(
    generator: &mut MtcGenerator,
    device_id: u8,
    own: u8,
    command: &MmcCommand<'_>,
) -> Result<Outcome, SysexError> {
    let applied = ffi::fimbrast_apply(generator.record, device_id, own, command.flat());
    generator.record = applied.generator;
    match applied.answer {
        ffi::NOT_THIS => Ok(Outcome::NotMine),
        answer => SysexError::check(answer).map(|()| Outcome::Done),
    }
}

/// Reads the commands of a message's data from the front to the end, and applies each as it is read. Those before a cut have
/// acted.
///
/// ```
/// use fimbrast::mtc::{Direction, MtcGenerator, MtcTime, TimeCodeType};
/// use fimbrast::transport::obey;
/// use fimbrast::universal::SysexError;
///
/// let start = MtcTime::from_frame_count(0, TimeCodeType::Fps25);
/// let mut generator = MtcGenerator::new(start, Direction::Reverse);
/// // Locate 01:00:00:00 at 25, then Play.
/// let body = [0x44, 0x06, 0x01, 0x21, 0x00, 0x00, 0x00, 0x00, 0x02];
/// let run = obey(&mut generator, 0x7F, 5, &body);
/// assert_eq!((run.commands, run.refused, run.stop), (2, 0, SysexError::End));
/// assert_eq!(generator.time().hours, 1);
/// assert_eq!(generator.next_byte(), Some(0x00));
/// ```
pub fn obey(generator: &mut MtcGenerator, device_id: u8, own: u8, body: &[u8]) -> Run {
    let run = ffi::obey(generator.record, device_id, own, body);
    generator.record = run.generator;
    Run {
        commands: run.commands,
        refused: run.refused,
        stop: SysexError::of(run.stop, 0),
    }
}
