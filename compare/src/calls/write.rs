//! The writers.

use super::code::{code, short};
use super::lib::mmc::{self, InfoField, InfoFields, MmcCommand};
use super::written;
use crate::plain::{self, Command, Field, Written};

/// The command of a plain one; its parts lie in the source.
pub fn command<'a>(c: &Command, source: &'a [u8]) -> MmcCommand<'a> {
    match c.kind {
        0 => MmcCommand::Stop,
        1 => MmcCommand::Play,
        2 => MmcCommand::DeferredPlay,
        3 => MmcCommand::FastForward,
        4 => MmcCommand::Rewind,
        5 => MmcCommand::RecordStrobe,
        6 => MmcCommand::RecordExit,
        7 => MmcCommand::Pause,
        8 => MmcCommand::Reset,
        plain::WRITE => MmcCommand::Write(InfoFields::new(c.data.in_source(source))),
        plain::LOCATE_FIELD => MmcCommand::LocateField { register: c.first },
        plain::LOCATE_TARGET => MmcCommand::LocateTarget(code(c.code)),
        plain::MOVE => MmcCommand::Move {
            destination: c.first,
            source: c.second,
        },
        _ => MmcCommand::Other {
            name: c.name.in_source(source),
            data: c.data.in_source(source),
        },
    }
}

/// The field of a plain one; its parts lie in the source.
pub fn field<'a>(f: &Field, source: &'a [u8]) -> InfoField<'a> {
    match f.kind {
        plain::TIME_CODE => InfoField::TimeCode {
            field: f.field,
            code: code(f.code),
        },
        plain::SHORT => InfoField::Short {
            field: f.field,
            code: short(f.short),
        },
        _ => InfoField::Other {
            name: f.name.in_source(source),
            data: f.data.in_source(source),
        },
    }
}

/// All commands of a list.
pub fn command_list<'a>(list: &[Command], source: &'a [u8]) -> Vec<MmcCommand<'a>> {
    list.iter().map(|c| command(c, source)).collect()
}

/// All fields of a list.
pub fn field_list<'a>(list: &[Field], source: &'a [u8]) -> Vec<InfoField<'a>> {
    list.iter().map(|f| field(f, source)).collect()
}

/// `write_commands`.
pub fn commands(out: &mut [u8], device: u8, list: &[MmcCommand<'_>]) -> Written {
    written(mmc::write_commands(out, device, list))
}

/// `write_responses`.
pub fn responses(out: &mut [u8], device: u8, list: &[InfoField<'_>]) -> Written {
    written(mmc::write_responses(out, device, list))
}

/// `write_info_fields`.
pub fn fields(out: &mut [u8], list: &[InfoField<'_>]) -> Written {
    written(mmc::write_info_fields(out, list))
}
