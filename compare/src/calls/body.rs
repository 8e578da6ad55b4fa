//! Bodies read from the front: every item with its place.

use super::code::{code_bytes, short_bytes};
use super::lib::mmc::{Commands, InfoField, InfoFields, MmcCommand, MmcMessage};
use super::lib::universal::SysexError;
use super::message::universal;
use super::refusal;
use crate::plain::{self, Command, Field, Header, Part};

/// One step of a walk over commands: refusal, command, the bytes not read.
pub const COMMAND_STEP: usize = 1 + Command::SIZE + 4;
/// One step of a walk over fields.
pub const FIELD_STEP: usize = 1 + Field::SIZE + 4;

/// A command with the places of its parts in the body.
pub fn command(body: &[u8], c: &MmcCommand<'_>) -> Command {
    let mut out = Command::default();
    out.kind = match c {
        MmcCommand::Stop => 0,
        MmcCommand::Play => 1,
        MmcCommand::DeferredPlay => 2,
        MmcCommand::FastForward => 3,
        MmcCommand::Rewind => 4,
        MmcCommand::RecordStrobe => 5,
        MmcCommand::RecordExit => 6,
        MmcCommand::Pause => 7,
        MmcCommand::Reset => 8,
        MmcCommand::Write(fields) => {
            out.data = Part::of(body, fields.as_bytes());
            plain::WRITE
        }
        MmcCommand::LocateField { register } => {
            out.first = *register;
            plain::LOCATE_FIELD
        }
        MmcCommand::LocateTarget(code) => {
            out.code = code_bytes(code);
            plain::LOCATE_TARGET
        }
        MmcCommand::Move {
            destination,
            source,
        } => {
            (out.first, out.second) = (*destination, *source);
            plain::MOVE
        }
        MmcCommand::Other { name, data } => {
            (out.name, out.data) = (Part::of(body, name), Part::of(body, data));
            plain::OTHER
        }
    };
    out
}

/// A field with the places of its parts in the body.
pub fn field(body: &[u8], f: &InfoField<'_>) -> Field {
    let mut out = Field::default();
    match f {
        InfoField::TimeCode { field, code } => {
            (out.kind, out.field) = (plain::TIME_CODE, *field);
            out.code = code_bytes(code);
        }
        InfoField::Short { field, code } => {
            (out.kind, out.field) = (plain::SHORT, *field);
            out.short = short_bytes(code);
        }
        InfoField::Other { name, data } => {
            out.kind = plain::OTHER_FIELD;
            (out.name, out.data) = (Part::of(body, name), Part::of(body, data));
        }
    }
    out
}

/// The number of one answer of a reader: 0 an item, 9 the end, else the refusal.
fn number<T>(answer: &Option<Result<T, SysexError>>) -> u8 {
    match answer {
        Some(Ok(_)) => 0,
        Some(Err(e)) => refusal(*e).0,
        None => 9,
    }
}

/// The bytes not read; nothing left stands at the end of the body.
fn put_rest(body: &[u8], rest: &[u8], out: &mut Vec<u8>) {
    let part = if rest.is_empty() {
        Part::of(body, &body[body.len()..])
    } else {
        Part::of(body, rest)
    };
    out.extend_from_slice(&part.start.to_be_bytes());
    out.extend_from_slice(&part.length.to_be_bytes());
}

/// Reads one command and appends the step; the number of the answer.
pub fn next_command<'a>(body: &'a [u8], it: &mut Commands<'a>, out: &mut Vec<u8>) -> u8 {
    let answer = it.next();
    let n = number(&answer);
    out.push(n);
    match &answer {
        Some(Ok(c)) => command(body, c).put(out),
        _ => out.extend_from_slice(&[0; Command::SIZE]),
    }
    put_rest(body, it.as_bytes(), out);
    n
}

/// Reads one field and appends the step; the number of the answer.
pub fn next_field<'a>(body: &'a [u8], it: &mut InfoFields<'a>, out: &mut Vec<u8>) -> u8 {
    let answer = it.next();
    let n = number(&answer);
    out.push(n);
    match &answer {
        Some(Ok(f)) => field(body, f).put(out),
        _ => out.extend_from_slice(&[0; Field::SIZE]),
    }
    put_rest(body, it.as_bytes(), out);
    n
}

/// Every step over a body of commands, and one past the end.
fn walk_commands<'a>(body: &'a [u8], mut it: Commands<'a>, out: &mut Vec<u8>) {
    for _ in 0..body.len() + 2 {
        if next_command(body, &mut it, out) == 9 {
            break;
        }
    }
    next_command(body, &mut it, out);
}

/// Every step over a body of fields, and one past the end.
fn walk_fields<'a>(body: &'a [u8], mut it: InfoFields<'a>, out: &mut Vec<u8>) {
    for _ in 0..body.len() + 2 {
        if next_field(body, &mut it, out) == 9 {
            break;
        }
    }
    next_field(body, &mut it, out);
}

/// The walk over a body as the data of a message, from its header; one byte where it is refused.
pub fn message(h: &Header, body: &[u8], out: &mut Vec<u8>) {
    out.clear();
    match MmcMessage::from_universal(&universal(h, body)) {
        Ok(Some(MmcMessage::Commands { commands, .. })) => walk_commands(body, commands, out),
        Ok(Some(MmcMessage::Responses { fields, .. })) => walk_fields(body, fields, out),
        Ok(None) => out.push(0xFF),
        Err(e) => out.push(refusal(e).0),
    }
}

/// The walk over a body by `InfoFields::new`.
pub fn fields(body: &[u8], out: &mut Vec<u8>) {
    out.clear();
    walk_fields(body, InfoFields::new(body), out);
}
