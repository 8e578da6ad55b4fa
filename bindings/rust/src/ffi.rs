//! The library's records and calls, as `fimbrast.h` declares them. `make write-bindings` makes this file from the Rattle source.
//!
//! A call on values, or on a record behind a reference, is declared safe: it is total, keeps nothing, and any record may be given to
//! it. What comes back by value is proved: a `bool` is 0 or 1, and a rate 0 to 3. So the calls on labels take and give the crate's own type.
//! A call on lent bytes has one beside it that takes slices; the library stays inside them and keeps none.

#[cfg(test)]
use core::mem::{offset_of, size_of};

use crate::mtc::MtcTime;

/// The version of the library that this is made for.
pub const VERSION: u32 = 700;

/// The archive must be of this version: where it is not, the linker misses this call.
#[used]
static NEEDED_VERSION: extern "C" fn() -> u32 = fimbrast_version_0_7_0;

pub const NOT_THIS: u8 = 255;
pub const NONE: u8 = 255;
pub const FORWARD: u8 = 0;
pub const REVERSE: u8 = 1;
pub const COMMANDS: u8 = 0;
pub const RESPONSES: u8 = 128;
pub const STOP: u8 = 0;
pub const PLAY: u8 = 1;
pub const DEFERRED_PLAY: u8 = 2;
pub const FAST_FORWARD: u8 = 3;
pub const REWIND: u8 = 4;
pub const RECORD_STROBE: u8 = 5;
pub const RECORD_EXIT: u8 = 6;
pub const PAUSE: u8 = 7;
pub const RESET: u8 = 8;
pub const WRITE: u8 = 9;
pub const LOCATE_FIELD: u8 = 10;
pub const LOCATE_TARGET: u8 = 11;
pub const MOVE: u8 = 12;
pub const OTHER_COMMAND: u8 = 13;
pub const TIME_CODE: u8 = 0;
pub const SHORT: u8 = 1;
pub const OTHER_FIELD: u8 = 2;
pub const TRACK_RECORD_READY: u8 = 79;
pub const TRACK_BYTES: u8 = 9;
pub const POSITION_VIDEO: u8 = 0;
pub const POSITION_RESERVED: u8 = 1;
pub const POSITION_TIME_CODE: u8 = 2;
pub const POSITION_AUX_A: u8 = 3;
pub const POSITION_AUX_B: u8 = 4;

/// 1: a byte above 7FH in a written name or data.
pub const REFUSED_DATA_BYTE: u8 = 1;
/// 2: a length that the format does not allow.
pub const REFUSED_LENGTH: u8 = 2;
/// 3: a value outside the range of its field.
pub const REFUSED_OUT_OF_RANGE: u8 = 3;
/// 4: the buffer is shorter than the whole output.
pub const REFUSED_BUFFER_TOO_SMALL: u8 = 4;
/// 5: a device above 127.
pub const REFUSED_DEVICE: u8 = 5;
/// 6: a start and length that are not inside the lent source.
pub const REFUSED_SOURCE: u8 = 6;
/// 7: a Locate target that is blank or not valid.
pub const REFUSED_TARGET: u8 = 7;
/// 8: the generator is stopped.
pub const REFUSED_STOPPED: u8 = 8;
/// 9: the reading place is at or past the end.
pub const REFUSED_END: u8 = 9;
/// 10: 256 items were already accepted in this writing.
pub const REFUSED_ITEM_LIMIT: u8 = 10;
/// 11: an index has no field under this name.
pub const REFUSED_NO_FIELD: u8 = 11;
/// 12: more than nine bytes of tracks, a track outside 1 to 58, or no armed track to be the lowest.
pub const REFUSED_TRACK: u8 = 12;
/// 13: a quarter frame's byte of 80H or more, which is a status byte.
pub const REFUSED_STATUS_BYTE: u8 = 13;
/// The number of every refusal.
pub const REFUSALS: [u8; 13] = [1, 2, 3, 4, 5, 6, 7, 8, 9, 10, 11, 12, 13];

/// A label. Rates: 0 is 24, 1 is 25, 2 is 30 drop-frame, 3 is 30 frames per second. Only the two low bits of a rate are read.
#[derive(Debug, Clone, Copy, PartialEq, Eq, Default)]
#[repr(C)]
pub struct Time {
    pub hours: u8,
    pub minutes: u8,
    pub seconds: u8,
    pub frames: u8,
    pub rate: u8,
}

/// A generator. Direction 0 is forward, any other reverse. A last piece above 7 is none, and an answer has 255 for it.
#[derive(Debug, Clone, Copy, PartialEq, Eq, Default)]
#[repr(C)]
pub struct Generator {
    pub time: Time,
    pub direction: u8,
    pub last: u8,
    pub running: bool,
}

/// A time code. The last byte is the status byte where `status` is true, else subframes.
#[derive(Debug, Clone, Copy, PartialEq, Eq, Default)]
#[repr(C)]
pub struct Code {
    pub time: Time,
    pub color_frame: bool,
    pub blank: bool,
    pub negative: bool,
    pub status: bool,
    pub last: u8,
}

/// A part of lent bytes.
#[derive(Debug, Clone, Copy, PartialEq, Eq, Default)]
#[repr(C)]
pub struct Part {
    pub start: usize,
    pub length: usize,
}

/// One command. The kinds are FIMBRAST_STOP, 0, to FIMBRAST_OTHER_COMMAND, 13; a kind above 13 is taken as 13. What a kind does not
/// use is 0 in an answer, and is not read in an argument.
#[derive(Debug, Clone, Copy, PartialEq, Eq, Default)]
#[repr(C)]
pub struct Command {
    pub kind: u8,
    pub first: u8,
    pub second: u8,
    pub code: Code,
    pub name: Part,
    pub data: Part,
}

/// The generator after a command. Answer 0 is done, 255 for another device, any other number a refusal: 5 or 7.
#[derive(Debug, Clone, Copy, PartialEq, Eq, Default)]
#[repr(C)]
pub struct Applied {
    pub generator: Generator,
    pub answer: u8,
}

/// The flags of a time code's status byte.
#[derive(Debug, Clone, Copy, PartialEq, Eq, Default)]
#[repr(C)]
pub struct Status {
    pub estimated: bool,
    pub invalid: bool,
    pub video_field1: bool,
    pub no_time_code: bool,
}

/// The bytes of a time code.
#[derive(Debug, Clone, Copy, PartialEq, Eq, Default)]
#[repr(C)]
pub struct FiveBytes {
    pub bytes: [u8; 5],
}

/// A written time code. The bytes are zeros where the refusal is not 0.
#[derive(Debug, Clone, Copy, PartialEq, Eq, Default)]
#[repr(C)]
pub struct CodeBytes {
    pub refusal: u8,
    pub code: FiveBytes,
}

/// The bytes of a short time code.
#[derive(Debug, Clone, Copy, PartialEq, Eq, Default)]
#[repr(C)]
pub struct TwoBytes {
    pub bytes: [u8; 2],
}

/// A short time code. The last byte is the status byte where `status` is true, else subframes.
#[derive(Debug, Clone, Copy, PartialEq, Eq, Default)]
#[repr(C)]
pub struct ShortCode {
    pub frames: u8,
    pub negative: bool,
    pub status: bool,
    pub last: u8,
}

/// A written short time code. The bytes are zeros where the refusal is not 0.
#[derive(Debug, Clone, Copy, PartialEq, Eq, Default)]
#[repr(C)]
pub struct ShortCodeBytes {
    pub refusal: u8,
    pub code: TwoBytes,
}

/// A report as one number; 0 is no report. From the lowest bit: 1, the direction, the discontinuity. Its labels stay in the reader;
/// `fimbrast_report_parts` takes both together.
pub type Report = u64;

/// Of a list of bytes: how many sequences it reported, how many of those with a discontinuity, the last report, whose labels stand in the
/// reader, and how many bytes were refused.
#[derive(Debug, Clone, Copy, PartialEq, Eq, Default)]
#[repr(C)]
pub struct Fed {
    pub reports: usize,
    pub discontinuities: usize,
    pub last: Report,
    pub refused: usize,
}

/// A reader in fifteen words: eight nibbles, the order, the first piece, the lock, and a mark and a word each for the previous and the
/// current label. Any words are a reader in its ranges; `fimbrast_reader_parts` says which.
#[derive(Debug, Clone, Copy, PartialEq, Eq, Default)]
#[repr(C)]
pub struct Reader {
    pub words: [u32; 15],
}

/// Refusal 0 and a data byte, or a refusal and byte 0.
#[derive(Debug, Clone, Copy, PartialEq, Eq, Default)]
#[repr(C)]
pub struct Next {
    pub refusal: u8,
    pub byte: u8,
}

/// An index of 128 cells, one for each name of one byte up to 7FH: 0 where there is no field of that name, else the place where the first
/// one begins, plus 1. Cells that are all 0 are an index without fields.
#[derive(Debug, Clone, Copy, PartialEq, Eq)]
#[repr(C)]
pub struct FieldIndex {
    pub cells: [usize; 128],
}

/// Where a field begins, with refusal 0; or refusal 11, and place 0.
#[derive(Debug, Clone, Copy, PartialEq, Eq, Default)]
#[repr(C)]
pub struct FieldPlace {
    pub refusal: u8,
    pub place: usize,
}

/// The split parts of a Universal message but its data.
#[derive(Debug, Clone, Copy, PartialEq, Eq, Default)]
#[repr(C)]
pub struct Universal {
    pub real_time: bool,
    pub device_id: u8,
    pub sub_id1: u8,
    pub has_sub_id2: bool,
    pub sub_id2: u8,
}

/// What a writing answers: refusal 0 and the length; 4 and the needed length; any other refusal and 0.
#[derive(Debug, Clone, Copy, PartialEq, Eq, Default)]
#[repr(C)]
pub struct Written {
    pub refusal: u8,
    pub length: usize,
}

/// A full message as it was read. Answer 0 is a message, 255 another kind, any other number a refusal.
/// Without a message all else is 0.
#[derive(Debug, Clone, Copy, PartialEq, Eq, Default)]
#[repr(C)]
pub struct FullMessage {
    pub answer: u8,
    pub device_id: u8,
    pub time: Time,
}

/// Binary Groups 1 to 8, four bits each, and the two flag bits.
#[derive(Debug, Clone, Copy, PartialEq, Eq, Default)]
#[repr(C)]
pub struct UserBits {
    pub device_id: u8,
    pub groups: [u8; 8],
    pub flags: u8,
}

/// User bits as they were read; the answer is as in a full message.
#[derive(Debug, Clone, Copy, PartialEq, Eq, Default)]
#[repr(C)]
pub struct ReadUserBits {
    pub answer: u8,
    pub bits: UserBits,
}

/// The groups as four bytes.
#[derive(Debug, Clone, Copy, PartialEq, Eq, Default)]
#[repr(C)]
pub struct FourBytes {
    pub bytes: [u8; 4],
}

/// A message of commands or of responses; the answer is as in a full message.
#[derive(Debug, Clone, Copy, PartialEq, Eq, Default)]
#[repr(C)]
pub struct MmcMessage {
    pub answer: u8,
    pub responses: bool,
    pub device_id: u8,
}

/// The generator after all commands of a string, how many were read, how many of those were refused, and the refusal that ended the
/// reading: 9 at the end, 2 where the string is cut short.
#[derive(Debug, Clone, Copy, PartialEq, Eq, Default)]
#[repr(C)]
pub struct Run {
    pub generator: Generator,
    pub commands: usize,
    pub refused: usize,
    pub stop: u8,
}

/// What a byte gives, as one number, which comes back in a register: the piece in the lowest byte, the boundary in bit 8, and from bit 9
/// on the report of the sequence that it ends. The highest byte is the refusal, 0 for none; a refused byte gives nothing else.
pub type Event = u64;

/// A time, where `present` is true. Where it is false the time is all zeros in an answer, and is not read in an argument.
#[derive(Debug, Clone, Copy, PartialEq, Eq, Default)]
#[repr(C)]
pub struct MaybeTime {
    pub present: bool,
    pub time: Time,
}

/// A reader field by field. A last piece above 7 is none; direction 0 is forward, 1 reverse, any other none.
/// An answer has 255 for none.
#[derive(Debug, Clone, Copy, PartialEq, Eq, Default)]
#[repr(C)]
pub struct ReaderFields {
    pub nibbles: [u8; 8],
    pub count: u8,
    pub first: u8,
    pub last: u8,
    pub direction: u8,
    pub locked: bool,
    pub running: bool,
    pub previous: MaybeTime,
    pub time: MaybeTime,
}

/// The end of a full sequence: the label as it was assembled, the current one, the direction, and whether the assembled label does not
/// follow the one before it.
#[derive(Debug, Clone, Copy, PartialEq, Eq, Default)]
#[repr(C)]
pub struct Sequence {
    pub raw: Time,
    pub current: Time,
    pub direction: u8,
    pub discontinuity: bool,
}

/// A report, where `present` is true. Where it is false the sequence is all zeros.
#[derive(Debug, Clone, Copy, PartialEq, Eq, Default)]
#[repr(C)]
pub struct MaybeSequence {
    pub present: bool,
    pub sequence: Sequence,
}

/// Refusal 0 and the command, with the place to read on from; 2 where the string is cut short, with the end as its place;
/// 9 at or past the end.
#[derive(Debug, Clone, Copy, PartialEq, Eq, Default)]
#[repr(C)]
pub struct NextCommand {
    pub refusal: u8,
    pub command: Command,
    pub place: usize,
}

/// A command or a refusal as one number, which comes back in registers, and the place to read on from. The number's lowest byte is the
/// kind of the command, 0 to 13, or 128 plus the refusal's number. The bytes above it are, the lowest first:
///    9 Write              0 and the length of the data
///   10 Locate, register   the register
///   11 Locate, target     hours, minutes, seconds, frames, the last byte, and two bytes of marks: bits 0 and 1 are the rate, 3 the
///                         blank, 9 the colour frame, 10 whether the last byte is a status, 11 the sign
///   12 Move               the destination and the source
///   13 any other          the lengths of the name and of the data
/// A name begins at the place that was read, and data ends at the place to read on from. A Locate, a Move and a name alone are written
/// by the same word.
#[derive(Debug, Clone, Copy, PartialEq, Eq, Default)]
#[repr(C)]
pub struct NextWord {
    pub word: u64,
    pub place: usize,
}

/// One information field. The kinds are FIMBRAST_TIME_CODE, 0, to FIMBRAST_OTHER_FIELD, 2; a kind above 2 is taken as 2. What a kind does
/// not use is 0 in an answer, and is not read in an argument.
#[derive(Debug, Clone, Copy, PartialEq, Eq, Default)]
#[repr(C)]
pub struct Field {
    pub kind: u8,
    pub field: u8,
    pub code: Code,
    pub short_code: ShortCode,
    pub name: Part,
    pub data: Part,
}

/// Refusal 0 and the field, with the place to read on from; 2 and 9 as for a command.
#[derive(Debug, Clone, Copy, PartialEq, Eq, Default)]
#[repr(C)]
pub struct NextField {
    pub refusal: u8,
    pub field: Field,
    pub place: usize,
}

/// A quarter frame's piece and value.
#[derive(Debug, Clone, Copy, PartialEq, Eq, Default)]
#[repr(C)]
pub struct QuarterFrame {
    pub piece: u8,
    pub value: u8,
}

/// What a byte is read as: refusal 0 and a quarter frame, or a refusal and zeros.
#[derive(Debug, Clone, Copy, PartialEq, Eq, Default)]
#[repr(C)]
pub struct ReadFrame {
    pub refusal: u8,
    pub frame: QuarterFrame,
}

/// The data bytes of pieces 0 to 7.
#[derive(Debug, Clone, Copy, PartialEq, Eq, Default)]
#[repr(C)]
pub struct EightBytes {
    pub bytes: [u8; 8],
}

/// A set of tracks: position p of the bitmap is bit p. Position 0 is video, 1 reserved, 2 time code, 3 and 4 auxiliaries, and n + 4 track n,
/// 1 to 58. Bit 63 is no position: every call takes it as clear, and none gives a set with it. A record of 0 is an empty set.
#[derive(Debug, Clone, Copy, PartialEq, Eq, Default)]
#[repr(C)]
pub struct TrackSet {
    pub positions: u64,
}

/// Answer 0 and a set; or a refusal. Beside a refusal, a call that arms or disarms gives the set that it got, without bit 63, and any other
/// call an empty set. 255 says that the field has no set, and stands beside an empty one.
#[derive(Debug, Clone, Copy, PartialEq, Eq, Default)]
#[repr(C)]
pub struct TrackSetAnswer {
    pub answer: u8,
    pub set: TrackSet,
}

/// Whether a track is armed, with refusal 0; or refusal 12, and no.
#[derive(Debug, Clone, Copy, PartialEq, Eq, Default)]
#[repr(C)]
pub struct TrackArmed {
    pub refusal: u8,
    pub armed: bool,
}

/// A track, with refusal 0; or refusal 12, and track 0.
#[derive(Debug, Clone, Copy, PartialEq, Eq, Default)]
#[repr(C)]
pub struct LowestTrack {
    pub refusal: u8,
    pub track: u8,
}

/// A writer as one number: the position in the lowest four bytes, the items accepted in the next two, and in the byte above them the
/// first refusal, which it repeats. A number that is no refusal's is taken as 10.
pub type Writer = u64;

/// A record's name in the header, its size, and the place of each field.
#[cfg(test)]
pub(crate) type Layout = (&'static str, usize, &'static [(&'static str, usize)]);

/// Where the fields lie, to be held against `layout.out`.
#[cfg(test)]
#[rustfmt::skip]
pub(crate) const LAYOUT: [Layout; 40] = [
    ("time", size_of::<Time>(), &[("hours", offset_of!(Time, hours)), ("minutes", offset_of!(Time, minutes)), ("seconds", offset_of!(Time, seconds)), ("frames", offset_of!(Time, frames)), ("rate", offset_of!(Time, rate))]),
    ("generator", size_of::<Generator>(), &[("time", offset_of!(Generator, time)), ("direction", offset_of!(Generator, direction)), ("last", offset_of!(Generator, last)), ("running", offset_of!(Generator, running))]),
    ("code", size_of::<Code>(), &[("time", offset_of!(Code, time)), ("color_frame", offset_of!(Code, color_frame)), ("blank", offset_of!(Code, blank)), ("negative", offset_of!(Code, negative)), ("status", offset_of!(Code, status)), ("last", offset_of!(Code, last))]),
    ("part", size_of::<Part>(), &[("start", offset_of!(Part, start)), ("length", offset_of!(Part, length))]),
    ("command", size_of::<Command>(), &[("kind", offset_of!(Command, kind)), ("first", offset_of!(Command, first)), ("second", offset_of!(Command, second)), ("code", offset_of!(Command, code)), ("name", offset_of!(Command, name)), ("data", offset_of!(Command, data))]),
    ("applied", size_of::<Applied>(), &[("generator", offset_of!(Applied, generator)), ("answer", offset_of!(Applied, answer))]),
    ("status", size_of::<Status>(), &[("estimated", offset_of!(Status, estimated)), ("invalid", offset_of!(Status, invalid)), ("video_field1", offset_of!(Status, video_field1)), ("no_time_code", offset_of!(Status, no_time_code))]),
    ("five_bytes", size_of::<FiveBytes>(), &[("bytes", offset_of!(FiveBytes, bytes))]),
    ("code_bytes", size_of::<CodeBytes>(), &[("refusal", offset_of!(CodeBytes, refusal)), ("code", offset_of!(CodeBytes, code))]),
    ("two_bytes", size_of::<TwoBytes>(), &[("bytes", offset_of!(TwoBytes, bytes))]),
    ("short_code", size_of::<ShortCode>(), &[("frames", offset_of!(ShortCode, frames)), ("negative", offset_of!(ShortCode, negative)), ("status", offset_of!(ShortCode, status)), ("last", offset_of!(ShortCode, last))]),
    ("short_code_bytes", size_of::<ShortCodeBytes>(), &[("refusal", offset_of!(ShortCodeBytes, refusal)), ("code", offset_of!(ShortCodeBytes, code))]),
    ("fed", size_of::<Fed>(), &[("reports", offset_of!(Fed, reports)), ("discontinuities", offset_of!(Fed, discontinuities)), ("last", offset_of!(Fed, last)), ("refused", offset_of!(Fed, refused))]),
    ("reader", size_of::<Reader>(), &[("words", offset_of!(Reader, words))]),
    ("next", size_of::<Next>(), &[("refusal", offset_of!(Next, refusal)), ("byte", offset_of!(Next, byte))]),
    ("field_index", size_of::<FieldIndex>(), &[("cells", offset_of!(FieldIndex, cells))]),
    ("field_place", size_of::<FieldPlace>(), &[("refusal", offset_of!(FieldPlace, refusal)), ("place", offset_of!(FieldPlace, place))]),
    ("universal", size_of::<Universal>(), &[("real_time", offset_of!(Universal, real_time)), ("device_id", offset_of!(Universal, device_id)), ("sub_id1", offset_of!(Universal, sub_id1)), ("has_sub_id2", offset_of!(Universal, has_sub_id2)), ("sub_id2", offset_of!(Universal, sub_id2))]),
    ("written", size_of::<Written>(), &[("refusal", offset_of!(Written, refusal)), ("length", offset_of!(Written, length))]),
    ("full_message", size_of::<FullMessage>(), &[("answer", offset_of!(FullMessage, answer)), ("device_id", offset_of!(FullMessage, device_id)), ("time", offset_of!(FullMessage, time))]),
    ("user_bits", size_of::<UserBits>(), &[("device_id", offset_of!(UserBits, device_id)), ("groups", offset_of!(UserBits, groups)), ("flags", offset_of!(UserBits, flags))]),
    ("read_user_bits", size_of::<ReadUserBits>(), &[("answer", offset_of!(ReadUserBits, answer)), ("bits", offset_of!(ReadUserBits, bits))]),
    ("four_bytes", size_of::<FourBytes>(), &[("bytes", offset_of!(FourBytes, bytes))]),
    ("mmc_message", size_of::<MmcMessage>(), &[("answer", offset_of!(MmcMessage, answer)), ("responses", offset_of!(MmcMessage, responses)), ("device_id", offset_of!(MmcMessage, device_id))]),
    ("run", size_of::<Run>(), &[("generator", offset_of!(Run, generator)), ("commands", offset_of!(Run, commands)), ("refused", offset_of!(Run, refused)), ("stop", offset_of!(Run, stop))]),
    ("maybe_time", size_of::<MaybeTime>(), &[("present", offset_of!(MaybeTime, present)), ("time", offset_of!(MaybeTime, time))]),
    ("reader_fields", size_of::<ReaderFields>(), &[("nibbles", offset_of!(ReaderFields, nibbles)), ("count", offset_of!(ReaderFields, count)), ("first", offset_of!(ReaderFields, first)), ("last", offset_of!(ReaderFields, last)), ("direction", offset_of!(ReaderFields, direction)), ("locked", offset_of!(ReaderFields, locked)), ("running", offset_of!(ReaderFields, running)), ("previous", offset_of!(ReaderFields, previous)), ("time", offset_of!(ReaderFields, time))]),
    ("sequence", size_of::<Sequence>(), &[("raw", offset_of!(Sequence, raw)), ("current", offset_of!(Sequence, current)), ("direction", offset_of!(Sequence, direction)), ("discontinuity", offset_of!(Sequence, discontinuity))]),
    ("maybe_sequence", size_of::<MaybeSequence>(), &[("present", offset_of!(MaybeSequence, present)), ("sequence", offset_of!(MaybeSequence, sequence))]),
    ("next_command_answer", size_of::<NextCommand>(), &[("refusal", offset_of!(NextCommand, refusal)), ("command", offset_of!(NextCommand, command)), ("place", offset_of!(NextCommand, place))]),
    ("next_word_answer", size_of::<NextWord>(), &[("word", offset_of!(NextWord, word)), ("place", offset_of!(NextWord, place))]),
    ("field", size_of::<Field>(), &[("kind", offset_of!(Field, kind)), ("field", offset_of!(Field, field)), ("code", offset_of!(Field, code)), ("short_code", offset_of!(Field, short_code)), ("name", offset_of!(Field, name)), ("data", offset_of!(Field, data))]),
    ("next_field_answer", size_of::<NextField>(), &[("refusal", offset_of!(NextField, refusal)), ("field", offset_of!(NextField, field)), ("place", offset_of!(NextField, place))]),
    ("quarter_frame", size_of::<QuarterFrame>(), &[("piece", offset_of!(QuarterFrame, piece)), ("value", offset_of!(QuarterFrame, value))]),
    ("read_frame", size_of::<ReadFrame>(), &[("refusal", offset_of!(ReadFrame, refusal)), ("frame", offset_of!(ReadFrame, frame))]),
    ("eight_bytes", size_of::<EightBytes>(), &[("bytes", offset_of!(EightBytes, bytes))]),
    ("track_set", size_of::<TrackSet>(), &[("positions", offset_of!(TrackSet, positions))]),
    ("track_set_answer", size_of::<TrackSetAnswer>(), &[("answer", offset_of!(TrackSetAnswer, answer)), ("set", offset_of!(TrackSetAnswer, set))]),
    ("track_armed", size_of::<TrackArmed>(), &[("refusal", offset_of!(TrackArmed, refusal)), ("armed", offset_of!(TrackArmed, armed))]),
    ("lowest_track", size_of::<LowestTrack>(), &[("refusal", offset_of!(LowestTrack, refusal)), ("track", offset_of!(LowestTrack, track))]),
];

unsafe extern "C" {
    /// `apply`: one command of a message for `device_id`, to the generator of the device `own`. A negative Locate target is counted back from
    /// midnight.
    pub safe fn fimbrast_apply(
        generator: Generator,
        device_id: u8,
        own: u8,
        command: Command,
    ) -> Applied;
    /// `short_name`: a field's name plus 20H, or 0 for one that has no short name.
    pub safe fn fimbrast_short_name(field: u8) -> u8;
    /// `full_name`: the field of a short name, or 0 for what is none.
    pub safe fn fimbrast_full_name(short_name: u8) -> u8;
    /// `TimeCodeStatus::from_byte`: the flags of a status byte.
    pub safe fn fimbrast_status_read(byte: u8) -> Status;
    /// `TimeCodeStatus::to_byte`: the status byte of flags.
    pub safe fn fimbrast_status_byte(status: Status) -> u8;
    /// `StandardTimeCode::from_bytes`: each count is masked to its width.
    pub safe fn fimbrast_code_read(bytes: FiveBytes) -> Code;
    /// `StandardTimeCode::to_bytes`: refuses subframes above 99 and a time that is not valid.
    pub safe fn fimbrast_code_write(code: Code) -> CodeBytes;
    /// `ShortTimeCode::from_bytes`: the frames are masked to 5 bits.
    pub safe fn fimbrast_short_code_read(bytes: TwoBytes) -> ShortCode;
    /// `ShortTimeCode::to_bytes`: refuses frames above 29 and subframes above 99.
    pub safe fn fimbrast_short_code_write(code: ShortCode) -> ShortCodeBytes;
    /// `StandardTimeCode::short`: its frames, sign and last byte.
    pub safe fn fimbrast_code_short(code: Code) -> ShortCode;
    /// `StandardTimeCode::with_short`: the code with the frames, sign and last byte of a short one.
    pub safe fn fimbrast_code_with_short(code: Code, short_code: ShortCode) -> Code;
    /// `StandardTimeCode::to_subframes_form`: a status becomes subframes 00.
    pub safe fn fimbrast_to_subframes_form(code: Code) -> Code;
    /// `StandardTimeCode::to_status_form`: subframes become a status with this video field, marked as no time code.
    pub safe fn fimbrast_to_status_form(code: Code, video_field1: bool) -> Code;
    /// `MtcReader::receive` for each of the bytes, which must not overlap the reader. A refused byte is counted, and the others are received.
    pub fn fimbrast_feed(reader: &mut Reader, bytes: *const u8, bytes_length: usize) -> Fed;
    /// `MtcGenerator::new`, forward: a running generator, whose first sequence encodes the time.
    pub safe fn fimbrast_generator_forward(time: Time) -> Generator;
    /// The same in reverse.
    pub safe fn fimbrast_generator_reverse(time: Time) -> Generator;
    /// `MtcGenerator::next_byte`: the next data byte, or refusal 8 and byte 0 while stopped.
    pub safe fn fimbrast_next_byte(generator: &mut Generator) -> Next;
    /// `MtcGenerator::set_running`: runs or stops it.
    pub safe fn fimbrast_set_running(generator: Generator, running: bool) -> Generator;
    /// `MtcGenerator::set_direction`, forward. The next piece is the one beside the last in that direction.
    pub safe fn fimbrast_set_forward(generator: Generator) -> Generator;
    /// The same in reverse.
    pub safe fn fimbrast_set_reverse(generator: Generator) -> Generator;
    /// `MtcGenerator::locate`: moves to the time. The next piece is the first of the direction.
    pub safe fn fimbrast_locate(generator: Generator, time: Time) -> Generator;
    /// `MtcGenerator::time`: what the current or next sequence encodes.
    pub safe fn fimbrast_generator_time(generator: Generator) -> Time;
    /// `InfoFieldIndex::new`: an index without fields.
    pub safe fn fimbrast_field_index_new() -> FieldIndex;
    /// `InfoFieldIndex::build`: makes the index of a field string from one walk, and answers 0; or 2 for a string that cannot be split,
    /// and then leaves the index as before. The bytes must not overlap the index.
    pub fn fimbrast_field_index_build(
        field_index: &mut FieldIndex,
        body: *const u8,
        body_length: usize,
    ) -> u8;
    /// `InfoFieldIndex::place`: where the first field of a name begins, counted from the first byte of the last string that was accepted; 11
    /// for a name without a field, or above 7FH. A name with prefixes is another name; a short time code has one of its own, 20H above its
    /// field's. Where the refusal is 0, `fimbrast_next_field` at this place of that string reads the field.
    pub safe fn fimbrast_field_index_place(field_index: &FieldIndex, name: u8) -> FieldPlace;
    /// `addressed`: a message for `device_id` is for the device `own`.
    pub safe fn fimbrast_addressed(device_id: u8, own: u8) -> bool;
    /// `has_sub_id2`: messages of this family carry a Sub-ID#2.
    pub safe fn fimbrast_has_sub_id2(real_time: bool, sub_id1: u8) -> bool;
    /// `Universal::write`: the whole message, F0H to F7H.
    pub fn fimbrast_universal_write(
        header: Universal,
        data: *const u8,
        data_length: usize,
        out: *mut u8,
        out_length: usize,
    ) -> Written;
    /// `FullMessage::from_universal`: the full message of these parts.
    pub fn fimbrast_full_message_read(
        header: Universal,
        data: *const u8,
        data_length: usize,
    ) -> FullMessage;
    /// `FullMessage::write`: the whole full message, F0H to F7H.
    pub fn fimbrast_full_message_write(
        device_id: u8,
        time: Time,
        out: *mut u8,
        out_length: usize,
    ) -> Written;
    /// `UserBits::from_universal`: the user bits of these parts.
    pub fn fimbrast_user_bits_read(
        header: Universal,
        data: *const u8,
        data_length: usize,
    ) -> ReadUserBits;
    /// `UserBits::write`: the whole user bits message, F0H to F7H.
    pub fn fimbrast_user_bits_write(bits: UserBits, out: *mut u8, out_length: usize) -> Written;
    /// `UserBits::to_bytes`: the groups as `hhhhgggg ffffeeee ddddcccc bbbbaaaa`.
    pub safe fn fimbrast_user_bits_bytes(bits: UserBits) -> FourBytes;
    /// `MmcMessage::from_universal`: the machine control message of these parts.
    pub fn fimbrast_mmc_message_read(
        header: Universal,
        data: *const u8,
        data_length: usize,
    ) -> MmcMessage;
    /// The same as one number, for a caller that has the device, which decides nothing: 0 commands, 128 responses, 255 another kind, any
    /// other number a refusal.
    pub fn fimbrast_mmc_kind(
        real_time: bool,
        sub_id1: u8,
        data: *const u8,
        data_length: usize,
    ) -> u8;
    /// `obey`: a message's data, read from the front to its end, each command applied as it is read, as by `fimbrast_apply`.
    pub fn fimbrast_obey(
        generator: Generator,
        device_id: u8,
        own: u8,
        body: *const u8,
        body_length: usize,
    ) -> Run;
    /// `MtcReader::new`: not locked, and stopped.
    pub safe fn fimbrast_reader_new() -> Reader;
    /// `MtcReader::receive`: takes one byte. One of 80H or more is refused by 13, in the number's highest byte, and leaves the reader as it was.
    pub safe fn fimbrast_receive(reader: &mut Reader, byte: u8) -> Event;
    /// `MtcReader::full_message`, with the message's time: the reader is then stopped at it.
    pub safe fn fimbrast_reader_full_message(reader: &mut Reader, time: Time);
    /// `MtcReader::is_locked`: true after a full sequence, until a broken order, a turn or a full message.
    pub safe fn fimbrast_is_locked(reader: Reader) -> bool;
    /// `MtcReader::is_running`: true after a data byte, false after a full message.
    pub safe fn fimbrast_is_running(reader: Reader) -> bool;
    /// `MtcReader::direction`: 0 forward, 1 reverse, 255 none.
    pub safe fn fimbrast_reader_direction(reader: Reader) -> u8;
    /// `MtcReader::time`: the current time of the last full sequence, or the time of a full message after it.
    pub safe fn fimbrast_reader_time(reader: Reader) -> MaybeTime;
    /// The reader field by field.
    pub safe fn fimbrast_reader_parts(reader: Reader) -> ReaderFields;
    /// The report of a number with the labels of the reader that it left, before the reader gets anything more. It is none where the
    /// number's lowest bit is 0.
    pub safe fn fimbrast_report_parts(reader: Reader, report: Report) -> MaybeSequence;
    /// The next of `Commands`: the command at a place of a message's data, 0 at first and then the place that came back.
    pub fn fimbrast_next_command(body: *const u8, body_length: usize, place: usize) -> NextCommand;
    /// The same as one number: its record says how it is made.
    pub fn fimbrast_next_word(body: *const u8, body_length: usize, place: usize) -> NextWord;
    /// The next of `InfoFields`: the field at a place of a string of fields, likewise.
    pub fn fimbrast_next_field(body: *const u8, body_length: usize, place: usize) -> NextField;
    /// The frames of a counting second: 24, 25 or 30.
    pub safe fn fimbrast_frames_per_second(rate: u8) -> u8;
    /// `MtcTime::new`: 0, or 3 for a label that is not valid.
    pub safe fn fimbrast_time_new(time: MtcTime) -> u8;
    /// `MtcTime::is_valid`: each count is in its range, and drop-frame does not skip the number.
    pub safe fn fimbrast_is_valid(time: MtcTime) -> bool;
    /// `MtcTime::next_valid`: frame 02 for a number that drop-frame skips, else the label itself.
    pub safe fn fimbrast_next_valid(time: MtcTime) -> MtcTime;
    /// `MtcTime::to_frame_count`: the frames from 00:00:00:00 to the label.
    pub safe fn fimbrast_to_frame_count(time: &MtcTime) -> u32;
    /// `MtcTime::from_frame_count`: the label of a count, round midnight.
    pub safe fn fimbrast_from_frame_count(count: u32, rate: u8) -> MtcTime;
    /// `MtcTime::add_frames`: the label so many frames later, or earlier, round midnight.
    pub safe fn fimbrast_add_frames(time: MtcTime, delta: i32) -> MtcTime;
    /// `QuarterFrame::from_byte`: the piece and value of a data byte, or refusal 13 and zeros for a byte of 80H or more.
    pub safe fn fimbrast_quarter_frame_read(byte: u8) -> ReadFrame;
    /// `QuarterFrame::to_byte`: the data byte of a piece and value.
    pub safe fn fimbrast_quarter_frame_byte(frame: QuarterFrame) -> u8;
    /// `QuarterFrame::pieces`: the data bytes of pieces 0 to 7.
    pub safe fn fimbrast_pieces(time: MtcTime) -> EightBytes;
    /// `TrackSet::new`: an empty set.
    pub safe fn fimbrast_track_set_new() -> TrackSet;
    /// `TrackSet::read`: the set of data bytes as field 4FH has them. Missing bytes are zeros, and bit 7 of each is ignored. More than nine
    /// are 12.
    pub fn fimbrast_track_set_read(data: *const u8, data_length: usize) -> TrackSetAnswer;
    /// `TrackSet::arm`: the set with one more track; 12, and the same set, for a track outside 1 to 58.
    pub safe fn fimbrast_track_set_arm(set: TrackSet, track: u8) -> TrackSetAnswer;
    /// `TrackSet::disarm`: the set without a track, likewise.
    pub safe fn fimbrast_track_set_disarm(set: TrackSet, track: u8) -> TrackSetAnswer;
    /// `TrackSet::is_armed`: whether a track is armed; 12 for one outside 1 to 58.
    pub safe fn fimbrast_track_set_is_armed(set: TrackSet, track: u8) -> TrackArmed;
    /// `TrackSet::armed_count`: how many tracks are armed.
    pub safe fn fimbrast_track_set_armed_count(set: TrackSet) -> u32;
    /// `TrackSet::lowest_armed`: the lowest armed track; 12 where none is armed.
    pub safe fn fimbrast_track_set_lowest_armed(set: TrackSet) -> LowestTrack;
    /// `TrackSet::has_position`: whether a position of the bitmap is set, as 2 for time code. From 63 on there is none.
    pub safe fn fimbrast_track_set_has_position(set: TrackSet, position: u8) -> bool;
    /// `TrackSet::write`: the data bytes at the start of the buffer, without the zero bytes at their end, and how many they are: none of an empty
    /// set, and at most nine. A buffer that is too short is 4 with the needed length, and stays as found.
    pub fn fimbrast_track_set_write(set: TrackSet, out: *mut u8, out_length: usize) -> Written;
    /// `InfoField::tracks`: the set of a field that is named by the one byte 4FH, as it was read from these bytes; 255 for any other field. The
    /// field itself stays another field. 12 for more than nine data bytes, 6 for a name or data that are no part of the bytes.
    pub fn fimbrast_field_tracks(
        source: *const u8,
        source_length: usize,
        field: Field,
    ) -> TrackSetAnswer;
    /// The version as one number: 10,000 for each whole version, 100 for each minor one, and the patch.
    pub safe fn fimbrast_version() -> u32;
    /// The same under a name that has the version. A program refers to it, so that an archive of another version does not link.
    pub safe fn fimbrast_version_0_7_0() -> u32;
    /// `write_commands` opens: F0H, 7FH, the device, 06H.
    pub fn fimbrast_open_commands(out: *mut u8, out_length: usize, device_id: u8) -> Writer;
    /// `write_responses` opens: F0H, 7FH, the device, 07H.
    pub fn fimbrast_open_responses(out: *mut u8, out_length: usize, device_id: u8) -> Writer;
    /// `write_info_fields` opens: it has no envelope, and no byte is put.
    pub safe fn fimbrast_open_fields() -> Writer;
    /// Any command by its record; its name and data are parts of the source.
    pub fn fimbrast_put_command(
        writer: Writer,
        out: *mut u8,
        out_length: usize,
        source: *const u8,
        source_length: usize,
        command: Command,
    ) -> Writer;
    /// One command by its word, as `fimbrast_next_word` gives it. A number that is no word of a name alone, of a Locate or of a Move is
    /// refused with 3, and nothing goes out of it.
    pub fn fimbrast_put_word(writer: Writer, out: *mut u8, out_length: usize, word: u64) -> Writer;
    /// A Write of these fields.
    pub fn fimbrast_put_write(
        writer: Writer,
        out: *mut u8,
        out_length: usize,
        data: *const u8,
        data_length: usize,
    ) -> Writer;
    /// Another command, whose name and then its data, of these lengths, stand at the front of the source.
    pub fn fimbrast_put_other(
        writer: Writer,
        out: *mut u8,
        out_length: usize,
        source: *const u8,
        source_length: usize,
        name: usize,
        data: usize,
    ) -> Writer;
    /// Any field by its record; its name and data are parts of the source.
    pub fn fimbrast_put_field(
        writer: Writer,
        out: *mut u8,
        out_length: usize,
        source: *const u8,
        source_length: usize,
        field: Field,
    ) -> Writer;
    /// `write_commands` and `write_responses` close: F7H.
    pub fn fimbrast_close_message(writer: Writer, out: *mut u8, out_length: usize) -> Written;
    /// `write_info_fields` closes: no byte is put, and the answer is the length.
    pub fn fimbrast_close_fields(writer: Writer, out: *const u8, out_length: usize) -> Written;
    /// `write_commands` in one call: opened, given a command for each word, closed. A word is what `fimbrast_next_word` gives for a name
    /// alone (the kinds 0 to 8), a Locate (10 and 11) or a Move (12). Each byte counts with all its bits: hours 40 are refused with 3. Any other number, one of a Write or of
    /// another command too, is refused with 3, and nothing goes out of it.
    pub fn fimbrast_write_words(
        out: *mut u8,
        out_length: usize,
        device_id: u8,
        words: *const u64,
        words_length: usize,
    ) -> Written;
}

/// `MtcReader::receive` for each of the bytes, which must not overlap the reader. A refused byte is counted, and the others are received.
#[inline]
pub fn feed(reader: &mut Reader, bytes: &[u8]) -> Fed {
    // SAFETY: each pointer and length are those of a live slice, and what is written is borrowed alone.
    unsafe { fimbrast_feed(reader, bytes.as_ptr(), bytes.len()) }
}

/// `InfoFieldIndex::build`: makes the index of a field string from one walk, and answers 0; or 2 for a string that cannot be split,
/// and then leaves the index as before. The bytes must not overlap the index.
#[inline]
pub fn field_index_build(field_index: &mut FieldIndex, body: &[u8]) -> u8 {
    // SAFETY: each pointer and length are those of a live slice, and what is written is borrowed alone.
    unsafe { fimbrast_field_index_build(field_index, body.as_ptr(), body.len()) }
}

/// `Universal::write`: the whole message, F0H to F7H.
#[inline]
pub fn universal_write(header: Universal, data: &[u8], out: &mut [u8]) -> Written {
    // SAFETY: each pointer and length are those of a live slice, and what is written is borrowed alone.
    unsafe {
        fimbrast_universal_write(
            header,
            data.as_ptr(),
            data.len(),
            out.as_mut_ptr(),
            out.len(),
        )
    }
}

/// `FullMessage::from_universal`: the full message of these parts.
#[inline]
pub fn full_message_read(header: Universal, data: &[u8]) -> FullMessage {
    // SAFETY: each pointer and length are those of a live slice, and what is written is borrowed alone.
    unsafe { fimbrast_full_message_read(header, data.as_ptr(), data.len()) }
}

/// `FullMessage::write`: the whole full message, F0H to F7H.
#[inline]
pub fn full_message_write(device_id: u8, time: Time, out: &mut [u8]) -> Written {
    // SAFETY: each pointer and length are those of a live slice, and what is written is borrowed alone.
    unsafe { fimbrast_full_message_write(device_id, time, out.as_mut_ptr(), out.len()) }
}

/// `UserBits::from_universal`: the user bits of these parts.
#[inline]
pub fn user_bits_read(header: Universal, data: &[u8]) -> ReadUserBits {
    // SAFETY: each pointer and length are those of a live slice, and what is written is borrowed alone.
    unsafe { fimbrast_user_bits_read(header, data.as_ptr(), data.len()) }
}

/// `UserBits::write`: the whole user bits message, F0H to F7H.
#[inline]
pub fn user_bits_write(bits: UserBits, out: &mut [u8]) -> Written {
    // SAFETY: each pointer and length are those of a live slice, and what is written is borrowed alone.
    unsafe { fimbrast_user_bits_write(bits, out.as_mut_ptr(), out.len()) }
}

/// `MmcMessage::from_universal`: the machine control message of these parts.
#[inline]
pub fn mmc_message_read(header: Universal, data: &[u8]) -> MmcMessage {
    // SAFETY: each pointer and length are those of a live slice, and what is written is borrowed alone.
    unsafe { fimbrast_mmc_message_read(header, data.as_ptr(), data.len()) }
}

/// The same as one number, for a caller that has the device, which decides nothing: 0 commands, 128 responses, 255 another kind, any
/// other number a refusal.
#[inline]
pub fn mmc_kind(real_time: bool, sub_id1: u8, data: &[u8]) -> u8 {
    // SAFETY: each pointer and length are those of a live slice, and what is written is borrowed alone.
    unsafe { fimbrast_mmc_kind(real_time, sub_id1, data.as_ptr(), data.len()) }
}

/// `obey`: a message's data, read from the front to its end, each command applied as it is read, as by `fimbrast_apply`.
#[inline]
pub fn obey(generator: Generator, device_id: u8, own: u8, body: &[u8]) -> Run {
    // SAFETY: each pointer and length are those of a live slice, and what is written is borrowed alone.
    unsafe { fimbrast_obey(generator, device_id, own, body.as_ptr(), body.len()) }
}

/// The next of `Commands`: the command at a place of a message's data, 0 at first and then the place that came back.
#[inline]
pub fn next_command(body: &[u8], place: usize) -> NextCommand {
    // SAFETY: each pointer and length are those of a live slice, and what is written is borrowed alone.
    unsafe { fimbrast_next_command(body.as_ptr(), body.len(), place) }
}

/// The same as one number: its record says how it is made.
#[inline]
pub fn next_word(body: &[u8], place: usize) -> NextWord {
    // SAFETY: each pointer and length are those of a live slice, and what is written is borrowed alone.
    unsafe { fimbrast_next_word(body.as_ptr(), body.len(), place) }
}

/// The next of `InfoFields`: the field at a place of a string of fields, likewise.
#[inline]
pub fn next_field(body: &[u8], place: usize) -> NextField {
    // SAFETY: each pointer and length are those of a live slice, and what is written is borrowed alone.
    unsafe { fimbrast_next_field(body.as_ptr(), body.len(), place) }
}

/// `TrackSet::read`: the set of data bytes as field 4FH has them. Missing bytes are zeros, and bit 7 of each is ignored. More than nine
/// are 12.
#[inline]
pub fn track_set_read(data: &[u8]) -> TrackSetAnswer {
    // SAFETY: each pointer and length are those of a live slice, and what is written is borrowed alone.
    unsafe { fimbrast_track_set_read(data.as_ptr(), data.len()) }
}

/// `TrackSet::write`: the data bytes at the start of the buffer, without the zero bytes at their end, and how many they are: none of an empty
/// set, and at most nine. A buffer that is too short is 4 with the needed length, and stays as found.
#[inline]
pub fn track_set_write(set: TrackSet, out: &mut [u8]) -> Written {
    // SAFETY: each pointer and length are those of a live slice, and what is written is borrowed alone.
    unsafe { fimbrast_track_set_write(set, out.as_mut_ptr(), out.len()) }
}

/// `InfoField::tracks`: the set of a field that is named by the one byte 4FH, as it was read from these bytes; 255 for any other field. The
/// field itself stays another field. 12 for more than nine data bytes, 6 for a name or data that are no part of the bytes.
#[inline]
pub fn field_tracks(source: &[u8], field: Field) -> TrackSetAnswer {
    // SAFETY: each pointer and length are those of a live slice, and what is written is borrowed alone.
    unsafe { fimbrast_field_tracks(source.as_ptr(), source.len(), field) }
}

/// `write_commands` opens: F0H, 7FH, the device, 06H.
#[inline]
pub fn open_commands(out: &mut [u8], device_id: u8) -> Writer {
    // SAFETY: each pointer and length are those of a live slice, and what is written is borrowed alone.
    unsafe { fimbrast_open_commands(out.as_mut_ptr(), out.len(), device_id) }
}

/// `write_responses` opens: F0H, 7FH, the device, 07H.
#[inline]
pub fn open_responses(out: &mut [u8], device_id: u8) -> Writer {
    // SAFETY: each pointer and length are those of a live slice, and what is written is borrowed alone.
    unsafe { fimbrast_open_responses(out.as_mut_ptr(), out.len(), device_id) }
}

/// Any command by its record; its name and data are parts of the source.
#[inline]
pub fn put_command(writer: Writer, out: &mut [u8], source: &[u8], command: Command) -> Writer {
    // SAFETY: each pointer and length are those of a live slice, and what is written is borrowed alone.
    unsafe {
        fimbrast_put_command(
            writer,
            out.as_mut_ptr(),
            out.len(),
            source.as_ptr(),
            source.len(),
            command,
        )
    }
}

/// One command by its word, as `fimbrast_next_word` gives it. A number that is no word of a name alone, of a Locate or of a Move is
/// refused with 3, and nothing goes out of it.
#[inline]
pub fn put_word(writer: Writer, out: &mut [u8], word: u64) -> Writer {
    // SAFETY: each pointer and length are those of a live slice, and what is written is borrowed alone.
    unsafe { fimbrast_put_word(writer, out.as_mut_ptr(), out.len(), word) }
}

/// A Write of these fields.
#[inline]
pub fn put_write(writer: Writer, out: &mut [u8], data: &[u8]) -> Writer {
    // SAFETY: each pointer and length are those of a live slice, and what is written is borrowed alone.
    unsafe {
        fimbrast_put_write(
            writer,
            out.as_mut_ptr(),
            out.len(),
            data.as_ptr(),
            data.len(),
        )
    }
}

/// Another command, whose name and then its data, of these lengths, stand at the front of the source.
#[inline]
pub fn put_other(
    writer: Writer,
    out: &mut [u8],
    source: &[u8],
    name: usize,
    data: usize,
) -> Writer {
    // SAFETY: each pointer and length are those of a live slice, and what is written is borrowed alone.
    unsafe {
        fimbrast_put_other(
            writer,
            out.as_mut_ptr(),
            out.len(),
            source.as_ptr(),
            source.len(),
            name,
            data,
        )
    }
}

/// Any field by its record; its name and data are parts of the source.
#[inline]
pub fn put_field(writer: Writer, out: &mut [u8], source: &[u8], field: Field) -> Writer {
    // SAFETY: each pointer and length are those of a live slice, and what is written is borrowed alone.
    unsafe {
        fimbrast_put_field(
            writer,
            out.as_mut_ptr(),
            out.len(),
            source.as_ptr(),
            source.len(),
            field,
        )
    }
}

/// `write_commands` and `write_responses` close: F7H.
#[inline]
pub fn close_message(writer: Writer, out: &mut [u8]) -> Written {
    // SAFETY: each pointer and length are those of a live slice, and what is written is borrowed alone.
    unsafe { fimbrast_close_message(writer, out.as_mut_ptr(), out.len()) }
}

/// `write_info_fields` closes: no byte is put, and the answer is the length.
#[inline]
pub fn close_fields(writer: Writer, out: &[u8]) -> Written {
    // SAFETY: each pointer and length are those of a live slice, and what is written is borrowed alone.
    unsafe { fimbrast_close_fields(writer, out.as_ptr(), out.len()) }
}

/// `write_commands` in one call: opened, given a command for each word, closed. A word is what `fimbrast_next_word` gives for a name
/// alone (the kinds 0 to 8), a Locate (10 and 11) or a Move (12). Each byte counts with all its bits: hours 40 are refused with 3. Any other number, one of a Write or of
/// another command too, is refused with 3, and nothing goes out of it.
#[inline]
pub fn write_words(out: &mut [u8], device_id: u8, words: &[u64]) -> Written {
    // SAFETY: each pointer and length are those of a live slice, and what is written is borrowed alone.
    unsafe {
        fimbrast_write_words(
            out.as_mut_ptr(),
            out.len(),
            device_id,
            words.as_ptr(),
            words.len(),
        )
    }
}
