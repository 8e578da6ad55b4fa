//! MIDI Machine Control, the transport tier (RP-013 v1.0).
//!
//! - A command message is `F0 7F <device ID> 06 <commands> F7`, a response `F0 7F <device ID> 07 <responses> F7` (p. 1).
//!   [`MmcMessage`] reads both from their split parts, [`Commands`] and [`InfoFields`] read the strings item by item, and
//!   [`write_commands`], [`write_responses`] and [`write_info_fields`] write them. [`InfoFieldIndex`] says where a field begins.
//! - The byte after at most two 00H prefixes gives an item's length (p. 5), known or not. What is not known here, or has data
//!   that does not fit, is `Other`.
//! - [`StandardTimeCode`] and [`ShortTimeCode`] are the five and two bytes of a time code (pp. 8, 9). A reader keeps the raw
//!   counts and ignores the reserved bits; a writer refuses a value out of range.
//!
//! A response from 7FH is read as it came, and is not valid. No call allocates or panics.

use core::fmt;

use crate::ffi;
use crate::mtc::MtcTime;
use crate::tracks::TrackSet;
use crate::universal::{written, SysexError, Universal};
use crate::words;

/// The largest command or response string of one message, in bytes (p. 1).
pub const MAX_STRING: usize = 48;

/// The command names of the transport tier (p. 14).
pub mod command {
    /// 01H STOP.
    pub const STOP: u8 = 0x01;
    /// 02H PLAY.
    pub const PLAY: u8 = 0x02;
    /// 03H DEFERRED PLAY.
    pub const DEFERRED_PLAY: u8 = 0x03;
    /// 04H FAST FORWARD.
    pub const FAST_FORWARD: u8 = 0x04;
    /// 05H REWIND.
    pub const REWIND: u8 = 0x05;
    /// 06H RECORD STROBE.
    pub const RECORD_STROBE: u8 = 0x06;
    /// 07H RECORD EXIT.
    pub const RECORD_EXIT: u8 = 0x07;
    /// 09H PAUSE.
    pub const PAUSE: u8 = 0x09;
    /// 0DH MMC RESET.
    pub const MMC_RESET: u8 = 0x0D;
    /// 40H WRITE.
    pub const WRITE: u8 = 0x40;
    /// 44H LOCATE.
    pub const LOCATE: u8 = 0x44;
    /// 4CH MOVE.
    pub const MOVE: u8 = 0x4C;
}

/// The information field names of the transport tier (pp. 44, 47).
pub mod field {
    /// 01H SELECTED TIME CODE: time code with status, not negative.
    pub const SELECTED_TIME_CODE: u8 = 0x01;
    /// 08H GP0 / LOCATE POINT: time code with subframes, signed.
    pub const GP0: u8 = 0x08;
}

/// A name, where it is not 0.
const fn named(name: u8) -> Option<u8> {
    match name {
        0 => None,
        n => Some(n),
    }
}

/// The short name of a time code field: 01H to 1FH have one (p. 9).
///
/// ```
/// use fimbrast::mmc::{full_name, short_name};
///
/// assert_eq!(short_name(0x08), Some(0x28));
/// assert_eq!(full_name(0x28), Some(0x08));
/// assert_eq!(short_name(0x20), None);
/// ```
pub fn short_name(field: u8) -> Option<u8> {
    named(ffi::fimbrast_short_name(field))
}

/// The time code field of a short name, 21H to 3FH (p. 9).
pub fn full_name(short: u8) -> Option<u8> {
    named(ffi::fimbrast_full_name(short))
}

/// The status byte `0evdnxxx` of a time code (p. 9).
#[derive(Debug, Clone, Copy, PartialEq, Eq, Hash, Default)]
pub struct TimeCodeStatus {
    /// e: the code is estimated.
    pub estimated: bool,
    /// v: the code is invalid (to be ignored when e is 1).
    pub invalid: bool,
    /// d: video field 1.
    pub video_field1: bool,
    /// n: no time code came to the reader's input since power up or an MMC RESET.
    pub no_time_code: bool,
}

impl TimeCodeStatus {
    /// The flags of a status byte; the reserved bits are ignored.
    pub fn from_byte(byte: u8) -> Self {
        let s = ffi::fimbrast_status_read(byte);
        Self {
            estimated: s.estimated,
            invalid: s.invalid,
            video_field1: s.video_field1,
            no_time_code: s.no_time_code,
        }
    }

    /// The flags of a status byte that the library gave.
    const fn of_bits(byte: u8) -> Self {
        Self {
            estimated: byte & 0x40 != 0,
            invalid: byte & 0x20 != 0,
            video_field1: byte & 0x10 != 0,
            no_time_code: byte & 0x08 != 0,
        }
    }

    /// The status byte, for a word: one product brings its four bits together.
    #[inline]
    fn bits(self) -> u8 {
        let each = u32::from_le_bytes([
            self.estimated.into(),
            self.invalid.into(),
            self.video_field1.into(),
            self.no_time_code.into(),
        ]);
        (u64::from(each) * 0x0804_0201 >> 21) as u8 & 0x78
    }

    /// The status byte, with the reserved bits as 000 (p. 9).
    pub fn to_byte(self) -> u8 {
        ffi::fimbrast_status_byte(ffi::Status {
            estimated: self.estimated,
            invalid: self.invalid,
            video_field1: self.video_field1,
            no_time_code: self.no_time_code,
        })
    }
}

/// The final byte of a time code: bit i of the frames byte tells the form (p. 8).
// The mark of the form is a byte, which stands beside the three marks of a time code.
#[derive(Debug, Clone, Copy, PartialEq, Eq, Hash)]
#[repr(u8)]
pub enum FinalByte {
    /// i = 0, {ff}: fractional frames, 0 to 99 (7 bits).
    Subframes(u8),
    /// i = 1, {st}: the code status.
    Status(TimeCodeStatus),
}

impl FinalByte {
    /// The mark of the status form, and the byte.
    fn flat(self) -> (bool, u8) {
        match self {
            Self::Subframes(subframes) => (false, subframes),
            Self::Status(status) => (true, status.to_byte()),
        }
    }

    #[inline]
    fn of(status: bool, last: u8) -> Self {
        if status {
            Self::Status(TimeCodeStatus::from_byte(last))
        } else {
            Self::Subframes(last)
        }
    }
}

/// The Standard Time Code `hr mn sc fr {ff|st}` (pp. 8, 9).
// The fields stand in this order, so that a word is made of few loads.
#[derive(Debug, Clone, Copy, PartialEq, Eq, Hash)]
#[repr(C)]
pub struct StandardTimeCode {
    /// The time with the type of the hours byte; a reader gives the raw counts.
    pub time: MtcTime,
    /// c: the color frame flag of the minutes byte.
    pub color_frame: bool,
    /// k: the blank flag of the seconds byte: the field has had no time code since power up or an MMC RESET.
    pub blank: bool,
    /// g: the sign of the frames byte, where signed time code is permitted.
    pub negative: bool,
    /// The final byte.
    pub final_byte: FinalByte,
}

impl StandardTimeCode {
    /// Reads the 5 bytes; each count is masked to its width.
    pub fn from_bytes(bytes: [u8; 5]) -> Self {
        Self::of(ffi::fimbrast_code_read(ffi::FiveBytes { bytes }))
    }

    /// The 5 bytes. Refuses subframes above 99 and a time that is not valid. A blank code writes its time as zeros (p. 8).
    pub fn to_bytes(&self) -> Result<[u8; 5], SysexError> {
        let answer = ffi::fimbrast_code_write(self.flat());
        SysexError::check(answer.refusal).map(|()| answer.code.bytes)
    }

    /// The short form: the frames, the sign and the final byte (p. 9).
    pub fn short(&self) -> ShortTimeCode {
        ShortTimeCode::of(ffi::fimbrast_code_short(self.flat()))
    }

    /// This full value with the frames, sign and final byte of a short form (p. 9).
    pub fn with_short(self, short: ShortTimeCode) -> Self {
        Self::of(ffi::fimbrast_code_with_short(self.flat(), short.flat()))
    }

    /// The MOVE rule from {st} to {ff}: subframes 00; an {ff} value stays as it is (p. 32).
    pub fn to_subframes_form(self) -> Self {
        Self::of(ffi::fimbrast_to_subframes_form(self.flat()))
    }

    /// The MOVE rule from {ff} to {st}: e 0, v 0, d as given and n 1; an {st} value stays as it is (p. 32).
    pub fn to_status_form(self, video_field1: bool) -> Self {
        Self::of(ffi::fimbrast_to_status_form(self.flat(), video_field1))
    }

    fn flat(self) -> ffi::Code {
        let (status, last) = self.final_byte.flat();
        ffi::Code {
            time: self.time.flat(),
            color_frame: self.color_frame,
            blank: self.blank,
            negative: self.negative,
            status,
            last,
        }
    }

    /// The word of a Locate to it without marks and with subframes, or none.
    #[inline]
    fn usual_word(&self) -> u64 {
        match (self.each_mark(), self.final_byte) {
            (0, FinalByte::Subframes(last)) => self.with_last(last),
            _ => words::NO_WORD,
        }
    }

    /// The word of a Locate to it: above the case its counts, its last byte and its marks.
    fn word(&self) -> u64 {
        let last = match self.final_byte {
            FinalByte::Subframes(subframes) => subframes,
            FinalByte::Status(status) => status.bits(),
        };
        // One product brings the four marks to bits 9, 3, 11 and 10.
        let marks = u64::from(self.each_mark()) * 0x0080_0201 >> 14 & 0x0E08;
        self.with_last(last) | marks << 48
    }

    /// The colour frame, the blank, the sign and the form of the last byte, each in a byte.
    #[inline]
    fn each_mark(&self) -> u32 {
        u32::from_le_bytes([
            self.color_frame.into(),
            self.blank.into(),
            self.negative.into(),
            matches!(self.final_byte, FinalByte::Status(_)).into(),
        ])
    }

    /// The word with this last byte and no marks.
    #[inline]
    fn with_last(&self, last: u8) -> u64 {
        let time = &self.time;
        let counts = u32::from_le_bytes([time.hours, time.minutes, time.seconds, time.frames]);
        let rate = u64::from(time.rate.into_bits());
        u64::from(counts) << 8 | u64::from(last) << 40 | rate << 48 | u64::from(ffi::LOCATE_TARGET)
    }

    /// The time code of a Locate's word. It is not inlined: a caller's loop would move an item byte by byte.
    #[inline(never)]
    fn of_word(next: ffi::NextWord) -> Self {
        let [hours, minutes, seconds, frames] = ((next.word >> 8) as u32).to_le_bytes();
        let marks = next.word >> 48;
        // One product brings each of the four marks to the start of a byte: bits 9, 3, 11 and 10.
        let each = ((marks & 0x0E08) * 0x4020_0080 >> 16) as u32 & 0x0101_0101;
        let [color_frame, blank, negative, status] = each.to_le_bytes();
        let last = next.byte(4);
        Self {
            time: MtcTime::of(ffi::Time {
                hours,
                minutes,
                seconds,
                frames,
                rate: marks as u8 & 0x03,
            }),
            color_frame: color_frame != 0,
            blank: blank != 0,
            negative: negative != 0,
            final_byte: if status == 0 {
                FinalByte::Subframes(last)
            } else {
                FinalByte::Status(TimeCodeStatus::of_bits(last))
            },
        }
    }

    #[inline]
    fn of(code: ffi::Code) -> Self {
        Self {
            time: MtcTime::of(code.time),
            color_frame: code.color_frame,
            blank: code.blank,
            negative: code.negative,
            final_byte: FinalByte::of(code.status, code.last),
        }
    }
}

/// The Standard Short Time Code `fr {ff|st}` (p. 9).
#[derive(Debug, Clone, Copy, PartialEq, Eq, Hash)]
pub struct ShortTimeCode {
    /// The frames (5 bits).
    pub frames: u8,
    /// g: the sign.
    pub negative: bool,
    /// The final byte.
    pub final_byte: FinalByte,
}

impl ShortTimeCode {
    /// Reads the 2 bytes; the frames are masked to 5 bits.
    pub fn from_bytes(bytes: [u8; 2]) -> Self {
        Self::of(ffi::fimbrast_short_code_read(ffi::TwoBytes { bytes }))
    }

    /// The 2 bytes. Refuses frames above 29 and subframes above 99.
    pub fn to_bytes(&self) -> Result<[u8; 2], SysexError> {
        let answer = ffi::fimbrast_short_code_write(self.flat());
        SysexError::check(answer.refusal).map(|()| answer.code.bytes)
    }

    fn flat(self) -> ffi::ShortCode {
        let (status, last) = self.final_byte.flat();
        ffi::ShortCode {
            frames: self.frames,
            negative: self.negative,
            status,
            last,
        }
    }

    fn of(code: ffi::ShortCode) -> Self {
        Self {
            frames: code.frames,
            negative: code.negative,
            final_byte: FinalByte::of(code.status, code.last),
        }
    }
}

/// One command (pp. 20 to 32).
// The mark of the case is as wide as the fields beside it, so that a command is moved by whole words.
#[derive(Debug, Clone, PartialEq, Eq)]
#[repr(u64)]
pub enum MmcCommand<'a> {
    /// 01H STOP.
    Stop,
    /// 02H PLAY.
    Play,
    /// 03H DEFERRED PLAY.
    DeferredPlay,
    /// 04H FAST FORWARD.
    FastForward,
    /// 05H REWIND.
    Rewind,
    /// 06H RECORD STROBE.
    RecordStrobe,
    /// 07H RECORD EXIT.
    RecordExit,
    /// 09H PAUSE.
    Pause,
    /// 0DH MMC RESET.
    Reset,
    /// 40H WRITE: the name and data pairs of the information fields.
    Write(InfoFields<'a>),
    /// 44H LOCATE \[I/F\]: sub-command 00H and a register name, 08H (GP0) to 0FH (GP7).
    LocateField {
        /// The register name.
        register: u8,
    },
    /// 44H LOCATE \[TARGET\]: sub-command 01H and a time with subframes ({ff}).
    LocateTarget(StandardTimeCode),
    /// 4CH MOVE: the destination and source field names, 01H to 1FH.
    Move {
        /// The destination field.
        destination: u8,
        /// The source field.
        source: u8,
    },
    /// Any other command, or a known one with data that does not fit it: the name with its 00H prefixes, and the data after
    /// the count byte.
    Other {
        /// The name bytes.
        name: &'a [u8],
        /// The data bytes.
        data: &'a [u8],
    },
}

impl<'a> MmcCommand<'a> {
    /// The number of its case.
    const fn kind(&self) -> u8 {
        match self {
            Self::Stop => ffi::STOP,
            Self::Play => ffi::PLAY,
            Self::DeferredPlay => ffi::DEFERRED_PLAY,
            Self::FastForward => ffi::FAST_FORWARD,
            Self::Rewind => ffi::REWIND,
            Self::RecordStrobe => ffi::RECORD_STROBE,
            Self::RecordExit => ffi::RECORD_EXIT,
            Self::Pause => ffi::PAUSE,
            Self::Reset => ffi::RESET,
            Self::Write(_) => ffi::WRITE,
            Self::LocateField { .. } => ffi::LOCATE_FIELD,
            Self::LocateTarget(_) => ffi::LOCATE_TARGET,
            Self::Move { .. } => ffi::MOVE,
            Self::Other { .. } => ffi::OTHER_COMMAND,
        }
    }

    /// The command without the bytes of `Other`. The data of `Write` is the whole of its source.
    pub(crate) fn flat(&self) -> ffi::Command {
        let kind = ffi::Command {
            kind: self.kind(),
            ..ffi::Command::default()
        };
        match *self {
            Self::Write(ref fields) => ffi::Command {
                data: ffi::Part::whole(fields.bytes.len()),
                ..kind
            },
            Self::LocateField { register } => ffi::Command {
                first: register,
                ..kind
            },
            Self::LocateTarget(target) => ffi::Command {
                code: target.flat(),
                ..kind
            },
            Self::Move {
                destination,
                source,
            } => ffi::Command {
                first: destination,
                second: source,
                ..kind
            },
            _ => kind,
        }
    }

    /// The command of a case that is a name alone.
    #[inline]
    const fn plain(case: u8) -> Self {
        match case {
            ffi::STOP => Self::Stop,
            ffi::PLAY => Self::Play,
            ffi::DEFERRED_PLAY => Self::DeferredPlay,
            ffi::FAST_FORWARD => Self::FastForward,
            ffi::REWIND => Self::Rewind,
            ffi::RECORD_STROBE => Self::RecordStrobe,
            ffi::RECORD_EXIT => Self::RecordExit,
            ffi::PAUSE => Self::Pause,
            _ => Self::Reset,
        }
    }

    /// A command of another case, whose data ends at the next place of `body`; else a refusal, or `None` for the end. It is not
    /// inlined, and its type is not that of an item: so a caller's loop makes the other items in registers.
    #[inline(never)]
    fn of(next: ffi::NextWord, body: &'a [u8]) -> Result<Self, Option<SysexError>> {
        Ok(match next.case() {
            ffi::WRITE => Self::Write(InfoFields::new(next.data(body).ok_or(None)?)),
            ffi::LOCATE_FIELD => Self::LocateField {
                register: next.byte(0),
            },
            ffi::MOVE => Self::Move {
                destination: next.byte(0),
                source: next.byte(1),
            },
            refusal => return Err(Some(SysexError::of(refusal & !words::REFUSED, 0))),
        })
    }

    /// The word of a name alone or of a Locate to a time without marks, and none of any other: so the loop over the commands most often
    /// sent keeps to few registers.
    #[inline]
    fn usual_word(&self) -> u64 {
        match (self.kind(), self) {
            (kind @ ffi::STOP..=ffi::RESET, _) => u64::from(kind),
            (_, Self::LocateTarget(target)) => target.usual_word(),
            _ => words::NO_WORD,
        }
    }

    /// The command as one number: its case, and above it a Locate's register or time, or a Move's names. Write and `Other` have none.
    pub(crate) fn word(&self) -> u64 {
        let kind = u64::from(self.kind());
        match *self {
            Self::Write(_) | Self::Other { .. } => words::NO_WORD,
            Self::LocateField { register } => kind | u64::from(register) << 8,
            Self::LocateTarget(ref target) => target.word(),
            Self::Move {
                destination,
                source,
            } => kind | u64::from(destination) << 8 | u64::from(source) << 16,
            _ => kind,
        }
    }

    fn put(&self, writer: ffi::Writer, out: &mut [u8]) -> ffi::Writer {
        match self {
            Self::Write(fields) => ffi::put_write(writer, out, fields.bytes),
            Self::Other { name, data } => {
                let joined = Joined::new(name, data);
                ffi::put_other(writer, out, &joined.bytes, joined.name, joined.data)
            }
            _ => ffi::put_word(writer, out, self.word()),
        }
    }
}

/// One information field (pp. 8, 9, 44, 47).
#[derive(Debug, Clone, Copy, PartialEq, Eq)]
pub enum InfoField<'a> {
    /// A time code field, 01H to 1FH, with 5 data bytes. SELECTED TIME CODE (01H) is {st} and not negative; GP0 (08H) is {ff}
    /// and signed.
    TimeCode {
        /// The field name.
        field: u8,
        /// The time code.
        code: StandardTimeCode,
    },
    /// The short form of a time code field: the name 21H to 3FH, with 2 data bytes.
    Short {
        /// The field name of the full form, 01H to 1FH.
        field: u8,
        /// The short time code.
        code: ShortTimeCode,
    },
    /// Any other field: the name with its 00H prefixes, and its data.
    Other {
        /// The name bytes.
        name: &'a [u8],
        /// The data bytes, after the count byte when the name has one.
        data: &'a [u8],
    },
}

impl<'a> InfoField<'a> {
    /// The field that was read from the front of `body`.
    fn of(field: ffi::Field, body: &'a [u8]) -> Self {
        match field.kind {
            ffi::TIME_CODE => Self::TimeCode {
                field: field.field,
                code: StandardTimeCode::of(field.code),
            },
            ffi::SHORT => Self::Short {
                field: field.field,
                code: ShortTimeCode::of(field.short_code),
            },
            _ => Self::Other {
                name: field.name.of(body),
                data: field.data.of(body),
            },
        }
    }

    /// The set of a field that is named by the one byte 4FH, Track Record Ready; `None` for any other field. More than nine data bytes are
    /// [`SysexError::Track`].
    ///
    /// ```
    /// use fimbrast::mmc::InfoFields;
    ///
    /// let field = InfoFields::new(&[0x4F, 0x02, 0x20, 0x01]).next().unwrap()?;
    /// let tracks = field.tracks().unwrap()?;
    /// assert!(tracks.armed().eq([1, 3]));
    /// # Ok::<(), fimbrast::universal::SysexError>(())
    /// ```
    pub fn tracks(&self) -> Option<Result<TrackSet, SysexError>> {
        let Self::Other { name, data } = *self else {
            return None;
        };
        let joined = Joined::new(name, data);
        let view = ffi::field_tracks(&joined.bytes, joined.field());
        (view.answer != ffi::NOT_THIS).then(|| TrackSet::answered(view))
    }

    fn put(&self, writer: ffi::Writer, out: &mut [u8]) -> ffi::Writer {
        let none = ffi::Field::default();
        match *self {
            Self::TimeCode { field, code } => {
                let item = ffi::Field {
                    kind: ffi::TIME_CODE,
                    field,
                    code: code.flat(),
                    ..none
                };
                ffi::put_field(writer, out, &[], item)
            }
            Self::Short { field, code } => {
                let item = ffi::Field {
                    kind: ffi::SHORT,
                    field,
                    short_code: code.flat(),
                    ..none
                };
                ffi::put_field(writer, out, &[], item)
            }
            Self::Other { name, data } => {
                let joined = Joined::new(name, data);
                ffi::put_field(writer, out, &joined.bytes, joined.field())
            }
        }
    }
}

/// The bytes of a name that are handed on.
const NAME: usize = 4;
/// The bytes of data that are handed on.
const DATA: usize = 128;

/// A name and, from there on, data that lie apart, brought into one source, with both lengths. A writing refuses a name
/// of 4 or more bytes whatever they are, and data of 128 or more, and a set of tracks needs a name of one byte and at most nine of data: bytes
/// past these decide nothing and are left behind.
struct Joined {
    bytes: [u8; NAME + DATA],
    name: usize,
    data: usize,
}

impl Joined {
    fn new(name: &[u8], data: &[u8]) -> Self {
        let mut bytes = [0; NAME + DATA];
        let name = fill(&mut bytes, name, NAME);
        let data = fill(&mut bytes[name..], data, DATA);
        Self { bytes, name, data }
    }

    /// Another field, of these parts.
    fn field(&self) -> ffi::Field {
        ffi::Field {
            kind: ffi::OTHER_FIELD,
            name: ffi::Part::whole(self.name),
            data: ffi::Part {
                start: self.name,
                length: self.data,
            },
            ..ffi::Field::default()
        }
    }
}

/// Copies up to so many bytes, and gives how many.
#[inline]
fn fill(room: &mut [u8], bytes: &[u8], most: usize) -> usize {
    let length = bytes.len().min(most).min(room.len());
    room[..length].copy_from_slice(&bytes[..length]);
    length
}

/// The reader of a command string. A string cut short gives [`SysexError::Length`] once, then the end.
///
/// ```
/// use fimbrast::mmc::{MmcCommand, MmcMessage};
/// use fimbrast::universal::Universal;
///
/// let parts = Universal {
///     real_time: true,
///     device_id: 0x7F,
///     sub_id1: 0x06,
///     sub_id2: None,
///     data: &[0x44, 0x06, 0x01, 0x21, 0x00, 0x00, 0x00, 0x00, 0x02],
/// };
/// let Some(MmcMessage::Commands { mut commands, .. }) = MmcMessage::from_universal(&parts)? else {
///     panic!("not a command message");
/// };
/// let Some(Ok(MmcCommand::LocateTarget(target))) = commands.next() else {
///     panic!("not a Locate target");
/// };
/// assert_eq!((target.time.hours, target.time.rate.into_bits()), (1, 1));
/// assert_eq!(commands.as_bytes(), [0x02]);
/// assert_eq!(commands.next(), Some(Ok(MmcCommand::Play)));
/// assert_eq!(commands.next(), None);
/// # Ok::<(), fimbrast::universal::SysexError>(())
/// ```
#[derive(Clone)]
pub struct Commands<'a> {
    bytes: &'a [u8],
    place: usize,
}

impl<'a> Commands<'a> {
    /// The bytes not read yet.
    pub const fn as_bytes(&self) -> &'a [u8] {
        match self.bytes.split_at_checked(self.place) {
            Some((_, rest)) => rest,
            None => &[],
        }
    }
}

impl fmt::Debug for Commands<'_> {
    fn fmt(&self, f: &mut fmt::Formatter<'_>) -> fmt::Result {
        f.debug_struct("Commands")
            .field("bytes", &self.as_bytes())
            .finish()
    }
}

impl PartialEq for Commands<'_> {
    fn eq(&self, other: &Self) -> bool {
        self.as_bytes() == other.as_bytes()
    }
}

impl Eq for Commands<'_> {}

impl<'a> Iterator for Commands<'a> {
    type Item = Result<MmcCommand<'a>, SysexError>;

    #[inline]
    fn next(&mut self) -> Option<Self::Item> {
        let place = self.place;
        // The library would answer 9.
        if place >= self.bytes.len() {
            return None;
        }
        let item = words::next_word(self.bytes, place);
        let next = item.next;
        self.place = next.place;
        if next.word <= u64::from(ffi::RESET) {
            return Some(Ok(MmcCommand::plain(next.case())));
        }
        if let Some((name, data)) = item.other() {
            return Some(Ok(MmcCommand::Other { name, data }));
        }
        let read = match next.case() {
            words::CUT => return Some(Err(SysexError::Length)),
            words::END => return None,
            ffi::LOCATE_TARGET => Ok(MmcCommand::LocateTarget(StandardTimeCode::of_word(next))),
            _ => MmcCommand::of(next, self.bytes),
        };
        match read {
            Ok(command) => Some(Ok(command)),
            Err(stop) => stop.map(Err),
        }
    }
}

/// The reader of an information field string: a response, or the data of WRITE. A string cut short gives
/// [`SysexError::Length`] once, then the end.
#[derive(Debug, Clone, PartialEq, Eq)]
pub struct InfoFields<'a> {
    bytes: &'a [u8],
}

impl<'a> InfoFields<'a> {
    /// A reader over the name and data pairs, for example the data of a WRITE command.
    ///
    /// ```
    /// use fimbrast::mmc::{field, InfoField, InfoFields};
    ///
    /// let mut fields = InfoFields::new(&[0x08, 0x21, 0x00, 0x00, 0x00, 0x00]);
    /// let Some(Ok(InfoField::TimeCode { field, code })) = fields.next() else {
    ///     panic!("not a time code");
    /// };
    /// assert_eq!((field, code.time.hours), (field::GP0, 1));
    /// assert_eq!(fields.next(), None);
    /// ```
    pub const fn new(bytes: &'a [u8]) -> Self {
        Self { bytes }
    }

    /// The bytes not read yet.
    pub const fn as_bytes(&self) -> &'a [u8] {
        self.bytes
    }
}

impl<'a> Iterator for InfoFields<'a> {
    type Item = Result<InfoField<'a>, SysexError>;

    fn next(&mut self) -> Option<Self::Item> {
        let body = self.bytes;
        let answer = ffi::next_field(body, 0);
        self.bytes = body.get(answer.place..).unwrap_or(&[]);
        // The end is told by its number, without a refusal being made.
        match answer.refusal {
            0 => Some(Ok(InfoField::of(answer.field, body))),
            ffi::REFUSED_END => None,
            refusal => Some(Err(SysexError::of(refusal, 0))),
        }
    }
}

/// An index beside a field string: where the first field of each one-byte name begins. A desk that looks up the
/// same response many times builds it once. Names with prefixes and names above 7FH are not in it.
///
/// ```
/// use fimbrast::mmc::{field, InfoField, InfoFieldIndex};
/// use fimbrast::universal::SysexError;
///
/// // Field 4FH with two bytes, then 01:00:00:00 at 25 frames in GP0.
/// let response = [0x4F, 0x02, 0x20, 0x01, 0x08, 0x21, 0x00, 0x00, 0x00, 0x00];
/// let mut index = InfoFieldIndex::new();
/// index.build(&response)?;
/// assert_eq!(index.place(field::GP0), Ok(4));
/// assert_eq!(index.place(field::SELECTED_TIME_CODE), Err(SysexError::NoField));
///
/// let Ok(InfoField::TimeCode { code, .. }) = index.field(field::GP0, &response) else {
///     panic!("not a time code");
/// };
/// assert_eq!(code.time.hours, 1);
/// # Ok::<(), SysexError>(())
/// ```
#[derive(Debug, Clone, PartialEq, Eq)]
pub struct InfoFieldIndex {
    index: ffi::FieldIndex,
}

impl InfoFieldIndex {
    /// An index without fields.
    pub fn new() -> Self {
        Self {
            index: ffi::fimbrast_field_index_new(),
        }
    }

    /// Makes it the index of a field string: a response's data, or the data of a WRITE command. A string that cannot be split is
    /// [`SysexError::Length`], and leaves the index as before.
    pub fn build(&mut self, fields: &[u8]) -> Result<(), SysexError> {
        SysexError::check(ffi::field_index_build(&mut self.index, fields))
    }

    /// Where the first field of a name begins, counted from the first byte of the last string that was accepted;
    /// [`SysexError::NoField`] for a name without a field, or above 7FH. A short time code has a name of its own, 20H above its field's.
    #[inline]
    pub fn place(&self, name: u8) -> Result<usize, SysexError> {
        let answer = ffi::fimbrast_field_index_place(&self.index, name);
        SysexError::check(answer.refusal).map(|()| answer.place)
    }

    /// The field of a name, read from the last string that was accepted, or [`SysexError::NoField`]. From another string it is whatever
    /// field stands at that place: [`SysexError::Length`] where that is cut short, [`SysexError::End`] where the string is no longer than
    /// the place.
    pub fn field<'a>(&self, name: u8, fields: &'a [u8]) -> Result<InfoField<'a>, SysexError> {
        let answer = ffi::next_field(fields, self.place(name)?);
        SysexError::check(answer.refusal).map(|()| InfoField::of(answer.field, fields))
    }
}

impl Default for InfoFieldIndex {
    fn default() -> Self {
        Self::new()
    }
}

/// A machine control message (p. 1).
#[derive(Debug, Clone, PartialEq, Eq)]
pub enum MmcMessage<'a> {
    /// Sub-ID#1 06H: commands to a device, a group or all devices.
    Commands {
        /// The destination device ID.
        device_id: u8,
        /// The command string.
        commands: Commands<'a>,
    },
    /// Sub-ID#1 07H: responses from a device.
    Responses {
        /// The source device ID; 7FH is not valid.
        device_id: u8,
        /// The response string.
        fields: InfoFields<'a>,
    },
}

impl<'a> MmcMessage<'a> {
    /// Reads the message from its split parts (Real Time, Sub-ID#1 06H or 07H): `None` for another message,
    /// [`SysexError::Length`] for an empty string.
    #[inline]
    pub fn from_universal(u: &Universal<'a>) -> Result<Option<Self>, SysexError> {
        // The device ID and Sub-ID#2 decide nothing here.
        match ffi::mmc_kind(u.real_time, u.sub_id1, u.data) {
            ffi::COMMANDS => Ok(Some(Self::Commands {
                device_id: u.device_id,
                commands: Commands {
                    bytes: u.data,
                    place: 0,
                },
            })),
            ffi::RESPONSES => Ok(Some(Self::Responses {
                device_id: u.device_id,
                fields: InfoFields { bytes: u.data },
            })),
            ffi::NOT_THIS => Ok(None),
            refusal => Err(SysexError::of(refusal, 0)),
        }
    }
}

/// Writes the whole command message `F0 7F <device ID> 06 <commands> F7` into `out` and gives the length.
///
/// ```
/// use fimbrast::mmc::{write_commands, FinalByte, MmcCommand, StandardTimeCode};
/// use fimbrast::mtc::{MtcTime, TimeCodeType};
/// use fimbrast::universal::{SysexError, ALL_DEVICES};
///
/// let target = StandardTimeCode {
///     time: MtcTime::new(1, 0, 0, 0, TimeCodeType::Fps25)?,
///     color_frame: false,
///     blank: false,
///     negative: false,
///     final_byte: FinalByte::Subframes(0),
/// };
/// let commands = [MmcCommand::LocateTarget(target), MmcCommand::Play];
/// let mut out = [0; 14];
/// assert_eq!(write_commands(&mut out, ALL_DEVICES, &commands), Ok(14));
/// assert_eq!(
///     out,
///     [0xF0, 0x7F, 0x7F, 0x06, 0x44, 0x06, 0x01, 0x21, 0x00, 0x00, 0x00, 0x00, 0x02, 0xF7]
/// );
/// assert_eq!(
///     write_commands(&mut out[..13], ALL_DEVICES, &commands),
///     Err(SysexError::BufferTooSmall { needed: 14 })
/// );
/// # Ok::<(), SysexError>(())
/// ```
#[inline]
pub fn write_commands(
    out: &mut [u8],
    device_id: u8,
    commands: &[MmcCommand<'_>],
) -> Result<usize, SysexError> {
    match words::write_words(out, device_id, commands.iter().map(MmcCommand::usual_word)) {
        Some(answer) => written(answer),
        None => write_unusual(out, device_id, commands),
    }
}

/// Commands of which one is no name alone and no Locate to a time without marks.
#[inline(never)]
fn write_unusual(
    out: &mut [u8],
    device_id: u8,
    commands: &[MmcCommand<'_>],
) -> Result<usize, SysexError> {
    match words::write_words(out, device_id, commands.iter().map(MmcCommand::word)) {
        Some(answer) => written(answer),
        None => write_one_by_one(out, device_id, commands),
    }
}

/// Commands of which one is a Write or an `Other`, or more than 48.
#[inline(never)]
pub(crate) fn write_one_by_one(
    out: &mut [u8],
    device_id: u8,
    commands: &[MmcCommand<'_>],
) -> Result<usize, SysexError> {
    let mut writer = ffi::open_commands(out, device_id);
    for command in commands {
        writer = command.put(writer, out);
    }
    written(ffi::close_message(writer, out))
}

/// Writes the whole response message `F0 7F <device ID> 07 <responses> F7` into `out` and gives the length. The source device
/// is 00H to 7EH.
pub fn write_responses(
    out: &mut [u8],
    device_id: u8,
    fields: &[InfoField<'_>],
) -> Result<usize, SysexError> {
    let mut writer = ffi::open_responses(out, device_id);
    for field in fields {
        writer = field.put(writer, out);
    }
    written(ffi::close_message(writer, out))
}

/// Writes the name and data pairs of `fields` into `out`, for the data of a WRITE command, and gives the length.
pub fn write_info_fields(out: &mut [u8], fields: &[InfoField<'_>]) -> Result<usize, SysexError> {
    let mut writer = ffi::fimbrast_open_fields();
    for field in fields {
        writer = field.put(writer, out);
    }
    written(ffi::close_fields(writer, out))
}
