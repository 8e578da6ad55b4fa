//! MIDI Time Code (RP-004/RP-008 v4.2.1).
//!
//! - [`MtcTime`] is a label of a [`TimeCodeType`], with the frame arithmetic of SMPTE 12M. At 30 drop-frame the numbers 00
//!   and 01 are skipped at the start of each minute but every tenth. Readers give the counts as received, masked to their
//!   widths; [`MtcTime::is_valid`] checks them.
//! - [`QuarterFrame`] is the data byte of the Quarter Frame message F1H.
//! - [`MtcGenerator`] gives the data bytes, pieces 0 to 7 forward and 7 to 0 in reverse; each sequence is 2 frames on (p. 3).
//! - [`MtcReader`] assembles them and gives lock, direction and current time: the assembled time plus 2 frames forward,
//!   minus 1 in reverse.
//! - [`FullMessage`] and [`UserBits`] are the messages 01H 01H and 01H 02H (pp. 5, 6).
//!
//! No call allocates or panics.

use core::fmt;
use core::hash::{Hash, Hasher};

use crate::ffi;
use crate::universal::{written, SysexError, Universal};

/// The time code type: the 2-bit value of the hours byte (p. 2).
#[derive(Debug, Clone, Copy, PartialEq, Eq, Hash)]
#[repr(u8)]
pub enum TimeCodeType {
    /// 0: 24 frames per second.
    Fps24 = 0,
    /// 1: 25 frames per second.
    Fps25 = 1,
    /// 2: 30 frames per second, drop-frame.
    Fps30Drop = 2,
    /// 3: 30 frames per second, non-drop.
    Fps30 = 3,
}

impl TimeCodeType {
    /// The 2-bit value.
    pub const fn into_bits(self) -> u8 {
        self as u8
    }

    /// The type of the 2 low bits of `value`.
    ///
    /// ```
    /// use fimbrast::mtc::TimeCodeType;
    ///
    /// assert_eq!(TimeCodeType::from_bits(0xFE), TimeCodeType::Fps30Drop);
    /// ```
    #[inline]
    pub fn from_bits(value: u8) -> Self {
        ffi::fimbrast_from_frame_count(0, value).rate
    }

    /// The frames of a counting second: 24, 25 or 30.
    pub fn frames_per_second(self) -> u8 {
        ffi::fimbrast_frames_per_second(self.into_bits())
    }

    /// The type of a rate that the library gave.
    const fn of(rate: u8) -> Self {
        match rate {
            0 => Self::Fps24,
            1 => Self::Fps25,
            2 => Self::Fps30Drop,
            _ => Self::Fps30,
        }
    }
}

/// A time code label. A reader gives the counts as received, masked to their widths.
#[derive(Debug, Clone, Copy, PartialEq, Eq, Hash)]
#[repr(C)]
pub struct MtcTime {
    /// Hours, 0 to 23 (5 bits).
    pub hours: u8,
    /// Minutes, 0 to 59 (6 bits).
    pub minutes: u8,
    /// Seconds, 0 to 59 (6 bits).
    pub seconds: u8,
    /// Frames, below the frame rate of the type (5 bits).
    pub frames: u8,
    /// The time code type.
    pub rate: TimeCodeType,
}

impl MtcTime {
    /// The time, or [`SysexError::OutOfRange`] for a count above its range or a number that drop-frame skips.
    ///
    /// ```
    /// use fimbrast::mtc::{MtcTime, TimeCodeType};
    /// use fimbrast::universal::SysexError;
    ///
    /// let last = MtcTime::new(0, 0, 59, 28, TimeCodeType::Fps30Drop)?;
    /// assert_eq!(last.to_frame_count(), 1798);
    /// assert_eq!(last.add_frames(2), MtcTime::new(0, 1, 0, 2, TimeCodeType::Fps30Drop)?);
    /// let skipped = MtcTime::new(0, 1, 0, 0, TimeCodeType::Fps30Drop);
    /// assert_eq!(skipped, Err(SysexError::OutOfRange));
    /// # Ok::<(), SysexError>(())
    /// ```
    pub fn new(
        hours: u8,
        minutes: u8,
        seconds: u8,
        frames: u8,
        rate: TimeCodeType,
    ) -> Result<Self, SysexError> {
        let time = Self {
            hours,
            minutes,
            seconds,
            frames,
            rate,
        };
        SysexError::check(ffi::fimbrast_time_new(time)).map(|()| time)
    }

    /// True when each count is in its range and the number is not skipped.
    #[inline]
    pub fn is_valid(&self) -> bool {
        ffi::fimbrast_is_valid(*self)
    }

    /// Frame 02 for a number that drop-frame skips, or the time itself (RP-013 Drop Frame Notes).
    #[inline]
    pub fn next_valid(self) -> Self {
        ffi::fimbrast_next_valid(self)
    }

    /// The frames from 00:00:00:00 to the time, by the rule of its type.
    #[inline]
    pub fn to_frame_count(&self) -> u32 {
        ffi::fimbrast_to_frame_count(self)
    }

    /// The time of `count` frames from 00:00:00:00, round midnight.
    #[inline]
    pub fn from_frame_count(count: u32, rate: TimeCodeType) -> Self {
        ffi::fimbrast_from_frame_count(count, rate.into_bits())
    }

    /// The time `delta` frames later, or earlier, round midnight.
    #[inline]
    pub fn add_frames(self, delta: i32) -> Self {
        ffi::fimbrast_add_frames(self, delta)
    }

    pub(crate) const fn flat(self) -> ffi::Time {
        ffi::Time {
            hours: self.hours,
            minutes: self.minutes,
            seconds: self.seconds,
            frames: self.frames,
            rate: self.rate.into_bits(),
        }
    }

    pub(crate) const fn of(time: ffi::Time) -> Self {
        Self {
            hours: time.hours,
            minutes: time.minutes,
            seconds: time.seconds,
            frames: time.frames,
            rate: TimeCodeType::of(time.rate),
        }
    }

    /// The label of a reader's words: its mark, and a byte each of hours, minutes, seconds and frames.
    #[inline]
    const fn of_words(mark: u32, label: u32) -> Self {
        let [hours, minutes, seconds, frames] = label.to_le_bytes();
        Self {
            hours,
            minutes,
            seconds,
            frames,
            rate: TimeCodeType::of((mark >> 1 & 3) as u8),
        }
    }

    const fn maybe(time: ffi::MaybeTime) -> Option<Self> {
        if time.present {
            Some(Self::of(time.time))
        } else {
            None
        }
    }
}

/// The data byte of a Quarter Frame message (p. 1).
#[derive(Debug, Clone, Copy, PartialEq, Eq, Hash)]
pub struct QuarterFrame {
    /// The piece, 0 (frames, low nibble) to 7 (hours, high nibble, and type).
    pub piece: u8,
    /// The 4-bit value.
    pub value: u8,
}

impl QuarterFrame {
    /// The piece and value of a data byte, or [`SysexError::StatusByte`] for a byte of 80H or more.
    ///
    /// ```
    /// use fimbrast::mtc::QuarterFrame;
    /// use fimbrast::universal::SysexError;
    ///
    /// assert_eq!(QuarterFrame::from_byte(0x76), Ok(QuarterFrame { piece: 7, value: 6 }));
    /// assert_eq!(QuarterFrame::from_byte(0xF6), Err(SysexError::StatusByte));
    /// ```
    pub fn from_byte(byte: u8) -> Result<Self, SysexError> {
        let ffi::ReadFrame { refusal, frame } = ffi::fimbrast_quarter_frame_read(byte);
        SysexError::check(refusal).map(|()| Self {
            piece: frame.piece,
            value: frame.value,
        })
    }

    /// The data byte `0nnn dddd`.
    pub fn to_byte(self) -> u8 {
        ffi::fimbrast_quarter_frame_byte(ffi::QuarterFrame {
            piece: self.piece,
            value: self.value,
        })
    }

    /// The 8 data bytes of `time`, piece 0 first (p. 2).
    ///
    /// ```
    /// use fimbrast::mtc::{MtcTime, QuarterFrame, TimeCodeType};
    ///
    /// let time = MtcTime::new(1, 37, 52, 16, TimeCodeType::Fps30)?;
    /// let pieces = [0x00, 0x11, 0x24, 0x33, 0x45, 0x52, 0x61, 0x76];
    /// assert_eq!(QuarterFrame::pieces(&time), pieces);
    /// # Ok::<(), fimbrast::universal::SysexError>(())
    /// ```
    pub fn pieces(time: &MtcTime) -> [u8; 8] {
        ffi::fimbrast_pieces(*time).bytes
    }
}

/// The direction of a Quarter Frame sequence (p. 3).
#[derive(Debug, Clone, Copy, PartialEq, Eq)]
#[repr(u8)]
pub enum Direction {
    /// Pieces 0 to 7.
    Forward = 0,
    /// Pieces 7 to 0.
    Reverse = 1,
}

/// As the source's direction, which has the width of its language.
impl Hash for Direction {
    fn hash<H: Hasher>(&self, state: &mut H) {
        (*self as isize).hash(state);
    }
}

impl Direction {
    /// The direction of a record that always has one.
    const fn of(direction: u8) -> Self {
        match direction {
            ffi::FORWARD => Self::Forward,
            _ => Self::Reverse,
        }
    }

    const fn maybe(direction: u8) -> Option<Self> {
        match direction {
            ffi::FORWARD => Some(Self::Forward),
            ffi::REVERSE => Some(Self::Reverse),
            _ => None,
        }
    }
}

/// A last piece, which is none above 7.
const fn piece(last: u8) -> Option<u8> {
    match last {
        0..=7 => Some(last),
        _ => None,
    }
}

/// The records field by field, for `Debug`, `PartialEq` and `Hash`.
mod view {
    use super::{Direction, MtcTime};

    #[derive(Debug, PartialEq, Eq, Hash)]
    pub(super) struct MtcGenerator {
        pub(super) time: MtcTime,
        pub(super) direction: Direction,
        pub(super) last: Option<u8>,
        pub(super) running: bool,
    }

    #[derive(Debug, PartialEq, Eq, Hash)]
    pub(super) struct MtcReader {
        pub(super) nibbles: [u8; 8],
        pub(super) count: u8,
        pub(super) first: u8,
        pub(super) last: Option<u8>,
        pub(super) direction: Option<Direction>,
        pub(super) locked: bool,
        pub(super) running: bool,
        pub(super) previous: Option<MtcTime>,
        pub(super) time: Option<MtcTime>,
    }
}

/// Formats, compares and hashes a record through its view.
macro_rules! by_view {
    ($name:ident) => {
        impl fmt::Debug for $name {
            fn fmt(&self, f: &mut fmt::Formatter<'_>) -> fmt::Result {
                self.view().fmt(f)
            }
        }

        impl PartialEq for $name {
            fn eq(&self, other: &Self) -> bool {
                self.view() == other.view()
            }
        }

        impl Eq for $name {}

        impl Hash for $name {
            fn hash<H: Hasher>(&self, state: &mut H) {
                self.view().hash(state);
            }
        }
    };
}

/// The Quarter Frame generator. The caller sends each data byte at its quarter frame, piece 0 at the start of the frame that
/// the sequence encodes.
///
/// ```
/// use fimbrast::mtc::{Direction, MtcGenerator, MtcTime, TimeCodeType};
///
/// let time = MtcTime::new(1, 37, 52, 16, TimeCodeType::Fps30)?;
/// let mut generator = MtcGenerator::new(time, Direction::Forward);
/// let mut sent = [0; 8];
/// for byte in &mut sent {
///     *byte = generator.next_byte().unwrap();
/// }
/// assert_eq!(sent, [0x00, 0x11, 0x24, 0x33, 0x45, 0x52, 0x61, 0x76]);
/// assert_eq!(generator.next_byte(), Some(0x02));
/// assert_eq!(generator.time(), time.add_frames(2));
/// # Ok::<(), fimbrast::universal::SysexError>(())
/// ```
#[derive(Clone, Copy)]
pub struct MtcGenerator {
    pub(crate) record: ffi::Generator,
}

by_view!(MtcGenerator);

impl MtcGenerator {
    /// A running generator. Its first sequence encodes `time`, from piece 0 forward or piece 7 in reverse.
    pub fn new(time: MtcTime, direction: Direction) -> Self {
        let record = match direction {
            Direction::Forward => ffi::fimbrast_generator_forward(time.flat()),
            Direction::Reverse => ffi::fimbrast_generator_reverse(time.flat()),
        };
        Self { record }
    }

    /// The data byte of the next piece, or `None` while stopped. The time moves 2 frames as a sequence follows another
    /// (p. 3).
    #[inline]
    pub fn next_byte(&mut self) -> Option<u8> {
        let next = ffi::fimbrast_next_byte(&mut self.record);
        match next.refusal {
            0 => Some(next.byte),
            _ => None,
        }
    }

    /// Runs or stops the generator. Stop it while the transport is stopped or shuttles, and send a [`FullMessage`] at the
    /// destination (p. 3).
    pub fn set_running(&mut self, running: bool) {
        self.record = ffi::fimbrast_set_running(self.record, running);
    }

    /// Changes the direction. The next piece is the one beside the last in that direction.
    pub fn set_direction(&mut self, direction: Direction) {
        self.record = match direction {
            Direction::Forward => ffi::fimbrast_set_forward(self.record),
            Direction::Reverse => ffi::fimbrast_set_reverse(self.record),
        };
    }

    /// Moves to `time`. The next piece is the first of the direction.
    pub fn locate(&mut self, time: MtcTime) {
        self.record = ffi::fimbrast_locate(self.record, time.flat());
    }

    /// The time that the current or next sequence encodes.
    pub fn time(&self) -> MtcTime {
        MtcTime::of(ffi::fimbrast_generator_time(self.record))
    }

    fn view(&self) -> view::MtcGenerator {
        let ffi::Generator {
            time,
            direction,
            last,
            running,
        } = self.record;
        view::MtcGenerator {
            time: MtcTime::of(time),
            direction: Direction::of(direction),
            last: piece(last),
            running,
        }
    }
}

/// The end of a full sequence.
#[derive(Debug, Clone, Copy, PartialEq, Eq, Hash)]
#[repr(C)]
pub struct MtcSequence {
    /// The assembled time, counts as received.
    pub raw: MtcTime,
    /// The current time: `raw` plus 2 frames forward, minus 1 frame in reverse.
    pub current: MtcTime,
    /// The direction of the sequence.
    pub direction: Direction,
    /// True when `raw` is not the raw time before it plus 2 frames (minus 2 in reverse).
    pub discontinuity: bool,
}

impl MtcSequence {
    /// The report of a number, with the labels of the reader that it left.
    #[inline]
    const fn of(report: u64, left: &ffi::Reader) -> Self {
        let [.., previous_mark, previous, time_mark, time] = left.words;
        Self {
            raw: MtcTime::of_words(previous_mark, previous),
            current: MtcTime::of_words(time_mark, time),
            direction: Direction::of((report >> 1 & 1) as u8),
            discontinuity: report & 4 != 0,
        }
    }
}

/// What one data byte gives.
#[derive(Debug, Clone, Copy, PartialEq, Eq, Hash)]
#[repr(C)]
pub struct MtcEvent {
    /// The piece, 0 to 7.
    pub piece: u8,
    /// True for pieces 0 and 4, which mark frame boundaries (p. 3).
    pub boundary: bool,
    /// The end of a full sequence.
    pub sequence: Option<MtcSequence>,
}

impl MtcEvent {
    /// In an event's number, above the piece.
    const BOUNDARY: u64 = 1 << 8;
    /// An event's number from here on has a report, or is a refusal.
    const REPORT: u64 = 1 << 9;

    /// The number of a refusal in an event's, 0 for none.
    const fn refusal(event: u64) -> u8 {
        (event >> 56) as u8
    }

    /// One byte in eight has a report, and hardly one is refused; the others do not wait for it.
    #[inline(never)]
    const fn reporting(event: u64, left: &ffi::Reader) -> Result<Self, SysexError> {
        match Self::refusal(event) {
            0 => Ok(Self {
                piece: event as u8,
                boundary: event & Self::BOUNDARY != 0,
                sequence: Some(MtcSequence::of(event / Self::REPORT, left)),
            }),
            number => Err(SysexError::of(number, 0)),
        }
    }
}

/// What a list of bytes gives.
#[derive(Debug, Clone, Copy, PartialEq, Eq, Hash)]
pub struct Fed {
    /// How many sequences were reported.
    pub reports: usize,
    /// How many of those with a discontinuity.
    pub discontinuities: usize,
    /// The last report.
    pub last: Option<MtcSequence>,
    /// How many bytes were refused, as they are 80H or more.
    pub refused: usize,
}

/// The Quarter Frame reader. 60 bytes.
///
/// ```
/// use fimbrast::mtc::{Direction, MtcReader, MtcTime, TimeCodeType};
/// use fimbrast::universal::SysexError;
///
/// let mut reader = MtcReader::new();
/// for byte in [0x00, 0x11, 0x24, 0x33, 0x45, 0x52, 0x61] {
///     assert_eq!(reader.receive(byte)?.sequence, None);
/// }
/// assert_eq!(reader.receive(0xF6), Err(SysexError::StatusByte));
/// let report = reader.receive(0x76)?.sequence.unwrap();
/// assert_eq!(report.raw, MtcTime::new(1, 37, 52, 16, TimeCodeType::Fps30)?);
/// assert_eq!(report.current, MtcTime::new(1, 37, 52, 18, TimeCodeType::Fps30)?);
/// assert_eq!(report.direction, Direction::Forward);
/// assert!(reader.is_locked() && reader.is_running());
/// # Ok::<(), SysexError>(())
/// ```
#[derive(Clone, Copy)]
pub struct MtcReader {
    record: ffi::Reader,
}

by_view!(MtcReader);

impl Default for MtcReader {
    fn default() -> Self {
        Self::new()
    }
}

impl MtcReader {
    /// A reader that is not locked and is stopped.
    pub fn new() -> Self {
        Self {
            record: ffi::fimbrast_reader_new(),
        }
    }

    /// Takes one Quarter Frame data byte. A piece out of order drops the partial sequence and the lock; two adjacent pieces
    /// the other way turn the direction. A sequence starts at the first piece of the direction. A byte of 80H or more is
    /// [`SysexError::StatusByte`], and changes nothing.
    #[inline]
    pub fn receive(&mut self, byte: u8) -> Result<MtcEvent, SysexError> {
        let event = ffi::fimbrast_receive(&mut self.record, byte);
        if event >= MtcEvent::REPORT {
            return MtcEvent::reporting(event, &self.record);
        }
        Ok(MtcEvent {
            piece: event as u8,
            boundary: event & MtcEvent::BOUNDARY != 0,
            sequence: None,
        })
    }

    /// Takes a list of bytes, each as [`MtcReader::receive`] does. Refused ones are counted, and the others are received.
    ///
    /// ```
    /// use fimbrast::mtc::MtcReader;
    ///
    /// let mut reader = MtcReader::new();
    /// let fed = reader.feed(&[0x00, 0x11, 0x24, 0x33, 0x45, 0x52, 0x61, 0x76]);
    /// assert_eq!((fed.reports, fed.discontinuities), (1, 0));
    /// assert_eq!(fed.last.map(|s| s.current), reader.time());
    /// assert_eq!(reader.feed(&[0x02, 0xF8, 0x11]).refused, 1);
    /// ```
    pub fn feed(&mut self, bytes: &[u8]) -> Fed {
        let fed = ffi::feed(&mut self.record, bytes);
        Fed {
            reports: fed.reports,
            discontinuities: fed.discontinuities,
            last: match fed.last {
                0 => None,
                report => Some(MtcSequence::of(report, &self.record)),
            },
            refused: fed.refused,
        }
    }

    /// Takes a Full Message: its time, stopped. The next data byte sets the reader running.
    pub fn full_message(&mut self, message: &FullMessage) {
        ffi::fimbrast_reader_full_message(&mut self.record, message.time.flat());
    }

    /// True after a full sequence, until a broken order or a turn.
    pub fn is_locked(&self) -> bool {
        ffi::fimbrast_is_locked(self.record)
    }

    /// True after a data byte, false after a Full Message.
    pub fn is_running(&self) -> bool {
        ffi::fimbrast_is_running(self.record)
    }

    /// The direction, once two pieces gave it.
    pub fn direction(&self) -> Option<Direction> {
        Direction::maybe(ffi::fimbrast_reader_direction(self.record))
    }

    /// The current time of the last full sequence, or the time of a Full Message after it.
    pub fn time(&self) -> Option<MtcTime> {
        MtcTime::maybe(ffi::fimbrast_reader_time(self.record))
    }

    fn view(&self) -> view::MtcReader {
        let parts = ffi::fimbrast_reader_parts(self.record);
        view::MtcReader {
            nibbles: parts.nibbles,
            count: parts.count,
            first: parts.first,
            last: piece(parts.last),
            direction: Direction::maybe(parts.direction),
            locked: parts.locked,
            running: parts.running,
            previous: MtcTime::maybe(parts.previous),
            time: MtcTime::maybe(parts.time),
        }
    }
}

/// The Full Message `F0 7F <device ID> 01 01 hr mn sc fr F7` (p. 5).
#[derive(Debug, Clone, Copy, PartialEq, Eq, Hash)]
pub struct FullMessage {
    /// The device ID; 7FH for the whole system.
    pub device_id: u8,
    /// The time with its type.
    pub time: MtcTime,
}

impl FullMessage {
    /// Reads the message from its split parts (Real Time, Sub-ID#1 01H, Sub-ID#2 01H): `None` for another message,
    /// [`SysexError::Length`] for a wrong length.
    ///
    /// ```
    /// use fimbrast::mtc::{FullMessage, MtcTime, TimeCodeType};
    /// use fimbrast::universal::Universal;
    ///
    /// let parts = Universal {
    ///     real_time: true,
    ///     device_id: 0x7F,
    ///     sub_id1: 0x01,
    ///     sub_id2: Some(0x01),
    ///     data: &[0x61, 37, 52, 16],
    /// };
    /// let message = FullMessage::from_universal(&parts)?.unwrap();
    /// assert_eq!(message.time, MtcTime::new(1, 37, 52, 16, TimeCodeType::Fps30)?);
    /// # Ok::<(), fimbrast::universal::SysexError>(())
    /// ```
    pub fn from_universal(u: &Universal<'_>) -> Result<Option<Self>, SysexError> {
        let read = ffi::full_message_read(u.flat(), u.data);
        if read.answer == ffi::NOT_THIS {
            return Ok(None);
        }
        SysexError::check(read.answer)?;
        Ok(Some(Self {
            device_id: read.device_id,
            time: MtcTime::of(read.time),
        }))
    }

    /// Writes the whole message into `out` and gives the length. Refuses a time that is not valid and a device above 127.
    pub fn write(&self, out: &mut [u8]) -> Result<usize, SysexError> {
        written(ffi::full_message_write(
            self.device_id,
            self.time.flat(),
            out,
        ))
    }
}

/// The User Bits message `F0 7F <device ID> 01 02 u1 ... u8 u9 F7` (p. 6).
#[derive(Debug, Clone, Copy, PartialEq, Eq, Hash)]
pub struct UserBits {
    /// The device ID; 7FH for the whole system.
    pub device_id: u8,
    /// Binary Groups 1 to 8 (`u1` to `u8`), 4 bits each.
    pub groups: [u8; 8],
    /// The Binary Group Flag Bits of `u9`: bit 1 is j, bit 0 is i.
    pub flags: u8,
}

impl UserBits {
    /// Reads the message from its split parts (Real Time, Sub-ID#1 01H, Sub-ID#2 02H): `None` for another message,
    /// [`SysexError::Length`] for a wrong length. The reserved bits are ignored.
    pub fn from_universal(u: &Universal<'_>) -> Result<Option<Self>, SysexError> {
        let read = ffi::user_bits_read(u.flat(), u.data);
        if read.answer == ffi::NOT_THIS {
            return Ok(None);
        }
        SysexError::check(read.answer)?;
        Ok(Some(Self {
            device_id: read.bits.device_id,
            groups: read.bits.groups,
            flags: read.bits.flags,
        }))
    }

    /// Writes the whole message into `out` and gives the length. Refuses a group above 0FH, flags above 03H and a device
    /// above 127.
    pub fn write(&self, out: &mut [u8]) -> Result<usize, SysexError> {
        written(ffi::user_bits_write(self.flat(), out))
    }

    /// The groups as four bytes `hhhhgggg ffffeeee ddddcccc bbbbaaaa` (p. 6).
    ///
    /// ```
    /// use fimbrast::mtc::UserBits;
    ///
    /// let bits = UserBits { device_id: 0, groups: [1, 2, 3, 4, 5, 6, 7, 8], flags: 0 };
    /// assert_eq!(bits.to_bytes(), [0x87, 0x65, 0x43, 0x21]);
    /// ```
    pub fn to_bytes(&self) -> [u8; 4] {
        ffi::fimbrast_user_bits_bytes(self.flat()).bytes
    }

    const fn flat(self) -> ffi::UserBits {
        ffi::UserBits {
            device_id: self.device_id,
            groups: self.groups,
            flags: self.flags,
        }
    }
}
