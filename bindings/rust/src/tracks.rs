//! Record-ready tracks: the data of field 4FH, Track Record Ready, as a set of tracks (RP-013's standard track bitmap).
//!
//! [`TrackSet`] is the set. A field shows its own by [`InfoField::tracks`](crate::mmc::InfoField::tracks).
//!
//! # A Write that arms tracks
//!
//! ```
//! use fimbrast::mmc::{write_commands, write_info_fields, InfoField, InfoFields, MmcCommand};
//! use fimbrast::tracks::{TrackSet, TRACK_RECORD_READY};
//!
//! let mut set = TrackSet::new();
//! for track in [1, 2, 17] {
//!     set.arm(track)?;
//! }
//! let mut data = [0; TrackSet::MAX_BYTES];
//! let length = set.write(&mut data)?;
//!
//! let field = InfoField::Other { name: &[TRACK_RECORD_READY], data: &data[..length] };
//! let mut fields = [0; 16];
//! let length = write_info_fields(&mut fields, &[field])?;
//! let write = MmcCommand::Write(InfoFields::new(&fields[..length]));
//! let mut out = [0; 32];
//! let length = write_commands(&mut out, 0x01, &[write])?;
//! assert_eq!(out[..length], [0xF0, 0x7F, 0x01, 0x06, 0x40, 0x06, 0x4F, 0x04, 0x60, 0x00, 0x00, 0x01, 0xF7]);
//! # Ok::<(), fimbrast::universal::SysexError>(())
//! ```

use core::fmt;
use core::iter::FusedIterator;

use crate::ffi;
use crate::universal::{written, SysexError};

/// The name of the field that has a set of tracks: 4FH TRACK RECORD READY.
pub const TRACK_RECORD_READY: u8 = ffi::TRACK_RECORD_READY;

/// Which of the tracks 1 to 58 are armed. Track n is position n + 4 of a bitmap with seven positions to a byte. The five lower positions are
/// video, a reserved one, time code and two auxiliaries: they are kept, and are no tracks.
///
/// ```
/// use fimbrast::tracks::TrackSet;
/// use fimbrast::universal::SysexError;
///
/// let mut set = TrackSet::read(&[0x64, 0x00, 0x00, 0x01])?;
/// assert!(set.armed().eq([1, 2, 17]) && set.has_position(TrackSet::TIME_CODE));
///
/// set.disarm(17)?;
/// set.arm(3)?;
/// let mut out = [0; TrackSet::MAX_BYTES];
/// let length = set.write(&mut out)?;
/// assert_eq!(out[..length], [0x64, 0x01]);
/// assert_eq!(set.arm(59), Err(SysexError::Track));
/// # Ok::<(), SysexError>(())
/// ```
#[derive(Clone, Copy, PartialEq, Eq, Hash, Default)]
pub struct TrackSet {
    positions: u64,
}

impl TrackSet {
    /// The position of video.
    pub const VIDEO: u8 = ffi::POSITION_VIDEO;
    /// The reserved position.
    pub const RESERVED: u8 = ffi::POSITION_RESERVED;
    /// The position of time code.
    pub const TIME_CODE: u8 = ffi::POSITION_TIME_CODE;
    /// The position of the first auxiliary.
    pub const AUX_A: u8 = ffi::POSITION_AUX_A;
    /// The position of the second auxiliary.
    pub const AUX_B: u8 = ffi::POSITION_AUX_B;
    /// The most data bytes that a set has.
    pub const MAX_BYTES: usize = ffi::TRACK_BYTES as usize;

    /// An empty set.
    pub fn new() -> Self {
        Self::of(ffi::fimbrast_track_set_new())
    }

    /// The set of data bytes as field 4FH has them: missing bytes are zeros, and bit 7 of each is ignored. More than nine are
    /// [`SysexError::Track`].
    pub fn read(data: &[u8]) -> Result<Self, SysexError> {
        Self::answered(ffi::track_set_read(data))
    }

    /// Writes the data bytes at the start of the buffer, without the zero bytes at their end, and gives how many they are: none of an empty
    /// set. A buffer that is too short is [`SysexError::BufferTooSmall`], and stays as found.
    pub fn write(self, out: &mut [u8]) -> Result<usize, SysexError> {
        written(ffi::track_set_write(self.flat(), out))
    }

    /// Arms a track. One outside 1 to 58 is [`SysexError::Track`], and the set stays.
    pub fn arm(&mut self, track: u8) -> Result<(), SysexError> {
        *self = Self::answered(ffi::fimbrast_track_set_arm(self.flat(), track))?;
        Ok(())
    }

    /// Disarms a track. One outside 1 to 58 is [`SysexError::Track`], and the set stays.
    pub fn disarm(&mut self, track: u8) -> Result<(), SysexError> {
        *self = Self::answered(ffi::fimbrast_track_set_disarm(self.flat(), track))?;
        Ok(())
    }

    /// True where a track is armed. One outside 1 to 58 is [`SysexError::Track`].
    pub fn is_armed(self, track: u8) -> Result<bool, SysexError> {
        let answer = ffi::fimbrast_track_set_is_armed(self.flat(), track);
        SysexError::check(answer.refusal).map(|()| answer.armed)
    }

    /// How many tracks are armed.
    pub fn armed_count(self) -> usize {
        ffi::fimbrast_track_set_armed_count(self.flat()) as usize
    }

    /// The lowest armed track, or [`SysexError::Track`] where none is armed.
    pub fn lowest_armed(self) -> Result<u8, SysexError> {
        let answer = ffi::fimbrast_track_set_lowest_armed(self.flat());
        SysexError::check(answer.refusal).map(|()| answer.track)
    }

    /// True where a position of the bitmap is set, as [`TrackSet::TIME_CODE`]; track n is position n + 4. From 63 on there is none.
    pub fn has_position(self, position: u8) -> bool {
        ffi::fimbrast_track_set_has_position(self.flat(), position)
    }

    /// The armed tracks, the lowest first.
    pub fn armed(self) -> ArmedTracks {
        ArmedTracks { left: self }
    }

    /// The set of an answer, or its refusal.
    pub(crate) fn answered(answer: ffi::TrackSetAnswer) -> Result<Self, SysexError> {
        SysexError::check(answer.answer).map(|()| Self::of(answer.set))
    }

    fn of(set: ffi::TrackSet) -> Self {
        Self {
            positions: set.positions,
        }
    }

    fn flat(self) -> ffi::TrackSet {
        ffi::TrackSet {
            positions: self.positions,
        }
    }
}

impl fmt::Debug for TrackSet {
    fn fmt(&self, f: &mut fmt::Formatter<'_>) -> fmt::Result {
        f.debug_struct("TrackSet")
            .field("positions", &format_args!("{:#x}", self.positions))
            .finish()
    }
}

/// The armed tracks of a set, the lowest first: [`TrackSet::armed`].
#[derive(Debug, Clone, PartialEq, Eq)]
pub struct ArmedTracks {
    left: TrackSet,
}

impl Iterator for ArmedTracks {
    type Item = u8;

    fn next(&mut self) -> Option<u8> {
        let track = self.left.lowest_armed().ok()?;
        self.left.disarm(track).ok()?;
        Some(track)
    }

    fn size_hint(&self) -> (usize, Option<usize>) {
        let count = self.left.armed_count();
        (count, Some(count))
    }
}

impl ExactSizeIterator for ArmedTracks {}

impl FusedIterator for ArmedTracks {}
