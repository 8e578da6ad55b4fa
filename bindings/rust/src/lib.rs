//! MIDI Time Code and MIDI Machine Control for a cue desk.
//!
//! A safe interface over the proved library `libfimbrast.a`. Names and signatures are those of the Rust crate that the
//! library was translated from, but for the two calls that read a quarter frame, so that a desk changes its imports and
//! little else. What a call decides, it asks the library.
//! What turns Rust's types into the library's numbers and back is plain Rust, which is tested and compared; the README says what
//! and by which test.
//!
//! - [`mtc`]: labels, quarter frames, generator, reader, full message, user bits.
//! - [`mmc`]: time code fields, commands and information fields, read and written.
//! - [`universal`]: the refusals and the message writer.
//! - [`transport`]: commands applied to a generator.
//! - [`tracks`]: which tracks of a recorder are ready to record.
//!
//! # From a string to the reader
//!
//! ```
//! use fimbrast::mtc::{Direction, MtcGenerator, MtcReader, MtcTime, TimeCodeType};
//! use fimbrast::transport::obey;
//!
//! // Locate 01:00:00:00 at 25, then Play, as a recorder gets them.
//! let body = [0x44, 0x06, 0x01, 0x21, 0x00, 0x00, 0x00, 0x00, 0x02];
//! let idle = MtcTime::from_frame_count(0, TimeCodeType::Fps25);
//! let mut generator = MtcGenerator::new(idle, Direction::Forward);
//! obey(&mut generator, 0x7F, 0x01, &body);
//!
//! let mut reader = MtcReader::new();
//! let mut reports = 0;
//! for _ in 0..24 {
//!     let byte = generator.next_byte().unwrap();
//!     if let Some(sequence) = reader.receive(byte)?.sequence {
//!         assert_eq!(sequence.raw.frames, 2 * reports);
//!         reports += 1;
//!     }
//! }
//! assert_eq!(reports, 3);
//! # Ok::<(), fimbrast::universal::SysexError>(())
//! ```
#![no_std]
#![warn(missing_docs)]
#![deny(unsafe_code)]

#[cfg(test)]
extern crate std;

// The library as it is: no part of the interface, and public only for the benchmarks, which measure it.
#[doc(hidden)]
#[allow(missing_docs, unsafe_code)]
pub mod ffi;
mod refusals;
#[allow(unsafe_code)]
mod words;

pub mod mmc;
pub mod mtc;
pub mod tracks;
pub mod transport;
pub mod universal;

#[cfg(test)]
mod tests;
