//! Commands as words: the number that the library reads and writes a command by, taken apart and gathered.

use core::mem::MaybeUninit;

use crate::ffi::{self, NextWord, Part, Written};

/// A refusal's number stands above this one.
pub(crate) const REFUSED: u8 = 128;
/// The refusal at the end of a string.
pub(crate) const END: u8 = REFUSED + ffi::REFUSED_END;
/// The refusal of a string that is cut short.
pub(crate) const CUT: u8 = REFUSED + ffi::REFUSED_LENGTH;

/// No command's word.
pub(crate) const NO_WORD: u64 = u64::MAX;

/// The most words of one message: each command has a byte or more, and a message 48.
const WORDS: usize = 48;

impl NextWord {
    /// The case of a command, or `REFUSED` and a refusal's number.
    #[inline]
    pub(crate) const fn case(self) -> u8 {
        self.word as u8
    }

    /// The data, up to the place to read on from.
    pub(crate) fn data(self, body: &[u8]) -> Option<&[u8]> {
        let length = usize::from(self.byte(1));
        body.get(self.place.checked_sub(length)?..self.place)
    }

    /// A byte above the case, the lowest first.
    #[inline]
    pub(crate) const fn byte(self, n: u32) -> u8 {
        (self.word >> (8 + 8 * n)) as u8
    }
}

impl Part {
    /// The first `length` bytes of a source.
    pub(crate) const fn whole(length: usize) -> Self {
        Self { start: 0, length }
    }

    /// The bytes of the part, which are none where it does not lie inside.
    pub(crate) fn of(self, bytes: &[u8]) -> &[u8] {
        bytes
            .get(self.start..)
            .and_then(|rest| rest.get(..self.length))
            .unwrap_or(&[])
    }
}

/// What was read at a place of a body; only [`next_word`] makes one.
#[derive(Clone, Copy)]
pub(crate) struct Item<'a> {
    body: &'a [u8],
    place: usize,
    pub(crate) next: NextWord,
}

impl<'a> Item<'a> {
    /// The name and the data of another command: the name begins at the place that was read, the data ends at the next one.
    #[inline]
    pub(crate) fn other(self) -> Option<(&'a [u8], &'a [u8])> {
        if self.next.case() != ffi::OTHER_COMMAND {
            return None;
        }
        let name = self.place..self.place + usize::from(self.next.byte(0));
        let data = self.next.place - usize::from(self.next.byte(1))..self.next.place;
        // SAFETY: both parts of an item that was found lie in the body: the name from the place on, the data up to the next place
        // (`found_inside` of crates/mmc/proofs/StringLaws.antt), and the bytes here are their lengths or less.
        Some(unsafe { (self.body.get_unchecked(name), self.body.get_unchecked(data)) })
    }
}

/// The command at a place of `body`.
#[inline]
pub(crate) fn next_word(body: &[u8], place: usize) -> Item<'_> {
    let next = ffi::next_word(body, place);
    Item { body, place, next }
}

/// A whole message of the commands that have these words; `None`, and nothing done, where one is [`NO_WORD`] or there are more
/// than 48.
#[inline]
pub(crate) fn write_words<I>(out: &mut [u8], device_id: u8, words: I) -> Option<Written>
where
    I: ExactSizeIterator<Item = u64>,
{
    let length = words.len();
    if length > WORDS {
        return None;
    }
    let mut room = [const { MaybeUninit::<u64>::uninit() }; WORDS];
    let mut filled = 0;
    for word in words {
        if word == NO_WORD {
            return None;
        }
        room.get_mut(filled)?.write(word);
        filled += 1;
    }
    // SAFETY: `out` is a live slice, borrowed alone, and the first `filled` words of `room` were written.
    Some(unsafe {
        ffi::fimbrast_write_words(
            out.as_mut_ptr(),
            out.len(),
            device_id,
            room.as_ptr().cast(),
            filled,
        )
    })
}
