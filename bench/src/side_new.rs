//! The library, through its Rust crate.

pub use ::fimbrast as lib;

#[path = "boundary.rs"]
pub mod boundary;
#[path = "cases.rs"]
pub mod cases;

pub use boundary_index::{build_index, look_up, Lookup};
pub use boundary_list::receive_list;

use lib::mtc::MtcEvent;
use lib::universal::SysexError;

/// What a byte is answered: its event, or a refusal.
pub type Received = Result<MtcEvent, SysexError>;

/// The event in it.
pub fn event_in(received: Received) -> Option<MtcEvent> {
    received.ok()
}

mod boundary_list {
    use super::lib::mtc::MtcReader;

    /// A list of data bytes in one call: how many reports.
    #[inline(never)]
    pub fn receive_list(reader: &mut MtcReader, bytes: &[u8]) -> usize {
        reader.feed(bytes).reports
    }
}

mod boundary_index {
    use super::lib::mmc::InfoFieldIndex;

    /// A response in which fields are looked up, by its index.
    pub struct Lookup {
        index: InfoFieldIndex,
    }

    impl Lookup {
        pub fn new(response: &'static [u8]) -> Self {
            let mut lookup = Self {
                index: InfoFieldIndex::new(),
            };
            build_index(&mut lookup, response);
            lookup
        }
    }

    /// Where the first field of a name begins.
    #[inline(never)]
    pub fn look_up(lookup: &Lookup, name: u8) -> Option<usize> {
        lookup.index.place(name).ok()
    }

    /// Makes the index of a response: whether it is accepted.
    #[inline(never)]
    pub fn build_index(lookup: &mut Lookup, response: &'static [u8]) -> bool {
        lookup.index.build(response).is_ok()
    }
}
