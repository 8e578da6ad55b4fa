//! The published Rust.

pub use ::old as lib;

#[path = "boundary.rs"]
pub mod boundary;
#[path = "cases.rs"]
pub mod cases;

/// A list of data bytes in one call, which the published Rust takes one by one: how many reports.
pub use boundary::receive_all as receive_list;

pub use boundary_index::{build_index, look_up, Lookup};

use lib::mtc::MtcEvent;

/// What a byte is answered: its event.
pub type Received = MtcEvent;

/// The event in it.
pub fn event_in(received: Received) -> Option<MtcEvent> {
    Some(received)
}

mod boundary_index {
    use std::hint::black_box;

    use super::lib::mmc::{InfoField, InfoFields};

    /// A response in which fields are looked up. The published Rust has no index: it walks from the front.
    pub struct Lookup {
        response: &'static [u8],
    }

    impl Lookup {
        pub const fn new(response: &'static [u8]) -> Self {
            Self { response }
        }
    }

    /// Where the first field of a name begins.
    #[inline(never)]
    pub fn look_up(lookup: &Lookup, name: u8) -> Option<usize> {
        let mut fields = InfoFields::new(lookup.response);
        loop {
            let place = lookup.response.len() - fields.as_bytes().len();
            let found = match fields.next()?.ok()? {
                InfoField::TimeCode { field, .. } => field == name,
                InfoField::Short { field, .. } => field + 0x20 == name,
                InfoField::Other { name: bytes, .. } => bytes == [name],
            };
            if found {
                return Some(place);
            }
        }
    }

    /// The walk that an index is made of, to its end: whether the response can be split.
    #[inline(never)]
    pub fn build_index(lookup: &mut Lookup, response: &'static [u8]) -> bool {
        lookup.response = response;
        let mut fields = InfoFields::new(response);
        fields.all(|field| black_box(field).is_ok())
    }
}
