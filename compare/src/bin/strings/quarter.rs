//! Quarter frames: a reader of each side that goes through a whole file.

use crate::pieces::Place;
use crate::{Row, Verdict};
use compare::both;
use compare::plain::{label, Time};
use compare::stream::collect;
use compare::{side_new, side_old};

/// A reader of each side.
pub struct Readers {
    old: side_old::calls::reader::Reader,
    new: side_new::calls::reader::Reader,
}

impl Readers {
    /// Fresh readers.
    pub fn new() -> Self {
        let (old, new) = both!(reader::new());
        Self { old, new }
    }

    /// Both records as bytes.
    fn records(&self) -> (Vec<u8>, Vec<u8>) {
        let mut out = (Vec::new(), Vec::new());
        collect(&self.old, &mut out.0);
        collect(&self.new, &mut out.1);
        out
    }

    /// Gives a full message to both; both records in words.
    pub fn full_message(&mut self, t: Time) -> (String, String) {
        side_old::calls::reader::full_message(&mut self.old, t);
        side_new::calls::reader::full_message(&mut self.new, t);
        (format!("{:?}", self.old), format!("{:?}", self.new))
    }

    /// Gives a run of data bytes to both.
    pub fn row(&mut self, place: Place, bytes: &[u8]) -> Row {
        let (mut reports, mut breaks, mut items) = (0, 0, Vec::new());
        let mut verdict = Verdict::Equal;
        for (n, &byte) in bytes.iter().enumerate() {
            let old = side_old::calls::reader::receive(&mut self.old, byte);
            let new = side_new::calls::reader::receive(&mut self.new, byte);
            let (a, b) = self.records();
            if (old != new || a != b) && matches!(verdict, Verdict::Equal) {
                verdict = self.differs(n, byte, &old, &new);
            }
            if old[2] == 1 {
                reports += 1;
                breaks += old[14] as usize;
                items.push(report(n, &old));
            }
        }
        let n = bytes.len();
        Row {
            place,
            length: 2 * n,
            what: format!("quarter frames {n}, reports {reports}, discontinuities {breaks}"),
            verdict,
            items,
        }
    }

    fn differs(&self, n: usize, byte: u8, old: &[u8], new: &[u8]) -> Verdict {
        let number = n + 1;
        Verdict::Differs(format!(
            "quarter frame {number}, F1 {byte:02X}: old {old:02X?} {:?}; new {new:02X?} {:?}",
            self.old, self.new
        ))
    }
}

/// A report in words.
fn report(n: usize, event: &[u8; 15]) -> String {
    let raw: Time = event[3..8].try_into().expect("five bytes");
    let current: Time = event[8..13].try_into().expect("five bytes");
    let way = if event[13] == 0 { "forward" } else { "reverse" };
    let jump = if event[14] == 1 {
        ", discontinuity"
    } else {
        ""
    };
    let (raw, current) = (label(&raw), label(&current));
    format!("quarter frame {}: {raw}, now {current}, {way}{jump}", n + 1)
}
