//! What the crate does on its own: records turned into Rust's types and back, slices lent and given back, refusals named.

use core::mem::size_of;
use std::collections::hash_map::DefaultHasher;
use std::format;
use std::hash::{Hash, Hasher};
use std::string::{String, ToString};
use std::vec;
use std::vec::Vec;

use crate::ffi;
use crate::mmc::*;
use crate::mtc::*;
use crate::tracks::*;
use crate::transport::*;
use crate::universal::*;
use crate::words;

const RATES: [TimeCodeType; 4] = [
    TimeCodeType::Fps24,
    TimeCodeType::Fps25,
    TimeCodeType::Fps30Drop,
    TimeCodeType::Fps30,
];

/// 01:37:52:16 at 30.
const LABEL: MtcTime = MtcTime {
    hours: 1,
    minutes: 37,
    seconds: 52,
    frames: 16,
    rate: TimeCodeType::Fps30,
};

const PIECES: [u8; 8] = [0x00, 0x11, 0x24, 0x33, 0x45, 0x52, 0x61, 0x76];

/// A code of `time` with subframes.
fn code(time: MtcTime, subframes: u8) -> StandardTimeCode {
    StandardTimeCode {
        time,
        color_frame: false,
        blank: false,
        negative: false,
        final_byte: FinalByte::Subframes(subframes),
    }
}

/// 01:00:00:00 at 25.
fn hour() -> MtcTime {
    MtcTime::new(1, 0, 0, 0, TimeCodeType::Fps25).unwrap()
}

/// A label of these numbers, valid or not.
fn label(hours: u8, minutes: u8, seconds: u8, frames: u8, rate: TimeCodeType) -> MtcTime {
    MtcTime {
        hours,
        minutes,
        seconds,
        frames,
        rate,
    }
}

/// A command message in its split parts.
fn parts(sub_id1: u8, data: &[u8]) -> Universal<'_> {
    Universal {
        real_time: true,
        device_id: 0x7F,
        sub_id1,
        sub_id2: None,
        data,
    }
}

fn commands(data: &[u8]) -> Commands<'_> {
    match MmcMessage::from_universal(&parts(6, data)) {
        Ok(Some(MmcMessage::Commands { commands, .. })) => commands,
        other => panic!("{other:?}"),
    }
}

/// The data between the four opening bytes and F7H.
fn body(message: &[u8]) -> &[u8] {
    &message[4..message.len() - 1]
}

fn hash(value: impl Hash) -> u64 {
    let mut hasher = DefaultHasher::new();
    value.hash(&mut hasher);
    hasher.finish()
}

/// Keeps what is fed to it.
#[derive(Default)]
struct Kept(Vec<u8>);

impl Hasher for Kept {
    fn write(&mut self, bytes: &[u8]) {
        self.0.extend_from_slice(bytes);
    }

    fn finish(&self) -> u64 {
        0
    }
}

#[test]
fn layout_is_the_headers() {
    let mut text = String::new();
    for (name, size, places) in ffi::LAYOUT {
        text.push_str(&format!("{name} {size}:"));
        for (field, place) in places {
            text.push_str(&format!(" {field} {place}"));
        }
        text.push('\n');
    }
    assert_eq!(text, include_str!("../../c/layout.out"));
    assert_eq!(size_of::<MtcReader>(), 60);
}

#[test]
fn rates() {
    for (bits, rate) in (0..).zip(RATES) {
        assert_eq!(rate.into_bits(), bits);
        for high in [0x00, 0x04, 0x40, 0xFC] {
            assert_eq!(TimeCodeType::from_bits(bits | high), rate);
        }
        assert_eq!(rate.frames_per_second(), [24, 25, 30, 30][bits as usize]);
    }
}

#[test]
fn labels() {
    for rate in RATES {
        let label = MtcTime::new(23, 59, 58, 23, rate).unwrap();
        assert_eq!(MtcTime::of(label.flat()), label);
        assert_eq!(
            MtcTime::from_frame_count(label.to_frame_count(), rate),
            label
        );
        assert_eq!(label.add_frames(0), label);
        assert_eq!(
            label
                .add_frames(i32::MIN)
                .add_frames(i32::MAX)
                .add_frames(1),
            label
        );
        assert_eq!(MtcTime::new(24, 0, 0, 0, rate), Err(SysexError::OutOfRange));
        assert_eq!(
            MtcTime::from_frame_count(0, rate)
                .add_frames(-1)
                .add_frames(1)
                .hours,
            0
        );
    }
    let drop = |minutes, seconds, frames| MtcTime {
        hours: 0,
        minutes,
        seconds,
        frames,
        rate: TimeCodeType::Fps30Drop,
    };
    assert_eq!(drop(0, 59, 28).add_frames(2), drop(1, 0, 2));
    assert_eq!(drop(9, 59, 29).add_frames(1), drop(10, 0, 0));
    assert_eq!(drop(1, 0, 0).to_frame_count(), 1798);
    assert_eq!(drop(1, 0, 1).next_valid(), drop(1, 0, 2));
    assert!(!drop(1, 0, 1).is_valid() && drop(10, 0, 1).is_valid());
    let out = MtcTime {
        hours: 255,
        minutes: 255,
        seconds: 255,
        frames: 255,
        rate: TimeCodeType::Fps30Drop,
    };
    assert_eq!(out.to_frame_count(), 2_084_825);
    assert_eq!(out.next_valid(), out);
}

/// At 30 drop-frame a valid label counts as many as stand before it, and an invalid one by the formula.
#[test]
fn drop_frame_counts() {
    let label = |hours, minutes, seconds, frames| MtcTime {
        hours,
        minutes,
        seconds,
        frames,
        rate: TimeCodeType::Fps30Drop,
    };
    let mut before = 0;
    for n in 0..24 * 60 * 60 * 30u32 {
        let (frames, seconds) = (n % 30, n / 30 % 60);
        let (minutes, hours) = (n / 1_800 % 60, n / 108_000);
        let t = label(hours as u8, minutes as u8, seconds as u8, frames as u8);
        if t.is_valid() {
            assert_eq!(t.to_frame_count(), before);
            before += 1;
        }
    }
    assert_eq!(before, 2_589_408);
    // The last number of the table, and its minute's two skipped labels.
    assert_eq!(label(0, 59, 0, 2).to_frame_count(), 106_094);
    assert_eq!(label(0, 59, 0, 0).to_frame_count(), 106_092);
    assert_eq!(label(0, 59, 0, 1).to_frame_count(), 106_093);
    // Minutes from 60 on count in the hours that follow.
    assert_eq!(label(0, 60, 0, 0).to_frame_count(), 107_892);
    assert_eq!(label(0, 75, 0, 2).to_frame_count(), 134_866);
    assert_eq!(label(1, 255, 7, 3).to_frame_count(), 566_645);
}

#[test]
fn quarter_frames() {
    for byte in 0..=127 {
        let q = QuarterFrame::from_byte(byte).unwrap();
        assert_eq!((q.piece, q.value), (byte >> 4, byte & 15));
        assert_eq!(q.to_byte(), byte);
        let status = QuarterFrame::from_byte(byte | 0x80);
        assert_eq!(status, Err(SysexError::StatusByte));
    }
    assert_eq!(QuarterFrame::pieces(&LABEL), PIECES);
}

#[test]
fn generator() {
    let mut g = MtcGenerator::new(LABEL, Direction::Reverse);
    assert_eq!(
        format!("{g:?}"),
        "MtcGenerator { time: MtcTime { hours: 1, minutes: 37, seconds: 52, frames: 16, rate: Fps30 }, \
         direction: Reverse, last: None, running: true }"
    );
    let fresh = g;
    let mut sent = [0; 8];
    sent.fill_with(|| g.next_byte().unwrap());
    let mut back = PIECES;
    back.reverse();
    assert_eq!(sent, back);
    assert!(format!("{g:?}").ends_with("direction: Reverse, last: Some(0), running: true }"));
    assert_ne!(g, fresh);
    assert_eq!(g.next_byte(), Some(0x76));
    assert_eq!(g.time(), LABEL.add_frames(-2));
    g.set_running(false);
    let stopped = g;
    assert_eq!(g.next_byte(), None);
    assert_eq!((g, hash(g)), (stopped, hash(stopped)));
    g.locate(LABEL);
    g.set_running(true);
    assert_eq!((g, hash(g)), (fresh, hash(fresh)));
    g.set_direction(Direction::Forward);
    assert_eq!(g, MtcGenerator::new(LABEL, Direction::Forward));
}

#[test]
fn reader() {
    let mut r = MtcReader::new();
    assert_eq!(
        format!("{r:?}"),
        "MtcReader { nibbles: [0, 0, 0, 0, 0, 0, 0, 0], count: 0, first: 0, last: None, direction: None, \
         locked: false, running: false, previous: None, time: None }"
    );
    assert_eq!(
        (r, hash(r)),
        (MtcReader::default(), hash(MtcReader::default()))
    );
    assert_eq!((r.direction(), r.time()), (None, None));
    let mut fed = MtcReader::new();
    let all = fed.feed(&PIECES);
    let mut last = None;
    for byte in PIECES {
        assert_ne!(fed, r);
        let event = r.receive(byte).unwrap();
        assert_eq!(event.piece, byte >> 4);
        assert_eq!(event.boundary, matches!(event.piece, 0 | 4));
        last = event.sequence;
    }
    assert_eq!((fed, hash(fed)), (r, hash(r)));
    let report = MtcSequence {
        raw: LABEL,
        current: LABEL.add_frames(2),
        direction: Direction::Forward,
        discontinuity: false,
    };
    assert_eq!(last, Some(report));
    assert_eq!(
        (all.reports, all.discontinuities, all.last, all.refused),
        (1, 0, Some(report), 0)
    );
    assert!(r.is_locked() && r.is_running());
    assert_eq!(
        (r.direction(), r.time()),
        (Some(Direction::Forward), Some(report.current))
    );
    assert!(format!("{r:?}")
        .contains("last: Some(7), direction: Some(Forward), locked: true, running: true, "));

    let none = r.feed(&[]);
    assert_eq!(
        (none.reports, none.discontinuities, none.last),
        (0, 0, None)
    );
    assert_eq!(r, fed);
    let again = r.feed(&PIECES);
    assert_eq!((again.reports, again.discontinuities), (1, 1));

    let message = FullMessage {
        device_id: 0x7F,
        time: hour(),
    };
    r.full_message(&message);
    assert!(!r.is_locked() && !r.is_running());
    assert_eq!(
        (r.direction(), r.time()),
        (Some(Direction::Forward), Some(hour()))
    );

    let mut back = PIECES;
    back.reverse();
    let reverse = MtcReader::new().feed(&back).last.unwrap();
    assert_eq!(
        (reverse.raw, reverse.current),
        (LABEL, LABEL.add_frames(-1))
    );
    assert_eq!(reverse.direction, Direction::Reverse);
}

/// Status bytes among the quarter frames are refused, and change nothing (document 02, #105).
#[test]
fn status_bytes() {
    let refused = Err(SysexError::StatusByte);
    let mut r = MtcReader::new();
    for byte in 0x80..=0xFF {
        assert_eq!(r.receive(byte), refused);
    }
    assert_eq!((r, r.is_running()), (MtcReader::new(), false));
    r.full_message(&FullMessage {
        device_id: 0x7F,
        time: hour(),
    });
    assert_eq!((r.receive(0xF1), r.is_running()), (refused, false));

    // F6H after seven good pieces, and the eighth still reports.
    for &byte in &PIECES[..7] {
        assert_eq!(r.receive(byte).unwrap().sequence, None);
    }
    let (before, words) = (r, format!("{r:?}"));
    assert_eq!(r.receive(0xF6), refused);
    assert_eq!((r, format!("{r:?}")), (before, words));
    assert_eq!(r.receive(0x76).unwrap().sequence.unwrap().raw, LABEL);

    // Among the bytes of a list they are counted, and the others are received as if they were alone.
    let mixed: std::vec::Vec<u8> = PIECES.iter().flat_map(|&b| [0xF8, b, b | 0x80]).collect();
    let (mut alone, mut among) = (MtcReader::new(), MtcReader::new());
    let (whole, fed) = (alone.feed(&PIECES), among.feed(&mixed));
    assert_eq!((fed.refused, whole.refused), (16, 0));
    assert_eq!(Fed { refused: 0, ..fed }, whole);
    assert_eq!((among, hash(among)), (alone, hash(alone)));
    assert_eq!(among.feed(&[0xC0; 5]).refused, 5);
    assert_eq!(among, alone);

    // Between 76H and 61H one leaves the first report of a forward stream at its sixteenth byte.
    let mut late = MtcReader::new();
    late.feed(&[0x76, 0xC0, 0x61]);
    let mut g = MtcGenerator::new(LABEL, Direction::Forward);
    let reports = (1..=24).filter(|_| {
        let event = late.receive(g.next_byte().unwrap()).unwrap();
        event.sequence.is_some()
    });
    assert_eq!(reports.collect::<std::vec::Vec<_>>(), [16, 24]);

    // One between the last seven neither keeps the first byte from its report nor makes it.
    let first = |bytes: &[u8]| {
        let mut r = MtcReader::new();
        r.feed(bytes);
        r.receive(0x00).unwrap().sequence.is_some()
    };
    assert!(first(&[0x76, 0x61, 0x52, 0xC0, 0x45, 0x33, 0x24, 0x11]));
    assert!(!first(&[0x76, 0x61, 0x52, 0x45, 0x33, 0x24, 0x91]));
}

/// The library leaves every word of a reader, whatever words they are, at a status byte.
#[test]
fn status_bytes_leave_the_words() {
    for word in [0, 7, 42, 0x80, u32::MAX] {
        let mut record = ffi::Reader { words: [word; 15] };
        for byte in 0x80..=0xFF {
            assert_eq!(ffi::fimbrast_receive(&mut record, byte), 13 << 56);
        }
        let status: std::vec::Vec<u8> = (0x80..=0xFF).collect();
        assert_eq!(ffi::feed(&mut record, &status).refused, 128);
        assert_eq!(record.words, [word; 15]);
    }
}

#[test]
fn reports_are_the_librarys() {
    for (direction, rate) in [Direction::Forward, Direction::Reverse]
        .into_iter()
        .flat_map(|d| RATES.map(|r| (d, r)))
    {
        let time = MtcTime::new(23, 59, 58, 20, rate).unwrap();
        let mut g = MtcGenerator::new(time, direction);
        let mut r = MtcReader::new();
        let mut record = ffi::fimbrast_reader_new();
        for turn in 0..400 {
            if turn % 90 == 0 {
                g.locate(time.add_frames(turn));
            }
            let byte = g.next_byte().unwrap();
            let sequence = r.receive(byte).unwrap().sequence;
            let event = ffi::fimbrast_receive(&mut record, byte);
            let report = ffi::fimbrast_report_parts(record, event >> 9);
            assert_eq!(sequence.is_some(), report.present);
            let Some(s) = sequence else { continue };
            let parts = ffi::Sequence {
                raw: s.raw.flat(),
                current: s.current.flat(),
                direction: s.direction as u8,
                discontinuity: s.discontinuity,
            };
            assert_eq!(parts, report.sequence);
        }
    }
}

#[test]
fn hash_feeds_the_fields_in_order() {
    let mut r = MtcReader::new();
    r.feed(&PIECES);
    let mut fields = Kept::default();
    ([0u8, 1, 4, 3, 5, 2, 1, 6], 0u8, 0u8).hash(&mut fields);
    (Some(7u8), Some(Direction::Forward), true, true).hash(&mut fields);
    (Some(LABEL), Some(LABEL.add_frames(2))).hash(&mut fields);
    let mut whole = Kept::default();
    r.hash(&mut whole);
    assert_eq!(whole.0, fields.0);

    let mut fields = Kept::default();
    (LABEL, Direction::Reverse, None::<u8>, true).hash(&mut fields);
    let mut whole = Kept::default();
    MtcGenerator::new(LABEL, Direction::Reverse).hash(&mut whole);
    assert_eq!(whole.0, fields.0);
}

#[test]
fn full_messages() {
    let message = FullMessage {
        device_id: 5,
        time: LABEL,
    };
    let mut out = [0xEE; 11];
    assert_eq!(message.write(&mut out), Ok(10));
    assert_eq!(out, [0xF0, 0x7F, 5, 1, 1, 0x61, 37, 52, 16, 0xF7, 0xEE]);
    let read = |sub_id2, data| {
        FullMessage::from_universal(&Universal {
            real_time: true,
            device_id: 5,
            sub_id1: 1,
            sub_id2,
            data,
        })
    };
    assert_eq!(read(Some(1), &out[5..9]), Ok(Some(message)));
    assert_eq!(read(Some(1), &out[5..8]), Err(SysexError::Length));
    assert_eq!(read(Some(1), &[]), Err(SysexError::Length));
    assert_eq!(read(Some(2), &out[5..9]), Ok(None));
    assert_eq!(read(None, &out[5..9]), Ok(None));
    let small = SysexError::BufferTooSmall { needed: 10 };
    assert_eq!(message.write(&mut out[..9]), Err(small));
    assert_eq!(message.write(&mut []), Err(small));
    let mut faulty = message;
    faulty.time.hours = 24;
    assert_eq!(faulty.write(&mut out), Err(SysexError::OutOfRange));
    faulty.device_id = 128;
    assert_eq!(faulty.write(&mut out), Err(SysexError::Device));
}

#[test]
fn user_bits() {
    let bits = UserBits {
        device_id: 0,
        groups: [1, 2, 3, 4, 5, 6, 7, 8],
        flags: 2,
    };
    assert_eq!(bits.to_bytes(), [0x87, 0x65, 0x43, 0x21]);
    let mut out = [0; 15];
    assert_eq!(bits.write(&mut out), Ok(15));
    assert_eq!(out, [0xF0, 0x7F, 0, 1, 2, 1, 2, 3, 4, 5, 6, 7, 8, 2, 0xF7]);
    let read = |sub_id2, data| {
        UserBits::from_universal(&Universal {
            real_time: true,
            device_id: 0,
            sub_id1: 1,
            sub_id2,
            data,
        })
    };
    assert_eq!(read(Some(2), &out[5..14]), Ok(Some(bits)));
    assert_eq!(read(Some(2), &out[5..13]), Err(SysexError::Length));
    assert_eq!(read(Some(1), &out[5..14]), Ok(None));
    assert_eq!(
        UserBits { flags: 4, ..bits }.write(&mut out),
        Err(SysexError::OutOfRange)
    );
    assert_eq!(
        bits.write(&mut out[..14]),
        Err(SysexError::BufferTooSmall { needed: 15 })
    );
}

#[test]
fn universal() {
    assert!(addressed(ALL_DEVICES, 3) && addressed(3, 3) && !addressed(4, 3));
    assert!(has_sub_id2(true, 1) && !has_sub_id2(true, 6) && has_sub_id2(false, 6));
    let mut out = [0xEE; 7];
    assert_eq!(parts(6, &[1]).write(&mut out), Ok(6));
    assert_eq!(out, [0xF0, 0x7F, 0x7F, 6, 1, 0xF7, 0xEE]);
    assert_eq!(parts(6, &[]).write(&mut out), Ok(5));
    assert_eq!(
        parts(6, &[1, 0x80]).write(&mut out),
        Err(SysexError::DataByte)
    );
    assert_eq!(parts(1, &[1]).write(&mut out), Err(SysexError::OutOfRange));
    let mut odd = parts(6, &[]);
    odd.sub_id2 = Some(0);
    assert_eq!(odd.write(&mut out), Err(SysexError::OutOfRange));
    odd.device_id = 128;
    assert_eq!(odd.write(&mut out), Err(SysexError::Device));
    assert_eq!(
        parts(6, &[1]).write(&mut []),
        Err(SysexError::BufferTooSmall { needed: 6 })
    );
}

#[test]
fn the_version_is_the_archives() {
    let [major, minor, patch] = [
        env!("CARGO_PKG_VERSION_MAJOR"),
        env!("CARGO_PKG_VERSION_MINOR"),
        env!("CARGO_PKG_VERSION_PATCH"),
    ]
    .map(|part| part.parse::<u32>().unwrap());
    assert_eq!(ffi::VERSION, major * 10_000 + minor * 100 + patch);
    assert_eq!(ffi::fimbrast_version(), ffi::VERSION);
}

#[test]
fn refusals() {
    let mut said = Vec::new();
    for number in 1..=255 {
        let refusal = SysexError::of(number, 7);
        assert_eq!(refusal.number(), number);
        assert_eq!(SysexError::check(number), Err(SysexError::of(number, 0)));
        let words = refusal.to_string();
        assert!(!words.is_empty() && !said.contains(&words), "{words}");
        said.push(words);
        // Each refusal of the library has its name here, and no other number has one.
        let named = refusal != SysexError::Unknown(number);
        assert_eq!(named, ffi::REFUSALS.contains(&number));
    }
    assert_eq!(
        SysexError::Unknown(200).to_string(),
        "refusal 200, which this crate has no name for"
    );
    assert_eq!(SysexError::check(0), Ok(()));
    let small = SysexError::BufferTooSmall { needed: 14 };
    assert!(small.to_string().ends_with(": 14 bytes needed"));
    assert_eq!(format!("{small:?}"), "BufferTooSmall { needed: 14 }");
    let _: &dyn core::error::Error = &small;
}

#[test]
fn names() {
    for name in 0..=255 {
        let short = short_name(name);
        assert_eq!(short.is_some(), (0x01..=0x1F).contains(&name));
        assert_eq!(full_name(name).is_some(), (0x21..=0x3F).contains(&name));
        if let Some(short) = short {
            assert_eq!(full_name(short), Some(name));
        }
    }
}

#[test]
fn codes() {
    for byte in 0..=255 {
        let status = TimeCodeStatus::from_byte(byte);
        assert_eq!(status.to_byte(), byte & 0x78);
        let bytes = [0x21, 0x42, 0x03, 0x64, status.to_byte()];
        let read = StandardTimeCode::from_bytes(bytes);
        assert_eq!(read.final_byte, FinalByte::Status(status));
        assert_eq!(
            (read.color_frame, read.blank, read.negative),
            (true, false, true)
        );
        assert_eq!(read.to_bytes(), Ok(bytes));
        let short = ShortTimeCode::from_bytes([0x64, status.to_byte()]);
        assert_eq!(read.short(), short);
        assert_eq!(short.to_bytes(), Ok([0x64, status.to_byte()]));
        assert_eq!(
            code(read.time, 5).with_short(short).final_byte,
            read.final_byte
        );
        assert_eq!(read.to_subframes_form().final_byte, FinalByte::Subframes(0));
        assert_eq!(read.to_status_form(true), read);
    }
    let known = code(hour(), 99);
    assert_eq!(known.to_bytes(), Ok([0x21, 0, 0, 0, 99]));
    assert_eq!(StandardTimeCode::from_bytes([0x21, 0, 0, 0, 99]), known);
    assert_eq!(known.to_subframes_form(), known);
    let status = TimeCodeStatus {
        video_field1: true,
        no_time_code: true,
        ..TimeCodeStatus::default()
    };
    assert_eq!(
        known.to_status_form(true).final_byte,
        FinalByte::Status(status)
    );
    // Any byte stands for itself as subframes, and is refused on writing where it is too large.
    for subframes in 100..=255 {
        let odd = code(hour(), subframes);
        assert_eq!(odd.to_bytes(), Err(SysexError::OutOfRange));
        assert_eq!(odd.short().final_byte, FinalByte::Subframes(subframes));
        assert_eq!(known.with_short(odd.short()), odd);
        assert_eq!(odd.short().to_bytes(), Err(SysexError::OutOfRange));
    }
    let blank = StandardTimeCode {
        blank: true,
        ..code(LABEL, 1)
    };
    assert_eq!(blank.to_bytes(), Ok([0x60, 0, 0x40, 0, 1]));
}

#[test]
fn commands_go_out_and_come_back() {
    let fields = [0x08, 0x21, 0, 0, 0, 0];
    let list = [
        MmcCommand::Stop,
        MmcCommand::Play,
        MmcCommand::DeferredPlay,
        MmcCommand::FastForward,
        MmcCommand::Rewind,
        MmcCommand::RecordStrobe,
        MmcCommand::RecordExit,
        MmcCommand::Pause,
        MmcCommand::Reset,
        MmcCommand::Write(InfoFields::new(&fields)),
        MmcCommand::Write(InfoFields::new(&[])),
        MmcCommand::LocateField { register: 0x0F },
        MmcCommand::LocateTarget(code(hour(), 50)),
        MmcCommand::Move {
            destination: 1,
            source: 0x1F,
        },
        MmcCommand::Other {
            name: &[0, 0, 0x50],
            data: &[1, 2, 3],
        },
        MmcCommand::Other {
            name: &[0, 0x7F],
            data: &[],
        },
    ];
    let mut out = [0; 64];
    for part in [&list[..10], &list[10..]] {
        let n = write_commands(&mut out, 3, part).unwrap();
        assert_eq!(
            (out[0], out[1], out[2], out[3], out[n - 1]),
            (0xF0, 0x7F, 3, 6, 0xF7)
        );
        let read: Result<Vec<_>, _> = commands(body(&out[..n])).collect();
        assert_eq!(read.unwrap(), part);
    }
    for command in &list {
        let n = write_commands(&mut out, 3, core::slice::from_ref(command)).unwrap();
        let mut read = commands(body(&out[..n]));
        assert_eq!(read.next(), Some(Ok(command.clone())));
        assert_eq!((read.as_bytes(), read.next()), (&[][..], None));
    }
}

#[test]
fn fields_go_out_and_come_back() {
    let status = code(hour(), 0).to_status_form(false);
    let list = [
        InfoField::TimeCode {
            field: field::SELECTED_TIME_CODE,
            code: status,
        },
        InfoField::TimeCode {
            field: field::GP0,
            code: code(LABEL, 7),
        },
        InfoField::Short {
            field: field::GP0,
            code: code(LABEL, 8).short(),
        },
        InfoField::Other {
            name: &[0x20],
            data: &[1, 2],
        },
        InfoField::Other {
            name: &[0, 0x41],
            data: &[9],
        },
    ];
    let mut out = [0; 48];
    let n = write_info_fields(&mut out, &list).unwrap();
    let read: Result<Vec<_>, _> = InfoFields::new(&out[..n]).collect();
    assert_eq!(read.unwrap(), list);
    let written = out;
    assert_eq!(
        write_info_fields(&mut out[..n - 1], &list),
        Err(SysexError::BufferTooSmall { needed: n })
    );

    let mut message = [0; 64];
    let m = write_responses(&mut message, 9, &list).unwrap();
    assert_eq!((m, body(&message[..m])), (n + 5, &written[..n]));
    match MmcMessage::from_universal(&parts(7, body(&message[..m]))) {
        Ok(Some(MmcMessage::Responses { device_id, fields })) => {
            assert_eq!((device_id, fields.as_bytes()), (0x7F, &written[..n]));
        }
        other => panic!("{other:?}"),
    }
    assert_eq!(
        write_responses(&mut message, 0x7F, &list),
        Err(SysexError::OutOfRange)
    );
    assert_eq!(
        write_responses(&mut message, 0x80, &list),
        Err(SysexError::Device)
    );
    assert_eq!(write_info_fields(&mut [], &[]), Ok(0));
    assert_eq!(
        write_responses(&mut message, 9, &[]),
        Err(SysexError::Length)
    );
}

/// The field at the front of a string.
fn one_field(bytes: &[u8]) -> Result<InfoField<'_>, SysexError> {
    InfoFields::new(bytes).next().unwrap()
}

#[test]
fn fields_are_looked_up() {
    // Field 4FH, GP0 with 01:00:00:00 and again with 02:00:00:00, a prefixed 0BH, and a name above 7FH.
    let first = [0x08, 0x21, 0, 0, 0, 0];
    let second = [0x08, 0x22, 0, 0, 0, 0];
    let response = [
        &[0x4F, 2, 7, 8][..],
        &first,
        &second,
        &[0, 0x0B, 1, 2, 3, 4, 5, 0xC4],
    ]
    .concat();
    let mut index = InfoFieldIndex::new();
    assert_eq!(index, InfoFieldIndex::default());
    assert_eq!(index.place(0x08), Err(SysexError::NoField));
    assert_eq!(index.build(&response), Ok(()));

    // The first of a name; no prefixed name, none above 7FH, none that is not there.
    assert_eq!(index.place(0x4F), Ok(0));
    assert_eq!(index.place(0x08), Ok(4));
    for name in [0x00, 0x0B, 0xC4, 0x44, 0x7F, 0x80, 0xFF] {
        assert_eq!(index.place(name), Err(SysexError::NoField), "{name:02X}H");
        assert_eq!(
            index.field(name, &response),
            Err(SysexError::NoField),
            "{name:02X}H"
        );
    }
    assert_eq!(index.field(0x08, &response), one_field(&first));
    assert_eq!(
        index.field(0x4F, &response),
        Ok(InfoField::Other {
            name: &[0x4F],
            data: &[7, 8]
        })
    );

    // From another string: what stands there, 2 where that is cut short, 9 past the end.
    assert_eq!(index.field(0x08, &response[..9]), Err(SysexError::Length));
    assert_eq!(index.field(0x08, &response[..4]), Err(SysexError::End));
    assert_eq!(index.field(0x08, &[0x01; 10]), one_field(&[0x01; 6]));

    // A string that cannot be split leaves the index; the next one that can takes its place.
    let kept = index.clone();
    assert_eq!(index.build(&response[..9]), Err(SysexError::Length));
    assert_eq!(index, kept);
    assert_eq!(index.build(&second), Ok(()));
    assert_eq!(
        (index.place(0x08), index.place(0x4F)),
        (Ok(0), Err(SysexError::NoField))
    );
    assert_eq!(index.build(&[]), Ok(()));
    assert_eq!(index, InfoFieldIndex::new());
}

/// The data bytes that a set is written as.
fn track_bytes(set: TrackSet) -> Vec<u8> {
    let mut out = [0xAA; TrackSet::MAX_BYTES];
    let length = set.write(&mut out).unwrap();
    assert!(out[length..].iter().all(|&byte| byte == 0xAA));
    out[..length].to_vec()
}

#[test]
fn track_sets() {
    // No data is an empty set, and writes none.
    let empty = TrackSet::new();
    assert_eq!(
        (empty, TrackSet::default()),
        (TrackSet::read(&[]).unwrap(), empty)
    );
    assert_eq!(
        (empty.armed_count(), empty.lowest_armed()),
        (0, Err(SysexError::Track))
    );
    assert_eq!((track_bytes(empty), empty.armed().next()), (vec![], None));
    assert_eq!(TrackSet::read(&[0; 9]), Ok(empty));
    assert_eq!(empty.write(&mut []), Ok(0));

    // Each track is bit (n + 4) modulo 7 of byte (n + 4) divided by 7, and no other.
    for track in 1..=58u8 {
        let mut bytes = vec![0; usize::from((track + 4) / 7) + 1];
        *bytes.last_mut().unwrap() = 1 << ((track + 4) % 7);
        let set = TrackSet::read(&bytes).unwrap();
        assert!(
            set.armed().eq([track]) && set.has_position(track + 4),
            "{track}"
        );
        assert_eq!((set.armed_count(), set.lowest_armed()), (1, Ok(track)));
        assert!(
            (1..=58).all(|n| set.is_armed(n) == Ok(n == track)),
            "{track}"
        );
        let mut armed = TrackSet::new();
        assert_eq!(armed.arm(track), Ok(()));
        assert_eq!((armed, track_bytes(armed)), (set, bytes));
        assert_eq!(armed.disarm(track), Ok(()));
        assert_eq!(armed, empty);
    }

    // All, with bit 7 of each byte ignored; the lower five are no tracks, and are kept.
    let mut all = TrackSet::read(&[0xFF; 9]).unwrap();
    assert!(all.armed().eq(1..=58) && all.armed().len() == 58);
    assert_eq!(track_bytes(all), [0x7F; 9]);
    assert!((0..63).all(|p| all.has_position(p)) && (63..=255).all(|p| !all.has_position(p)));
    for track in 1..=58 {
        assert_eq!(all.disarm(track), Ok(()));
    }
    assert_eq!((track_bytes(all), all.armed_count()), (vec![0x1F], 0));
    let lower = [
        TrackSet::VIDEO,
        TrackSet::RESERVED,
        TrackSet::TIME_CODE,
        TrackSet::AUX_A,
        TrackSet::AUX_B,
    ];
    assert!(lower.iter().all(|&p| all.has_position(p)));

    // A refused call changes nothing; more than nine bytes are refused, also zeros.
    let before = TrackSet::read(&[0x64, 0, 0, 1]).unwrap();
    let mut set = before;
    for track in [0, 59, 60, 255] {
        assert_eq!(set.arm(track), Err(SysexError::Track));
        assert_eq!(set.disarm(track), Err(SysexError::Track));
        assert_eq!(set.is_armed(track), Err(SysexError::Track));
    }
    assert_eq!(set, before);
    assert_eq!(TrackSet::read(&[0; 10]), Err(SysexError::Track));

    // Zero bytes in the middle are written; a short buffer stays as found.
    assert_eq!(track_bytes(set), [0x64, 0, 0, 1]);
    let mut short = [0xAA; 3];
    assert_eq!(
        set.write(&mut short),
        Err(SysexError::BufferTooSmall { needed: 4 })
    );
    assert_eq!(short, [0xAA; 3]);

    // Bit 63 of a record is no position, and no call gives a set that has it.
    let high = ffi::TrackSet {
        positions: 1 << 63 | 32,
    };
    let armed = ffi::fimbrast_track_set_arm(high, 2);
    assert_eq!((armed.answer, armed.set.positions), (0, 96));
    let refused = ffi::fimbrast_track_set_arm(high, 59);
    assert_eq!((refused.answer, refused.set.positions), (12, 32));
    assert_eq!(ffi::fimbrast_track_set_armed_count(high), 1);
    assert_eq!(
        format!("{:?}", TrackSet::read(&[0x64]).unwrap()),
        "TrackSet { positions: 0x64 }"
    );
}

#[test]
fn fields_show_their_tracks() {
    let field = |name, data| InfoField::Other { name, data };
    let tracks = |name, data| {
        field(name, data)
            .tracks()
            .map(|view| view.map(|set| set.armed().collect::<Vec<_>>()))
    };
    assert_eq!(
        tracks(&[TRACK_RECORD_READY], &[0x64, 0, 0, 1]),
        Some(Ok(vec![1, 2, 17]))
    );
    assert_eq!(tracks(&[0x4F], &[]), Some(Ok(vec![])));
    assert_eq!(tracks(&[0x4F], &[0; 10]), Some(Err(SysexError::Track)));
    assert_eq!(tracks(&[0x4F], &[0; 200]), Some(Err(SysexError::Track)));
    for name in [
        &[0, 0x4F][..],
        &[0, 0, 0x4F],
        &[0x4F, 0x4F],
        &[0x4E],
        &[0xCF],
        &[],
    ] {
        assert_eq!(tracks(name, &[0x20]), None, "{name:02X?}");
    }
    assert_eq!(one_field(&[0x08, 0x21, 0, 0, 0, 0]).unwrap().tracks(), None);
    assert_eq!(one_field(&[0x2F, 0x05, 0]).unwrap().tracks(), None);

    // In a Write's data, after a field of its own; the field itself stays as it is read.
    let mut fields = InfoFields::new(&[0x08, 0x21, 0, 0, 0, 0, 0x4F, 2, 0x20, 0x01]);
    assert_eq!(fields.next().unwrap().unwrap().tracks(), None);
    let ready = fields.next().unwrap().unwrap();
    assert_eq!(ready, field(&[0x4F], &[0x20, 0x01]));
    assert!(ready.tracks().unwrap().unwrap().armed().eq([1, 3]));

    // A whole Write, written and read back: the field shows the set that was armed.
    let mut set = TrackSet::read(&[0x04]).unwrap();
    for track in [17, 1, 2] {
        assert_eq!(set.arm(track), Ok(()));
    }
    let bytes = track_bytes(set);
    let mut list = [0; 16];
    let length = write_info_fields(&mut list, &[field(&[TRACK_RECORD_READY], &bytes)]).unwrap();
    let mut out = [0; 32];
    let write = MmcCommand::Write(InfoFields::new(&list[..length]));
    let length = write_commands(&mut out, 1, &[write]).unwrap();
    assert_eq!(
        out[..length],
        [0xF0, 0x7F, 1, 6, 0x40, 6, 0x4F, 4, 0x64, 0, 0, 1, 0xF7]
    );
    let Some(Ok(MmcCommand::Write(mut fields))) = commands(&out[4..length - 1]).next() else {
        panic!("no Write");
    };
    assert_eq!(fields.next().unwrap().unwrap().tracks(), Some(Ok(set)));

    // By the record, as C asks: 255 for another field, 6 for data that are no part of the bytes.
    let mut record = ffi::next_field(&[0x4F, 1, 0x20], 0).field;
    assert_eq!(
        ffi::field_tracks(&[0x4F, 1, 0x20], record).set.positions,
        32
    );
    record.data.length = 2;
    let outside = ffi::field_tracks(&[0x4F, 1, 0x20], record);
    assert_eq!((outside.answer, outside.set.positions), (6, 0));
    record.data.length = 1;
    record.name.start = 3;
    assert_eq!(ffi::field_tracks(&[0x4F, 1, 0x20], record).answer, 6);
    record.name.start = 0;
    assert_eq!(
        ffi::field_tracks(&[0x4E, 1, 0x20], record).answer,
        ffi::NOT_THIS
    );
}

#[test]
fn cut_strings_and_empty_ones() {
    let mut cut = commands(&[0x01, 0x44, 0x06, 0x01]);
    assert_eq!(cut.next(), Some(Ok(MmcCommand::Stop)));
    assert_eq!(cut.as_bytes(), [0x44, 0x06, 0x01]);
    assert_eq!(cut.next(), Some(Err(SysexError::Length)));
    assert_eq!((cut.next(), cut.as_bytes()), (None, &[][..]));
    assert_eq!(commands(&[0]).next(), Some(Err(SysexError::Length)));
    let unknown = MmcCommand::Other {
        name: &[0, 0, 0],
        data: &[],
    };
    assert_eq!(commands(&[0, 0, 0]).next(), Some(Ok(unknown)));
    assert_eq!(
        commands(&[0x44, 2, 0, 7]).next(),
        Some(Ok(MmcCommand::LocateField { register: 7 }))
    );
    assert_eq!(InfoFields::new(&[]).next(), None);
    assert_eq!(
        InfoFields::new(&[0x08]).next(),
        Some(Err(SysexError::Length))
    );
    assert_eq!(
        MmcMessage::from_universal(&parts(6, &[])),
        Err(SysexError::Length)
    );
    assert_eq!(MmcMessage::from_universal(&parts(8, &[1])), Ok(None));
    assert_eq!(
        format!("{:?}", InfoFields::new(&[1])),
        "InfoFields { bytes: [1] }"
    );
}

/// The crate's message from a kind and its own device is what the library reads from the whole header.
#[test]
fn messages_by_their_kind() {
    for n in 0..=0x7FFF_u32 {
        let [sub_id1, flags, ..] = n.to_le_bytes();
        let header = Universal {
            real_time: flags & 1 != 0,
            device_id: flags ^ 0x55,
            sub_id1,
            sub_id2: (flags & 2 != 0).then_some(sub_id1),
            data: if flags & 4 != 0 { &[1] } else { &[] },
        };
        let read = ffi::mmc_message_read(header.flat(), header.data);
        let expected = match (read.answer, read.responses) {
            (0, false) => "commands",
            (0, true) => "responses",
            (255, _) => "another kind",
            (number, _) => {
                assert_eq!(number, SysexError::Length.number());
                "refused"
            }
        };
        let (kind, device_id) = match MmcMessage::from_universal(&header) {
            Ok(Some(MmcMessage::Commands { device_id, .. })) => ("commands", device_id),
            Ok(Some(MmcMessage::Responses { device_id, .. })) => ("responses", device_id),
            Ok(None) => ("another kind", 0),
            Err(refusal) => {
                assert_eq!(refusal, SysexError::Length);
                ("refused", 0)
            }
        };
        assert_eq!((kind, device_id), (expected, read.device_id), "{header:?}");
    }
}

#[test]
fn short_buffers() {
    let list = [MmcCommand::LocateTarget(code(hour(), 0)), MmcCommand::Play];
    let whole = [0xF0, 0x7F, 0x7F, 6, 0x44, 6, 1, 0x21, 0, 0, 0, 0, 2, 0xF7];
    for room in 0..=16 {
        let mut out = [0xEE; 16];
        let answer = write_commands(&mut out[..room], 0x7F, &list);
        if room < 14 {
            assert_eq!(answer, Err(SysexError::BufferTooSmall { needed: 14 }));
        } else {
            assert_eq!(answer, Ok(14));
        }
        let kept = room.min(14);
        assert_eq!(out[..kept], whole[..kept]);
        assert!(out[kept..].iter().all(|&b| b == 0xEE));
    }
}

#[test]
fn refused_commands() {
    let write = |command| write_commands(&mut [0; 300], 0, &[command]);
    assert_eq!(
        write(MmcCommand::LocateField { register: 7 }),
        Err(SysexError::OutOfRange)
    );
    assert_eq!(
        write(MmcCommand::Move {
            destination: 0,
            source: 1
        }),
        Err(SysexError::OutOfRange)
    );
    assert_eq!(
        write(MmcCommand::Write(InfoFields::new(&[0x80]))),
        Err(SysexError::DataByte)
    );
    let mut out = [0xEE; 16];
    let late = MmcCommand::LocateTarget(code(hour(), 100));
    assert_eq!(
        write_commands(&mut out, 0x7F, &[late]),
        Err(SysexError::OutOfRange)
    );
    assert_eq!(out[..8], [0xF0, 0x7F, 0x7F, 6, 0x44, 6, 1, 0xEE]);
    assert_eq!(write_commands(&mut out, 0x80, &[]), Err(SysexError::Device));
    let stops = |n| write_commands(&mut [0; 400], 0, &vec![MmcCommand::Stop; n]);
    assert_eq!(stops(48), Ok(53));
    assert_eq!(stops(49), Err(SysexError::Length));
    assert_eq!(stops(0), Err(SysexError::Length));
    assert_eq!(stops(256), Err(SysexError::Length));
    assert_eq!(stops(257), Err(SysexError::ItemLimit));
}

#[test]
fn names_and_data_of_every_length() {
    let long = [0x11; 300];
    let zeros = [0; 300];
    for n in [0, 4, 5, 128, 300] {
        let name = &zeros[..n];
        let mut out = [0xEE; 300];
        let command = MmcCommand::Other { name, data: &long };
        assert_eq!(
            write_commands(&mut out, 0, &[command]),
            Err(SysexError::Length)
        );
        assert_eq!(out[..5], [0xF0, 0x7F, 0, 6, 0xEE]);
        let field = InfoField::Other { name, data: &[] };
        assert_eq!(
            write_info_fields(&mut out, &[field]),
            Err(SysexError::Length)
        );
    }
    for n in [0, 1, 46, 47, 127, 128, 129, 300] {
        let data = &long[..n];
        let mut out = [0xEE; 300];
        let command = MmcCommand::Other {
            name: &[0x50],
            data,
        };
        let answer = write_commands(&mut out, 0, &[command]);
        assert_eq!(
            answer,
            if n < 47 {
                Ok(n + 7)
            } else {
                Err(SysexError::Length)
            }
        );
        let field = InfoField::Other {
            name: &[0x50],
            data,
        };
        let mut out = [0xEE; 300];
        let answer = write_info_fields(&mut out, &[field]);
        if n < 128 {
            assert_eq!(answer, Ok(n + 2));
            assert_eq!(InfoFields::new(&out[..n + 2]).next(), Some(Ok(field)));
        } else {
            assert_eq!(answer, Err(SysexError::Length));
            assert_eq!(out[..2], [0x50, 0xEE]);
        }
    }
    // A name is checked before its bytes are, and its bytes before the data.
    let other = |name, data| write_commands(&mut [0; 20], 0, &[MmcCommand::Other { name, data }]);
    assert_eq!(other(&[0x80, 1], &[]), Err(SysexError::Length));
    assert_eq!(other(&[0x80], &[0x80]), Err(SysexError::DataByte));
    assert_eq!(other(&[1], &[0x80]), Err(SysexError::Length));
    assert_eq!(other(&[0x50], &[1, 0x80]), Err(SysexError::DataByte));
    let write = |n: usize| {
        write_commands(
            &mut [0; 400],
            0,
            &[MmcCommand::Write(InfoFields::new(&long[..n]))],
        )
    };
    assert_eq!(write(46), Ok(53));
    assert_eq!(write(47), Err(SysexError::Length));
    assert_eq!(write(300), Err(SysexError::Length));
}

#[test]
fn transport() {
    let idle = MtcGenerator::new(LABEL, Direction::Reverse);
    let mut g = idle;
    let locate = MmcCommand::LocateTarget(code(hour(), 0));
    assert_eq!(apply(&mut g, 6, 5, &locate), Ok(Outcome::NotMine));
    assert_eq!(apply(&mut g, 5, 128, &locate), Err(SysexError::Device));
    assert_eq!(apply(&mut g, 128, 5, &locate), Err(SysexError::Device));
    let blank = StandardTimeCode {
        blank: true,
        ..code(hour(), 0)
    };
    assert_eq!(
        apply(&mut g, 5, 5, &MmcCommand::LocateTarget(blank)),
        Err(SysexError::Target)
    );
    for command in [
        MmcCommand::FastForward,
        MmcCommand::Write(InfoFields::new(&[1, 2, 3])),
        MmcCommand::Other {
            name: &[0x7F],
            data: &[],
        },
    ] {
        assert_eq!(apply(&mut g, 5, 5, &command), Ok(Outcome::Done));
    }
    assert_eq!(g, idle);
    assert_eq!(apply(&mut g, 5, 5, &locate), Ok(Outcome::Done));
    assert_eq!((g.time(), g.next_byte()), (hour(), None));
    assert_eq!(apply(&mut g, 0x7F, 5, &MmcCommand::Play), Ok(Outcome::Done));
    assert_eq!(g, MtcGenerator::new(hour(), Direction::Forward));
}

#[test]
fn strings_obeyed() {
    let string = [
        0x44, 6, 1, 0x21, 0, 0x40, 0, 0, 0x44, 6, 1, 0x21, 0, 0, 0, 0, 2, 0x44, 6,
    ];
    let mut g = MtcGenerator::new(LABEL, Direction::Reverse);
    let run = obey(&mut g, 5, 5, &string);
    let cut = Run {
        commands: 3,
        refused: 1,
        stop: SysexError::Length,
    };
    assert_eq!(run, cut);
    assert_eq!(g, MtcGenerator::new(hour(), Direction::Forward));
    let nothing = Run {
        commands: 0,
        refused: 0,
        stop: SysexError::End,
    };
    assert_eq!(obey(&mut g, 5, 5, &[]), nothing);
    let before = g;
    assert_eq!(obey(&mut g, 6, 5, &[1]).stop, SysexError::End);
    assert_eq!(g, before);

    let mut reader = MtcReader::new();
    let mut sent = [0; 24];
    sent.fill_with(|| g.next_byte().unwrap());
    let fed = reader.feed(&sent);
    assert_eq!((fed.reports, fed.discontinuities), (3, 0));
    assert_eq!(fed.last.map(|s| s.raw), Some(hour().add_frames(4)));
}

/// A negative target, written, read back and obeyed, is counted back from midnight.
#[test]
fn negative_targets() {
    let minus = |time| StandardTimeCode {
        negative: true,
        ..code(time, 0)
    };
    let located = |target| {
        let mut out = [0; 14];
        let commands = [MmcCommand::LocateTarget(target), MmcCommand::Play];
        assert_eq!(write_commands(&mut out, 0x7F, &commands), Ok(14));
        let mut g = MtcGenerator::new(LABEL, Direction::Reverse);
        assert_eq!(obey(&mut g, 0x7F, 5, &out[4..13]).refused, 0);
        g.time()
    };
    for (rate, day) in RATES
        .into_iter()
        .zip([2_073_600, 2_160_000, 2_589_408, 2_592_000])
    {
        let second = label(0, 0, 1, 0, rate);
        assert_eq!(located(minus(second)), label(23, 59, 59, 0, rate));
        assert_eq!(located(code(second, 0)), second);
        for count in (0..day).step_by(997) {
            let there = located(minus(MtcTime::from_frame_count(count, rate)));
            assert_eq!(there, MtcTime::from_frame_count((day - count) % day, rate));
        }
    }
    // Labels are counted: 00:00:59;29 counts 1,799, and the last minute of the day has 1,798 labels.
    let minute = minus(label(0, 0, 59, 29, TimeCodeType::Fps30Drop));
    assert_eq!(
        located(minute),
        label(23, 58, 59, 29, TimeCodeType::Fps30Drop)
    );
    // 00:01:00;00, which drop-frame skips, is moved first. No writer takes it.
    let skipped = minus(label(0, 1, 0, 0, TimeCodeType::Fps30Drop));
    let mut g = MtcGenerator::new(LABEL, Direction::Reverse);
    let applied = apply(&mut g, 5, 5, &MmcCommand::LocateTarget(skipped));
    assert_eq!(applied, Ok(Outcome::Done));
    assert_eq!(g.time(), label(23, 58, 59, 28, TimeCodeType::Fps30Drop));
}

#[test]
fn parts_outside_are_empty() {
    let bytes = [1, 2, 3];
    let part = |start, length| ffi::Part { start, length }.of(&bytes);
    assert_eq!(part(1, 2), [2, 3]);
    assert_eq!(part(3, 0), []);
    assert_eq!(part(4, 0), []);
    assert_eq!(part(1, 3), []);
    assert_eq!(part(usize::MAX, usize::MAX), []);
}

/// Codes of good and bad labels, with subframes of every range, each mark and a status.
fn targets() -> Vec<StandardTimeCode> {
    let mut codes = Vec::new();
    for rate in RATES {
        for (minutes, seconds, frames) in
            [(0, 0, 0), (10, 0, 1), (11, 0, 1), (11, 0, 2), (59, 59, 24)]
        {
            for last in [0, 99, 100, 255] {
                codes.push(code(label(23, minutes, seconds, frames, rate), last));
            }
        }
        codes.push(code(label(40, 70, 70, 40, rate), 0));
        codes.push(code(label(255, 255, 255, 255, rate), 0));
    }
    let plain = code(hour(), 7);
    codes.push(StandardTimeCode {
        color_frame: true,
        ..plain
    });
    codes.push(StandardTimeCode {
        blank: true,
        ..plain
    });
    codes.push(StandardTimeCode {
        negative: true,
        ..plain
    });
    codes.push(StandardTimeCode {
        final_byte: FinalByte::Status(TimeCodeStatus::default()),
        ..plain
    });
    codes
}

/// What a writing answers, and the buffer that it leaves.
fn left(
    room: usize,
    write: impl Fn(&mut [u8]) -> Result<usize, SysexError>,
) -> (Result<usize, SysexError>, Vec<u8>) {
    let mut out = vec![0xAA; room];
    (write(&mut out), out)
}

/// A message written by the records of its commands, which have no parts.
fn write_by_records(
    out: &mut [u8],
    device_id: u8,
    commands: &[MmcCommand<'_>],
) -> Result<usize, SysexError> {
    let mut writer = ffi::open_commands(out, device_id);
    for command in commands {
        writer = ffi::put_command(writer, out, &[], command.flat());
    }
    written(ffi::close_message(writer, out))
}

#[test]
fn commands_in_one_call_are_the_calls_one_by_one() {
    let mut lists: Vec<Vec<MmcCommand<'_>>> = (0..=50).map(|n| vec![MmcCommand::Stop; n]).collect();
    for code in targets() {
        let locate = MmcCommand::LocateTarget(code);
        lists.push(vec![locate.clone(), MmcCommand::Play]);
        lists.push(vec![MmcCommand::Pause, MmcCommand::Reset, locate]);
    }
    for register in [0, 1, 7, 8, 15, 16, 31, 32, 127, 128, 255] {
        lists.push(vec![MmcCommand::LocateField { register }, MmcCommand::Play]);
        for source in [0, 1, 31, 32, 255] {
            let destination = register;
            lists.push(vec![MmcCommand::Move {
                destination,
                source,
            }]);
        }
    }
    for list in &lists {
        for device in [0, 0x7F, 0x80] {
            for room in (0..20).chain([52, 53, 64]) {
                let whole = left(room, |out| write_commands(out, device, list));
                let single = left(room, |out| write_one_by_one(out, device, list));
                let records = left(room, |out| write_by_records(out, device, list));
                assert_eq!(whole, single, "{list:?} for {device} into {room}");
                assert_eq!(whole, records, "{list:?} for {device} into {room}");
            }
        }
    }
}

#[test]
fn a_number_that_is_no_word_is_refused() {
    let locate = MmcCommand::LocateTarget(code(hour(), 0)).word();
    let numbers = [
        9,
        13,
        14,
        137,
        255,
        256,
        0x1_0001,
        0x1_080A,
        0x101_080C,
        locate | 1 << 50,
        locate | 1 << 60,
        u64::MAX,
    ];
    for number in numbers {
        let mut out = [0xAA; 20];
        let answer = words::write_words(&mut out, 0x7F, [1, number, 1].into_iter());
        if number == words::NO_WORD {
            assert_eq!(answer, None);
            continue;
        }
        let answer = answer.unwrap();
        assert_eq!((answer.refusal, answer.length), (3, 0), "{number:#x}");
        assert_eq!(out[..6], [0xF0, 0x7F, 0x7F, 6, 2, 0xAA], "{number:#x}");
        assert!(out[5..].iter().all(|&b| b == 0xAA), "{number:#x}");
    }
}

#[test]
fn what_is_written_reads_back_as_the_same_word() {
    let mut list: Vec<MmcCommand<'_>> = targets()
        .into_iter()
        .map(MmcCommand::LocateTarget)
        .collect();
    list.extend([MmcCommand::Stop, MmcCommand::Reset]);
    list.extend((0..=255).map(|register| MmcCommand::LocateField { register }));
    list.push(MmcCommand::Move {
        destination: 8,
        source: 1,
    });
    let mut out = [0; 20];
    for command in &list {
        let Ok(n) = write_commands(&mut out, 0, core::slice::from_ref(command)) else {
            continue;
        };
        let read = words::next_word(&out[4..n - 1], 0).next;
        let blank = matches!(command, MmcCommand::LocateTarget(code) if code.blank);
        // A blank label goes out as zeros.
        let kept = if blank { !0 ^ 0xFFFF_FFFF << 8 } else { !0 };
        assert_eq!(read.word & kept, command.word() & kept, "{command:?}");
    }
}
