//! Messages: device test, headers, full messages, user bits, machine control.

use crate::labels::edges;
use crate::written::{lengths, put_written};
use crate::Sample;
use compare::plain::Header;
use compare::rng::Rng;
use compare::side_old::calls::message;

/// Headers of the families in use and beside them.
fn headers() -> Vec<Header> {
    let mut out = Vec::new();
    for real_time in [true, false] {
        for sub_id1 in [0, 1, 2, 3, 4, 5, 6, 7, 8, 9, 10, 127, 128] {
            for sub_id2 in [None, Some(1), Some(2)] {
                out.push(Header {
                    real_time,
                    device: 0x7F,
                    sub_id1,
                    sub_id2,
                });
            }
        }
    }
    out
}

fn header(sub_id1: u8, sub_id2: Option<u8>, device: u8) -> Header {
    Header {
        real_time: true,
        device,
        sub_id1,
        sub_id2,
    }
}

/// Adds the calls on messages.
pub fn add(sample: &mut Sample) {
    let mut rng = Rng::new(3);
    families(sample);
    universal_writes(sample, &mut rng);
    reads(sample, &mut rng);
    full_message_writes(sample, &mut rng);
    user_bits_writes(sample, &mut rng);
}

fn families(sample: &mut Sample) {
    for device in [0, 1, 16, 126, 127, 128, 255] {
        for own in [0, 1, 16, 126, 127, 128, 255] {
            let answer = message::addressed(device, own) as u8;
            sample.case(0x40, &[device, own], &[answer]);
        }
    }
    for real_time in [true, false] {
        for sub_id1 in (0..20).chain([63, 64, 123, 127, 128, 132, 255]) {
            let answer = message::has_sub_id2(real_time, sub_id1) as u8;
            sample.case(0x41, &[real_time as u8, sub_id1], &[answer]);
        }
    }
}

fn universal_write(sample: &mut Sample, h: &Header, data: &[u8], length: usize) {
    let mut buffer = vec![0xA5; length];
    let answer = message::write(h, data, &mut buffer);
    let mut input = h.bytes().to_vec();
    input.push(0xA5);
    input.extend_from_slice(&(length as u16).to_be_bytes());
    input.extend_from_slice(data);
    let mut out = Vec::new();
    put_written(&answer, &buffer, &mut out);
    sample.case(0x42, &input, &out);
}

fn universal_writes(sample: &mut Sample, rng: &mut Rng) {
    for h in headers() {
        universal_write(sample, &h, &[0, 0x7F], 10);
    }
    for data in [&[][..], &[1], &[0x80], &[1, 2, 3, 0xFF], &[5; 60]] {
        for h in [
            header(6, None, 0),
            header(1, Some(1), 0x7F),
            header(1, Some(0x80), 3),
        ] {
            for length in lengths(data.len() + 5 + h.sub_id2.is_some() as usize) {
                universal_write(sample, &h, data, length);
            }
        }
    }
    for _ in 0..40 {
        let mut h = rng.pick(&headers());
        h.device = rng.below(128) as u8;
        let (n, length) = (rng.below(12), rng.below(20));
        let data = rng.bytes(n, 130);
        universal_write(sample, &h, &data, length);
    }
}

fn read(sample: &mut Sample, h: &Header, data: &[u8]) {
    let input = [&h.bytes()[..], data].concat();
    let (answer, device, t) = message::full_message(h, data);
    sample.case(0x43, &input, &[&[answer, device][..], &t].concat());
    let (answer, device, groups, flags) = message::user_bits(h, data);
    let out = [&[answer, device][..], &groups, &[flags]].concat();
    sample.case(0x45, &input, &out);
    let (answer, responses, device) = message::machine_control(h, data);
    sample.case(0x48, &input, &[answer, responses as u8, device]);
}

fn reads(sample: &mut Sample, rng: &mut Rng) {
    for h in headers().iter().filter(|h| h.sub_id1 < 9) {
        read(sample, h, &[0x21, 0, 0, 0]);
    }
    for n in 0..11 {
        for sub_id2 in [Some(1), Some(2)] {
            read(sample, &header(1, sub_id2, 5), &[0xFF; 11][..n]);
        }
        read(sample, &header(6, None, 5), &[1; 11][..n]);
        read(sample, &header(7, Some(1), 0x7F), &[1; 11][..n]);
    }
    for _ in 0..25 {
        let device = rng.byte();
        let (four, nine) = (rng.bytes(4, 256), rng.bytes(9, 256));
        read(sample, &header(1, Some(1), device), &four);
        read(sample, &header(1, Some(2), device), &nine);
    }
}

fn full_message_writes(sample: &mut Sample, rng: &mut Rng) {
    let labels = edges().into_iter().step_by(2);
    let mut cases: Vec<_> = labels.map(|t| (0x7F, t, 10)).collect();
    for length in 0..13 {
        cases.push((3, [1, 37, 52, 16, 3], length));
    }
    for _ in 0..40 {
        cases.push((rng.below(128) as u8, rng.any_label(), rng.below(13)));
    }
    for (device, t, length) in cases {
        let mut buffer = vec![0x5A; length];
        let answer = message::write_full_message(device, t, &mut buffer);
        let input = [&[device][..], &t, &[0x5A, 0, length as u8]].concat();
        let mut out = Vec::new();
        put_written(&answer, &buffer, &mut out);
        sample.case(0x44, &input, &out);
    }
}

fn user_bits_writes(sample: &mut Sample, rng: &mut Rng) {
    let mut cases = vec![];
    for length in 0..18 {
        cases.push((0x7F, [1, 2, 3, 4, 5, 6, 7, 8], 3, length));
    }
    for place in 0..8 {
        let mut groups = [15; 8];
        groups[place] = 16;
        cases.push((0, groups, 0, 15));
    }
    for flags in [0, 1, 2, 4, 255] {
        cases.push((126, [0; 8], flags, 15));
    }
    for _ in 0..40 {
        let limit = rng.pick(&[16, 16, 17, 256]);
        let groups = rng.bytes(8, limit).try_into().expect("eight bytes");
        cases.push((
            rng.below(128) as u8,
            groups,
            rng.below(5) as u8,
            rng.below(18),
        ));
    }
    for (device, groups, flags, length) in cases {
        let mut buffer = vec![0x5A; length];
        let answer = message::write_user_bits(device, groups, flags, &mut buffer);
        let bits = [&[device][..], &groups, &[flags]].concat();
        let input = [&bits[..], &[0x5A, 0, length as u8]].concat();
        let mut out = Vec::new();
        put_written(&answer, &buffer, &mut out);
        sample.case(0x46, &input, &out);
        sample.case(0x47, &bits, &message::user_bytes(device, groups, flags));
    }
}
