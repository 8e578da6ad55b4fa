//! Labels and quarter frames.

use crate::Sample;
use compare::plain::Time;
use compare::rng::Rng;
use compare::side_old::calls::{label, quarter};

/// Frames to a day by rate.
const DAYS: [u32; 4] = [2_073_600, 2_160_000, 2_589_408, 2_592_000];

/// Distances at the limits.
const DISTANCES: [i32; 14] = [
    i32::MIN,
    i32::MIN + 1,
    -2_589_408,
    -1_798,
    -30,
    -2,
    -1,
    0,
    1,
    2,
    24,
    17_982,
    i32::MAX - 1,
    i32::MAX,
];

/// Labels at the limits, with every rate.
pub fn edges() -> Vec<Time> {
    let counts = [
        [0, 0, 0, 0],
        [0, 0, 59, 23],
        [0, 0, 59, 24],
        [0, 0, 59, 28],
        [0, 0, 59, 29],
        [0, 1, 0, 0],
        [0, 1, 0, 1],
        [0, 1, 0, 2],
        [0, 9, 59, 29],
        [0, 10, 0, 0],
        [1, 0, 0, 0],
        [1, 37, 52, 16],
        [23, 59, 0, 1],
        [23, 59, 59, 23],
        [23, 59, 59, 24],
        [23, 59, 59, 29],
        [23, 59, 59, 30],
        [24, 0, 0, 0],
        [0, 60, 0, 0],
        [0, 0, 60, 0],
        [31, 61, 0, 0],
        [31, 63, 63, 31],
        [40, 70, 70, 40],
        [255, 255, 255, 255],
    ];
    let rates = |[h, m, s, f]: [u8; 4]| (0..4).map(move |r| [h, m, s, f, r]);
    counts.into_iter().flat_map(rates).collect()
}

/// Adds the calls on labels.
pub fn add(sample: &mut Sample) {
    let mut rng = Rng::new(1);
    let mut times = edges();
    times.extend((0..50).map(|_| rng.any_label()));
    for &t in &times {
        let (refusal, _) = label::new(t);
        sample.case(0x01, &t, &[refusal, label::is_valid(t) as u8]);
        sample.case(0x02, &t, &label::next_valid(t));
        sample.case(0x03, &t, &label::to_frame_count(t).to_be_bytes());
        sample.case(0x12, &t, &quarter::pieces(t));
    }
    counts(sample, &mut rng);
    moves(sample, &mut rng);
    bytes(sample, &mut rng);
}

fn counts(sample: &mut Sample, rng: &mut Rng) {
    let minutes = [
        1_797, 1_798, 1_799, 1_800, 1_801, 3_595, 3_596, 17_981, 17_982, 17_983,
    ];
    for rate in 0..4u8 {
        let day = DAYS[rate as usize];
        let ends = [0, 1, day - 1, day, day + 1, 2 * day, u32::MAX - 1, u32::MAX];
        let random = [
            rng.number() as u32,
            rng.number() as u32 % day,
            rng.number() as u32 % day,
        ];
        let many = (0..12)
            .map(|_| rng.number() as u32 % day)
            .collect::<Vec<_>>();
        for count in ends.iter().chain(&minutes).chain(&random).chain(&many) {
            let mut input = count.to_be_bytes().to_vec();
            input.push(rate);
            sample.case(0x04, &input, &label::from_frame_count(*count, rate));
        }
    }
}

fn moves(sample: &mut Sample, rng: &mut Rng) {
    for (i, t) in edges().into_iter().enumerate() {
        for d in [[1, -1, 2, -2][i / 4 % 4], DISTANCES[i % DISTANCES.len()]] {
            a_move(sample, t, d);
        }
    }
    for d in DISTANCES {
        for rate in 0..4 {
            a_move(sample, [0, 0, 0, 0, rate], d);
            a_move(sample, [23, 59, 59, 23, rate], d);
        }
    }
    for _ in 0..100 {
        let wide = rng.number() as i32;
        let d = rng.pick(&[wide, wide >> 8, wide >> 20, wide >> 27]);
        a_move(sample, rng.any_label(), d);
    }
}

fn a_move(sample: &mut Sample, t: Time, delta: i32) {
    let input = [&t[..], &delta.to_be_bytes()].concat();
    sample.case(0x05, &input, &label::add_frames(t, delta));
}

fn bytes(sample: &mut Sample, rng: &mut Rng) {
    for rate in 0..4 {
        sample.case(0x06, &[rate], &[label::frames_per_second(rate)]);
    }
    for byte in 0..128 {
        sample.case(0x10, &[byte], &quarter::from_byte(byte));
    }
    for piece in [0, 1, 6, 7, 8, 255] {
        for value in [0, 1, 15, 16, 255] {
            sample.case(0x11, &[piece, value], &[quarter::to_byte(piece, value)]);
        }
    }
    for _ in 0..50 {
        let (piece, value) = (rng.below(8) as u8, rng.byte());
        sample.case(0x11, &[piece, value], &[quarter::to_byte(piece, value)]);
    }
}
