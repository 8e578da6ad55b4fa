//! Messages: the header, full messages, user bits, machine control.

use super::label::{bytes, time};
use super::lib::mmc::MmcMessage;
use super::lib::mtc::{FullMessage, UserBits};
use super::lib::universal::{self, SysexError, Universal};
use super::{refusal, written};
use crate::plain::{Header, Time, Written};

/// The message of a header and its data.
pub fn universal<'a>(h: &Header, data: &'a [u8]) -> Universal<'a> {
    Universal {
        real_time: h.real_time,
        device_id: h.device,
        sub_id1: h.sub_id1,
        sub_id2: h.sub_id2,
        data,
    }
}

/// Answer 0 with a message, FFH for another kind, or the refusal.
fn answer<T>(read: &Result<Option<T>, SysexError>) -> u8 {
    match read {
        Ok(Some(_)) => 0,
        Ok(None) => 0xFF,
        Err(e) => refusal(*e).0,
    }
}

/// `addressed`.
pub fn addressed(device: u8, own: u8) -> bool {
    universal::addressed(device, own)
}

/// `has_sub_id2`.
pub fn has_sub_id2(real_time: bool, sub_id1: u8) -> bool {
    universal::has_sub_id2(real_time, sub_id1)
}

/// `Universal::write`.
pub fn write(h: &Header, data: &[u8], out: &mut [u8]) -> Written {
    written(universal(h, data).write(out))
}

/// `FullMessage::from_universal`: answer, device, label.
pub fn full_message(h: &Header, data: &[u8]) -> (u8, u8, Time) {
    let read = FullMessage::from_universal(&universal(h, data));
    match &read {
        Ok(Some(m)) => (0, m.device_id, bytes(m.time)),
        _ => (answer(&read), 0, [0; 5]),
    }
}

/// `FullMessage::write`.
pub fn write_full_message(device: u8, t: Time, out: &mut [u8]) -> Written {
    let message = FullMessage {
        device_id: device,
        time: time(t),
    };
    written(message.write(out))
}

/// `UserBits::from_universal`: answer, device, groups, flags.
pub fn user_bits(h: &Header, data: &[u8]) -> (u8, u8, [u8; 8], u8) {
    let read = UserBits::from_universal(&universal(h, data));
    match &read {
        Ok(Some(m)) => (0, m.device_id, m.groups, m.flags),
        _ => (answer(&read), 0, [0; 8], 0),
    }
}

fn bits(device: u8, groups: [u8; 8], flags: u8) -> UserBits {
    UserBits {
        device_id: device,
        groups,
        flags,
    }
}

/// `UserBits::write`.
pub fn write_user_bits(device: u8, groups: [u8; 8], flags: u8, out: &mut [u8]) -> Written {
    written(bits(device, groups, flags).write(out))
}

/// `UserBits::to_bytes`.
pub fn user_bytes(device: u8, groups: [u8; 8], flags: u8) -> [u8; 4] {
    bits(device, groups, flags).to_bytes()
}

/// `MmcMessage::from_universal`: answer, responses, device.
pub fn machine_control(h: &Header, data: &[u8]) -> (u8, bool, u8) {
    let read = MmcMessage::from_universal(&universal(h, data));
    match &read {
        Ok(Some(MmcMessage::Commands { device_id, .. })) => (0, false, *device_id),
        Ok(Some(MmcMessage::Responses { device_id, .. })) => (0, true, *device_id),
        _ => (answer(&read), false, 0),
    }
}
