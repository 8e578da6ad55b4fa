//! Stands for `zmidi_ump`: the `ManufacturerId` that universal.rs names. Only whole-message parsing
//! and `write_manufacturer` use it, and neither is compared.

/// A Manufacturer ID of one byte, or of three with a leading 00H.
#[derive(Debug, Clone, Copy, PartialEq, Eq, Hash)]
pub struct ManufacturerId(u16);

impl ManufacturerId {
    /// The ID of one or three MIDI bytes.
    #[allow(clippy::result_unit_err)]
    pub fn from_midi1(bytes: &[u8]) -> Result<Self, ()> {
        match *bytes {
            [b] => Ok(Self(b as u16)),
            [0, b, c] => Ok(Self(0x8000 | (b as u16) << 8 | c as u16)),
            _ => Err(()),
        }
    }

    /// The 16-bit value.
    pub fn value(self) -> u16 {
        self.0
    }

    /// True for an ID of three bytes.
    pub fn is_three_byte(self) -> bool {
        self.0 & 0x8000 != 0
    }

    /// The bytes, the first alone where the ID has one.
    pub fn to_midi1(self) -> [u8; 3] {
        if self.is_three_byte() {
            [0, (self.0 >> 8) as u8 & 0x7F, self.0 as u8 & 0x7F]
        } else {
            [self.0 as u8, 0, 0]
        }
    }
}
