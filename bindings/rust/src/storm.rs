//! Storm identifiers.

use std::fmt;

/// The basin of a storm.
#[derive(Clone, Copy, Debug, PartialEq, Eq, Hash)]
pub enum Basin {
    /// `AL`
    Al,
    /// `SL`
    Sl,
    /// `EP`
    Ep,
    /// `CP`
    Cp,
    /// `WP`
    Wp,
}

impl Basin {
    /// Its two letters.
    pub const fn letters(self) -> &'static str {
        match self {
            Basin::Al => "AL",
            Basin::Sl => "SL",
            Basin::Ep => "EP",
            Basin::Cp => "CP",
            Basin::Wp => "WP",
        }
    }

    fn packed(byte: u8) -> Option<Self> {
        Some(match byte {
            1 => Basin::Al,
            2 => Basin::Sl,
            3 => Basin::Ep,
            4 => Basin::Cp,
            5 => Basin::Wp,
            _ => return None,
        })
    }
}

/// The class that a storm's number tells.
#[derive(Clone, Copy, Debug, PartialEq, Eq, Hash)]
pub enum Class {
    /// 01 to 49
    Cyclone,
    /// 50 to 79
    Internal,
    /// 80 to 89
    Training,
    /// 90 to 99
    Disturbance,
}

impl Class {
    fn packed(byte: u8) -> Option<Self> {
        Some(match byte {
            1 => Class::Cyclone,
            2 => Class::Internal,
            3 => Class::Training,
            4 => Class::Disturbance,
            _ => return None,
        })
    }
}

/// The storm of a bulletin's office line. It is shown as it stands there.
#[derive(Clone, Copy, Debug, PartialEq, Eq, Hash)]
pub struct Storm {
    /// Its basin.
    pub basin: Basin,
    /// Its number in the basin, 1 to 99.
    pub number: u8,
    /// The class of its number.
    pub class: Class,
    /// Its four digits of year.
    pub year: u16,
}

impl Storm {
    /// From low to high: basin, class and number, a byte each, then the year.
    pub(crate) fn packed(value: u64) -> Option<Self> {
        let [basin, class, number, low, high, ..] = value.to_le_bytes();
        Some(Storm {
            basin: Basin::packed(basin)?,
            number,
            class: Class::packed(class)?,
            year: u16::from_le_bytes([low, high]),
        })
    }
}

impl fmt::Display for Storm {
    fn fmt(&self, f: &mut fmt::Formatter<'_>) -> fmt::Result {
        let letters = self.basin.letters();
        write!(f, "{letters}{:02}{:04}", self.number, self.year)
    }
}
