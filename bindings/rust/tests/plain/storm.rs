//! The MND block and the storm identifier of its office line.

use std::fmt;

use super::lines::{self, Line, Lines};
use super::refusal::{self, Refusal};

#[derive(Clone, Copy, Debug, PartialEq, Eq)]
pub enum Basin {
    Al,
    Sl,
    Ep,
    Cp,
    Wp,
}

#[derive(Clone, Copy, Debug, PartialEq, Eq)]
pub enum Class {
    Cyclone,
    Internal,
    Training,
    Disturbance,
}

#[derive(Clone, Copy, Debug, PartialEq, Eq)]
pub struct Storm {
    pub basin: Basin,
    pub number: u8,
    pub class: Class,
    pub year: u16,
}

impl Storm {
    /// Two capitals and six digits; refused with another basin or number 00.
    fn parse(identifier: &[u8]) -> Option<Self> {
        let basin = match &identifier[..2] {
            b"AL" => Basin::Al,
            b"SL" => Basin::Sl,
            b"EP" => Basin::Ep,
            b"CP" => Basin::Cp,
            b"WP" => Basin::Wp,
            _ => return None,
        };
        let number = lines::number(&identifier[2..4])? as u8;
        let class = match number {
            1..=49 => Class::Cyclone,
            50..=79 => Class::Internal,
            80..=89 => Class::Training,
            90..=99 => Class::Disturbance,
            _ => return None,
        };
        let year = lines::number(&identifier[4..])? as u16;
        Some(Storm {
            basin,
            number,
            class,
            year,
        })
    }
}

impl fmt::Display for Storm {
    fn fmt(&self, f: &mut fmt::Formatter<'_>) -> fmt::Result {
        let basin = match self.basin {
            Basin::Al => "AL",
            Basin::Sl => "SL",
            Basin::Ep => "EP",
            Basin::Cp => "CP",
            Basin::Wp => "WP",
        };
        write!(f, "{basin}{:02}{:04}", self.number, self.year)
    }
}

/// What the MND block says, and where the text goes on after the line that
/// closes it.
pub struct Mnd {
    pub storm: Option<Storm>,
    pub past: usize,
}

impl Mnd {
    /// Reads the MND block out of the lines that follow line 2.
    pub fn read(mut lines: Lines<'_>) -> Result<Self, Refusal> {
        lines.find(Line::is_blank);
        let mut office = None;
        for line in &mut lines {
            if line.is_blank() || line.is_end_of_segment() {
                break;
            }
            if office.is_none() && is_office_line(&line) {
                office = Some(line);
            }
        }
        let storm = office.map_or(Ok(None), |line| storm_of(&line))?;
        Ok(Mnd {
            storm,
            past: lines.at(),
        })
    }
}

fn is_office_line(line: &Line<'_>) -> bool {
    line.content.starts_with(b"NATIONAL WEATHER SERVICE ") || line.content.starts_with(b"NWS ")
}

/// The storm at the end of the office line, if one is named there.
fn storm_of(line: &Line<'_>) -> Result<Option<Storm>, Refusal> {
    let Some((before, identifier)) = line.content.split_last_chunk::<8>() else {
        return Ok(None);
    };
    let named = before.last() == Some(&b' ')
        && lines::are_capitals(&identifier[..2])
        && lines::are_digits(&identifier[2..]);
    if !named {
        return Ok(None);
    }
    let place = line.start + before.len();
    Storm::parse(identifier)
        .map(Some)
        .ok_or(Refusal::at(refusal::STORM, place))
}
