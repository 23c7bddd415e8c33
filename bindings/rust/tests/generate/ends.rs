//! Line ends.

use super::Rng;

/// LF, CR LF and CR CR LF.
pub const LINE_ENDS: [&str; 3] = ["\n", "\r\n", "\r\r\n"];

/// Which line ends a text has.
#[derive(Clone, Copy)]
pub enum Ends {
    All(&'static str),
    Mixed,
}

impl Ends {
    pub fn any(rng: &mut Rng) -> Self {
        match rng.below(4) {
            3 => Ends::Mixed,
            kind => Ends::All(LINE_ENDS[kind]),
        }
    }

    /// The end of one line.
    pub fn pick(self, rng: &mut Rng) -> &'static str {
        match self {
            Ends::All(end) => end,
            Ends::Mixed => rng.pick(&LINE_ENDS),
        }
    }

    pub fn push(self, rng: &mut Rng, out: &mut Vec<u8>) {
        out.extend(self.pick(rng).bytes());
    }
}

/// Each line as its bytes and its end.
pub fn lines_of(bytes: &[u8]) -> impl Iterator<Item = (&[u8], &[u8])> {
    let lines = bytes.split_inclusive(|&byte| byte == b'\n');
    lines.map(|line| {
        let end = line.iter().position(|byte| b"\r\n".contains(byte));
        line.split_at(end.unwrap_or(line.len()))
    })
}

/// Do all these lines end so?
pub fn all_end(bytes: &[u8], right: &[u8]) -> bool {
    lines_of(bytes).all(|(_, end)| end == right)
}
