//! Both sides at work on one book.

use super::{Call, Core, Guarded, Plain, Tally, Text, Told};
use crate::replay::Answer;

/// The same book, worked on by both sides.
#[derive(Clone)]
pub struct Pair {
    core: Guarded,
    plain: Guarded,
}

impl Pair {
    pub fn new(book: &[u8]) -> Self {
        Pair {
            core: Guarded::new(book),
            plain: Guarded::new(book),
        }
    }

    /// The book's bytes, which are the same on both sides.
    pub fn book(&self) -> &[u8] {
        self.core.lent()
    }

    /// Makes the call on both books and compares all there is.
    pub fn perform(&mut self, call: Call<'_>, room: usize, tally: &mut Tally) -> Told {
        self.perform_seen(call, room, tally).0
    }

    /// The same, with the output afterwards.
    pub fn perform_seen(
        &mut self,
        call: Call<'_>,
        room: usize,
        tally: &mut Tally,
    ) -> (Told, Vec<u8>) {
        let before = self.core.clone();
        let untouched = Guarded::filled(room, 0x5A);
        let (mut written, mut right_written) = (untouched.clone(), untouched.clone());
        let told = call.on(&Core, self.core.lent_mut(), written.lent_mut());
        let right = call.on(&Plain, self.plain.lent_mut(), right_written.lent_mut());
        tally.note(&told);
        assert_eq!(told, right, "{call:?}, output {room}");
        assert!(self.core == self.plain, "{call:?}: {}", self.difference());
        assert_eq!(written, right_written, "{call:?}, output {room}");
        if told.is_err() {
            assert!(
                self.core == before,
                "{call:?} is refused and changes a byte"
            );
            assert_eq!(written, untouched, "{call:?} is refused and writes");
        }
        (told, written.lent().to_vec())
    }

    /// Writes the edited bulletin of this text; answers its bytes.
    pub fn write_edited(&mut self, text: &[u8], room: usize, tally: &mut Tally) -> Answer<Vec<u8>> {
        let kept = text.to_vec();
        let (told, mut output) = self.perform_seen(Call::WriteEdited(Text(text)), room, tally);
        assert_eq!(text, kept, "the text was written to");
        let (length, _) = told?;
        let behind = output.split_off(length);
        assert!(behind.iter().all(|&byte| byte == 0x5A), "later bytes stay");
        Ok(output)
    }

    /// Where the two books differ first.
    fn difference(&self) -> String {
        let bytes = self.core.lent().iter().zip(self.plain.lent());
        match bytes.enumerate().find(|(_, (core, plain))| core != plain) {
            Some((at, (core, plain))) => {
                let (block, within) = (at / 512, at % 512);
                format!("byte {within} of block {block} is {core}, not {plain}")
            }
            None => "the guard differs".to_string(),
        }
    }
}
