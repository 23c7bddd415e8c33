//! Interleaved rounds, and the table of their medians.

use std::hint::black_box;
use std::time::Instant;

use super::plain;

/// What is lent to a call; what it does not take is empty.
#[derive(Default)]
pub struct Lent {
    pub text: Vec<u8>,
    pub book: Vec<u8>,
    pub places: Vec<u32>,
    pub out: Vec<u8>,
}

impl Lent {
    pub fn of_text(text: &[u8]) -> Self {
        Lent {
            text: text.to_vec(),
            ..Lent::default()
        }
    }

    pub fn of_book(book: &[u8]) -> Self {
        Lent {
            book: book.to_vec(),
            ..Lent::default()
        }
    }

    /// Becomes a copy of this, in the memory that it has.
    fn copy(&mut self, from: &Lent) {
        self.text.clone_from(&from.text);
        self.book.clone_from(&from.book);
        self.places.clone_from(&from.places);
        self.out.clone_from(&from.out);
    }
}

/// A refusal's number and place; none where the call was accepted.
type Told = Option<(u8, usize)>;

/// Medians in microseconds.
struct Row {
    name: String,
    core: f64,
    plain: f64,
    /// The checks of a book alone, in the same rounds.
    checks: f64,
    /// Half of the way between the core's quartiles, in parts of the median.
    noise: f64,
}

pub struct Table<'a> {
    rounds: usize,
    /// The book whose checks are added up once in every round.
    book: &'a [u8],
    add_up: fn(&[u8]) -> bool,
    rows: Vec<Row>,
}

impl<'a> Table<'a> {
    pub fn new(rounds: usize, book: &'a [u8], add_up: fn(&[u8]) -> bool) -> Self {
        Table {
            rounds: rounds.max(1),
            book,
            add_up,
            rows: Vec::new(),
        }
    }

    fn time_checks(&self) -> f64 {
        let (time, right) = timed(|| (self.add_up)(black_box(self.book)));
        assert!(right);
        time
    }

    /// Measures the same work by both and keeps the row. The rounds go over the
    /// inputs by turns; each side is handed a fresh copy, which is not timed,
    /// and must accept.
    pub fn add<A, B>(
        &mut self,
        name: &str,
        inputs: &[Lent],
        by_core: impl Fn(&mut Lent) -> Result<A, hollgrimsa::Refusal>,
        by_plain: impl Fn(&mut Lent) -> Result<B, plain::Refusal>,
    ) {
        self.add_answered(name, None, inputs, by_core, by_plain);
    }

    /// The same, where both refuse every input with this number, if one is
    /// given, and at the same place.
    pub fn add_answered<A, B>(
        &mut self,
        name: &str,
        number: Option<u8>,
        inputs: &[Lent],
        by_core: impl Fn(&mut Lent) -> Result<A, hollgrimsa::Refusal>,
        by_plain: impl Fn(&mut Lent) -> Result<B, plain::Refusal>,
    ) {
        let core = |lent: &mut Lent| {
            let (time, answer) = timed(|| by_core(black_box(lent)));
            (time, answer.err().map(|r| (r.reason.number(), r.place)))
        };
        let plain = |lent: &mut Lent| {
            let (time, answer) = timed(|| by_plain(black_box(lent)));
            (time, answer.err().map(|r| (r.number, r.place)))
        };
        let (mut times, mut checks) = ([Vec::new(), Vec::new()], Vec::new());
        let mut lent = Lent::default();
        for round in 0..self.rounds {
            checks.push(self.time_checks());
            let (turn, index) = (round / inputs.len(), round % inputs.len());
            // Each goes first in every other round, and by turns with an input.
            let first = (turn + index) % 2;
            let mut told: [Told; 2] = [None; 2];
            for side in [first, 1 - first] {
                lent.copy(&inputs[index]);
                let answer = if side == 0 {
                    core(&mut lent)
                } else {
                    plain(&mut lent)
                };
                times[side].push(answer.0);
                told[side] = answer.1;
            }
            assert_eq!(told[0], told[1], "{name}");
            assert_eq!(told[0].map(|(number, _)| number), number, "{name}");
        }
        self.keep(name, times, checks);
    }

    fn keep(&mut self, name: &str, [core, plain]: [Vec<f64>; 2], checks: Vec<f64>) {
        let [low, core, high] = quartiles(core);
        self.rows.push(Row {
            name: name.to_string(),
            core,
            plain: quartiles(plain)[1],
            checks: quartiles(checks)[1],
            noise: (high - low) / 2.0 / core,
        });
    }

    pub fn print(&self) {
        println!("Medians of {} rounds, in microseconds.\n", self.rounds);
        println!("| work | core | plain | ratio | checks alone | core to checks | noise |");
        println!("|---|---:|---:|---:|---:|---:|---:|");
        for row in &self.rows {
            row.print();
        }
    }
}

impl Row {
    fn print(&self) {
        let Row {
            name,
            core,
            plain,
            checks,
            noise,
        } = self;
        let (ratio, to_checks, noise) = (core / plain, core / checks, 100.0 * noise);
        print!("| {name} | {core:.2} | {plain:.2} | {ratio:.2} ");
        println!("| {checks:.2} | {to_checks:.2} | {noise:.0} % |");
    }
}

/// The microseconds that this takes.
fn timed<T>(work: impl FnOnce() -> T) -> (f64, T) {
    let start = Instant::now();
    let answer = black_box(work());
    (start.elapsed().as_secs_f64() * 1e6, answer)
}

fn quartiles(mut times: Vec<f64>) -> [f64; 3] {
    times.sort_by(f64::total_cmp);
    [1, 2, 3].map(|quarter| times[(times.len() - 1) * quarter / 4])
}
