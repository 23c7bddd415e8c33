//! Texts of one kind and of about one size, each with other numbers: of a text
//! that is read again and again the processor learns the way.

use std::iter;

use super::element::{self, push_prefix, Element};
use super::ends::Ends;
use super::plain::{self, LineEnd};
use super::Rng;
use hollgrimsa::TEXT_MOST;

/// How many texts there are of each kind.
pub const TEXTS: usize = 64;
/// The year and month of their issues.
pub const LENT: (u64, u64) = (2002, 4);

const HEAD: &str = "FPUS51 KXYZ 240822\r\r\nZFPXYZ\r\r\n";
const MND: &str = "\r\r\nZONE FORECAST PRODUCT\r\r\n\
    NATIONAL WEATHER SERVICE ANYTOWN MD\r\r\n822 AM EDT WED APR 24 2002\r\r\n\r\r\n";
const LINES: [&str; 4] = [
    "MOSTLY CLOUDY WITH A CHANCE OF SHOWERS. HIGHS IN THE LOWER 60S.\r\r\n",
    "RAIN LIKELY AFTER MIDNIGHT...MAINLY WEST OF THE BLUE RIDGE.\r\r\n",
    "WEST WIND 5 TO 10 MPH...BECOMING SOUTH IN THE AFTERNOON.\r\r\n",
    "CHANCE OF RAIN 40 PERCENT. LOWS NEAR 45.\r\r\n",
];
const END: &str = "$$\r\r\n";

/// How the elements of a block stand.
#[derive(Clone, Copy)]
pub enum Order {
    Ascending,
    Descending,
    Random,
}

impl Order {
    /// Orders elements that ascend.
    fn apply(self, rng: &mut Rng, elements: &mut [Element]) {
        match self {
            Order::Ascending => {}
            Order::Descending => elements.reverse(),
            Order::Random => {
                for end in (2..=elements.len()).rev() {
                    elements.swap(rng.below(end), end - 1);
                }
            }
        }
    }
}

/// The texts of one kind.
pub fn each(kind: impl Fn(&mut Rng) -> Vec<u8>) -> Vec<Vec<u8>> {
    let mut rng = Rng::new(0x5EED_0041);
    iter::repeat_with(|| kind(&mut rng)).take(TEXTS).collect()
}

/// A bulletin of 8 segments with 120 places each, as long as a text can be.
pub fn long(rng: &mut Rng) -> Vec<u8> {
    let mut text = [HEAD, MND].concat().into_bytes();
    for segment in 1..=8 {
        push_written(rng, many_places, &mut text);
        let end = segment * (TEXT_MOST - 40) / 8;
        fill_lines(rng, end, &mut text);
        text.extend(END.bytes());
    }
    let left = TEXT_MOST - text.len();
    text.extend(iter::repeat_n(b'.', left - 1));
    text.push(b'\n');
    text
}

/// A block in its written form, of these places and a purge.
fn push_written(rng: &mut Rng, places: fn(&mut Rng) -> Vec<u32>, text: &mut Vec<u8>) {
    let (places, purge) = (places(rng), purge(rng));
    text.extend(plain::written(places.into_iter(), purge, LineEnd::CrCrLf));
}

/// Lines up to about this length of the text.
fn fill_lines(rng: &mut Rng, end: usize, text: &mut Vec<u8>) {
    while text.len() + LINES[0].len() + END.len() < end {
        text.extend(rng.pick(&LINES).bytes());
    }
}

/// 120 places: runs of three, of two and single ones.
fn many_places(rng: &mut Rng) -> Vec<u32> {
    let tens = [
        [1, 2, 3, 5, 6, 8],
        [0, 2, 4, 5, 6, 8],
        [1, 3, 4, 6, 7, 8],
        [0, 1, 3, 5, 7, 8],
    ];
    let mut places = Vec::new();
    for prefix in [rng.below(600), 700 + rng.below(600)] {
        for ten in 1..=10 {
            let number = |n: usize| (1000 * prefix + 10 * ten + n) as u32;
            places.extend(rng.pick(&tens).map(number));
        }
    }
    places
}

/// A minute of the evening of the issue, never a full hour.
fn purge(rng: &mut Rng) -> u32 {
    16_994_701 + rng.below(59) as u32
}

/// A bulletin of 3 segments and about 2 KB.
pub fn typical(rng: &mut Rng) -> Vec<u8> {
    let mut text = [HEAD, MND].concat().into_bytes();
    for segment in 1..=3 {
        push_written(rng, few_places, &mut text);
        fill_lines(rng, 680 * segment, &mut text);
        text.extend(END.bytes());
        text.extend(b"\r\r\n");
    }
    text
}

/// The same with LF alone at the end of each line.
pub fn typical_with_lf(rng: &mut Rng) -> Vec<u8> {
    let mut text = typical(rng);
    text.retain(|&byte| byte != b'\r');
    text
}

/// Some nine places of two prefixes.
fn few_places(rng: &mut Rng) -> Vec<u32> {
    let mut places = Vec::new();
    for prefix in [rng.below(600), 700 + rng.below(600)] {
        let mut number = rng.within(1, 900);
        for _ in 0..rng.within(2, 7) {
            places.push((1000 * prefix + number) as u32);
            number += rng.pick(&[1, 1, 2, 9]);
        }
    }
    places
}

/// A bulletin of 8 segments with few places that fills a text, but for a part
/// of a line, with lines of up to so many bytes.
pub fn prose(rng: &mut Rng, most: usize, ends: Ends) -> Vec<u8> {
    let words = LINES.concat().replace("\r\r\n", " ");
    let mut text = Vec::with_capacity(TEXT_MOST);
    push_ended(rng, ends, [HEAD, MND].concat().as_bytes(), &mut text);
    for segment in 1..=8 {
        let mut block = Vec::new();
        push_written(rng, few_places, &mut block);
        push_ended(rng, ends, &block, &mut text);
        let longest = most + "\r\r\n".len();
        while text.len() + longest + END.len() <= segment * TEXT_MOST / 8 {
            let length = rng.within(0, most);
            let start = rng.below(words.len() - length);
            text.extend(words[start..][..length].bytes());
            ends.push(rng, &mut text);
        }
        push_ended(rng, ends, END.as_bytes(), &mut text);
    }
    text
}

/// These lines with other ends.
fn push_ended(rng: &mut Rng, ends: Ends, lines: &[u8], text: &mut Vec<u8>) {
    for &byte in lines {
        match byte {
            b'\r' => {}
            b'\n' => ends.push(rng, text),
            _ => text.push(byte),
        }
    }
}

/// A bulletin of 8 segments with 120 places each, in elements of so many, and
/// one line of text.
pub fn full_segments(rng: &mut Rng, width: usize, order: Order) -> Vec<u8> {
    let mut text = [HEAD, MND].concat().into_bytes();
    for _ in 0..8 {
        let prefix = rng.below(element::PREFIXES);
        let mut elements = ascending(rng, prefix, 120 / width, width);
        order.apply(rng, &mut elements);
        push_block(rng, &elements, 66, &mut text);
        text.extend(rng.pick(&LINES).bytes());
        text.extend(END.bytes());
    }
    text
}

/// So many elements of one prefix, each of so many places.
fn ascending(rng: &mut Rng, prefix: usize, count: usize, width: usize) -> Vec<Element> {
    let apart = 999 / count - width;
    let mut next = 1;
    let element = |_| {
        let first = next + rng.below(apart + 1);
        next = first + width;
        Element::range(prefix, first, next - 1)
    };
    (0..count).map(element).collect()
}

/// A bulletin of one block that fills the text: almost every number of four
/// prefixes. Its last element may repeat a place.
pub fn overfull(rng: &mut Rng, order: Order, repeat: bool) -> Vec<u8> {
    let quarter = element::PREFIXES / 4;
    let mut elements = Vec::new();
    for from in [0, quarter, 2 * quarter, 3 * quarter] {
        let prefix = from + rng.below(quarter);
        let numbers = (0..1000).filter(|_| !rng.once_in(100));
        let mut singles: Vec<_> = numbers.map(|n| Element::single(prefix, n)).collect();
        order.apply(rng, &mut singles);
        elements.push(singles);
    }
    if !matches!(order, Order::Ascending) {
        elements.reverse();
    }
    let mut elements = elements.concat();
    if repeat {
        elements.push(rng.pick(&elements));
    }
    alone(rng, &elements)
}

/// A bulletin of one block that has a wide range under every prefix.
pub fn overfull_of_ranges(rng: &mut Rng, order: Order) -> Vec<u8> {
    let range = |prefix| Element::range(prefix, rng.within(1, 300), rng.within(700, 999));
    let mut elements: Vec<_> = (0..element::PREFIXES).map(range).collect();
    order.apply(rng, &mut elements);
    alone(rng, &elements)
}

/// A bulletin of one segment with these elements, in the longest lines.
fn alone(rng: &mut Rng, elements: &[Element]) -> Vec<u8> {
    let mut text = HEAD.as_bytes().to_vec();
    push_block(rng, elements, 132, &mut text);
    text.extend(END.bytes());
    assert!(text.len() <= TEXT_MOST);
    text
}

/// A block of these elements in lines of up to so many bytes.
fn push_block(rng: &mut Rng, elements: &[Element], most: usize, text: &mut Vec<u8>) {
    let longest = "SSFnnn>mmm-".len();
    let (mut line, mut prefix) = (text.len(), None);
    for &element in elements {
        if text.len() + longest > line + most {
            text.extend(b"\r\r\n");
            line = text.len();
        }
        if prefix != Some(element.prefix) {
            push_prefix(element.prefix, text);
            prefix = Some(element.prefix);
        }
        element.push_numbers(rng, text);
    }
    let (hour, minute) = (rng.within(9, 23), rng.below(60));
    text.extend(format!("\r\r\n25{hour:02}{minute:02}-\r\r\n").bytes());
}
