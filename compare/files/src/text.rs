//! Files as text: items with one space between them. An item is an even number of hex digits,
//! or such digits, `*` and how often these bytes stand there.

use std::fmt::Write;

/// The lengths of which repeats are looked for: some bytes, an entry, two and three of them.
const LENGTHS: [usize; 10] = [1, 2, 3, 4, 6, 8, 12, 24, 48, 72];

/// The items of a file, chosen for the least text with repeats of these lengths.
pub fn items(file: &[u8]) -> String {
    let shortest = Shortest::of(file);
    let mut text = String::new();
    let mut at = 0;
    while at < file.len() {
        let (length, times) = shortest.item_at(at);
        item(&mut text, &file[at..at + length], times);
        at += length * times;
    }
    assert!(bytes(&text) == file, "the text says other bytes");
    text
}

fn item(text: &mut String, bytes: &[u8], times: usize) {
    if !text.is_empty() {
        text.push(' ');
    }
    for byte in bytes {
        write!(text, "{byte:02x}").expect("a string takes all text");
    }
    if times > 1 {
        write!(text, "*{times}").expect("a string takes all text");
    }
}

/// For each place of a file the least text for the bytes from there on, with a space before each item.
struct Shortest {
    /// Where an item begins.
    rest: Vec<usize>,
    /// Where plain bytes may go on.
    inside: Vec<usize>,
    /// The repeat with which the item begins, none for plain bytes.
    repeat: Vec<Option<(usize, usize)>>,
}

impl Shortest {
    fn of(file: &[u8]) -> Shortest {
        let end = file.len();
        let mut shortest = Shortest {
            rest: vec![0; end + 1],
            inside: vec![0; end + 1],
            repeat: vec![None; end],
        };
        // How many bytes from here on equal the byte one length later.
        let mut equal = [0; LENGTHS.len()];
        for at in (0..end).rev() {
            shortest.rest[at] = 3 + shortest.inside[at + 1];
            for (length, equal) in LENGTHS.into_iter().zip(&mut equal) {
                let same = file.get(at + length) == Some(&file[at]);
                *equal = if same { *equal + 1 } else { 0 };
                shortest.repeats(at, length, *equal / length + 1);
            }
            shortest.inside[at] = usize::min(2 + shortest.inside[at + 1], shortest.rest[at]);
        }
        shortest
    }

    /// Tries the repeats of this length at this place, of which there are at most so many. Those that
    /// matter are most of them, and few or as many as have one digit less.
    fn repeats(&mut self, at: usize, length: usize, most: usize) {
        let tried = [most, most.saturating_sub(1), 2, 3, 9, 99, 999, 9_999];
        for times in tried.into_iter().filter(|times| (2..=most).contains(times)) {
            let digits = times.ilog10() as usize + 1;
            let text = 2 + 2 * length + digits + self.rest[at + length * times];
            if text < self.rest[at] {
                self.rest[at] = text;
                self.repeat[at] = Some((length, times));
            }
        }
    }

    /// The length of the item that begins here, and how often it stands there.
    fn item_at(&self, at: usize) -> (usize, usize) {
        self.repeat[at].unwrap_or_else(|| {
            let plain = (at + 1..self.repeat.len())
                .take_while(|place| self.inside[*place] < self.rest[*place]);
            (1 + plain.count(), 1)
        })
    }
}

/// The bytes of a text of items.
pub fn bytes(text: &str) -> Vec<u8> {
    let mut file = Vec::new();
    for item in text.split_ascii_whitespace() {
        let (digits, times) = item.split_once('*').unwrap_or((item, "1"));
        let times = times.parse().expect("a count");
        let pairs = digits.as_bytes().chunks(2);
        let bytes: Vec<u8> = pairs
            .map(|pair| std::str::from_utf8(pair).expect("hex digits"))
            .map(|pair| u8::from_str_radix(pair, 16).expect("hex digits"))
            .collect();
        file.extend(bytes.repeat(times));
    }
    file
}
