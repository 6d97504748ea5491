//! The lines that come in and go out. A word is 32 bits, written as eight
//! lower-case hexadecimal digits, high digit first; a key of two words is its
//! high word, then its low one.

/// How a command is read and its answer worded: as the map's or as the set's.
#[derive(Clone, Copy, PartialEq)]
pub enum Reading {
    Map,
    Set,
}

/// What an arena is: of the map or of the set, its keys of one word or of two.
#[derive(Clone, Copy, PartialEq)]
pub struct Kind {
    pub reading: Reading,
    pub width: usize,
}

pub const KINDS: [Kind; 4] = [
    Kind { reading: Reading::Map, width: 1 },
    Kind { reading: Reading::Set, width: 1 },
    Kind { reading: Reading::Map, width: 2 },
    Kind { reading: Reading::Set, width: 2 },
];

impl Kind {
    /// What an arena of this kind begins with in an input.
    pub fn letter(self) -> char {
        match (self.reading, self.width) {
            (Reading::Map, 1) => 'n',
            (Reading::Set, 1) => 's',
            (Reading::Map, _) => 'N',
            (Reading::Set, _) => 'S',
        }
    }

    /// Its name among the arguments.
    pub fn name(self) -> &'static str {
        match (self.reading, self.width) {
            (Reading::Map, 1) => "map",
            (Reading::Set, 1) => "set",
            (Reading::Map, _) => "map64",
            (Reading::Set, _) => "set64",
        }
    }
}

/// A command's number, key and value.
#[derive(Clone, Copy, Debug)]
pub struct Command {
    pub number: u32,
    pub key: u64,
    pub value: u32,
}

/// An answer's code, key, value and count.
#[derive(Clone, Copy, Debug, PartialEq)]
pub struct Answer {
    pub code: u32,
    pub key: u64,
    pub value: u32,
    pub comparisons: u32,
}

/// What a line of the input says.
pub enum Line {
    /// A kind's letter and a word: from here on a new arena of so many slots.
    New(Kind, u32),
    /// A command, whose key takes so many words.
    Command(usize, Command),
}

/// What the line (without its newline) says, or `None` where it has none
/// of these forms.
pub fn read(line: &[u8]) -> Option<Line> {
    let width = match line.len() {
        9 => {
            let kind = KINDS.into_iter().find(|kind| kind.letter() == char::from(line[0]))?;
            return Some(Line::New(kind, word(&line[1..])?));
        }
        24 => 1,
        32 => 2,
        _ => return None,
    };
    let words: Vec<u32> = line.chunks(8).map(word).collect::<Option<_>>()?;
    Some(Line::Command(width, Command::of_words(&words)))
}

/// The number that the digits write, or `None` where one is no lower-case
/// hexadecimal digit. At most eight digits.
fn word(digits: &[u8]) -> Option<u32> {
    digits.iter().try_fold(0, |sum, digit| {
        let value = match digit {
            b'0'..=b'9' => digit - b'0',
            b'a'..=b'f' => digit - b'a' + 10,
            _ => return None,
        };
        Some(sum << 4 | u32::from(value))
    })
}

/// The words of a key, the high one first.
pub fn spell(width: usize, key: u64) -> Vec<u32> {
    (0..width).rev().map(|word| (key >> (32 * word)) as u32).collect()
}

/// The key that so many words spell.
pub fn key_of(words: &[u32]) -> u64 {
    words.iter().fold(0, |key, word| key << 32 | u64::from(*word))
}

/// Words as digits.
pub fn digits(words: &[u32]) -> String {
    words.iter().map(|word| format!("{word:08x}")).collect()
}

impl Command {
    /// "Its number, a key and a value", the key being all words between.
    pub fn of_words(words: &[u32]) -> Command {
        let [number, ref key @ .., value] = *words else { unreachable!("a command has three words or four") };
        Command { number, key: key_of(key), value }
    }

    pub fn words(self, width: usize) -> Vec<u32> {
        [&[self.number], &spell(width, self.key)[..], &[self.value]].concat()
    }
}

impl Answer {
    /// "A code, a key, a value and the count".
    pub fn words(self, width: usize) -> Vec<u32> {
        [&[self.code], &spell(width, self.key)[..], &[self.value, self.comparisons]].concat()
    }
}
