//! Command lists to put to the Rust and to the port: the recorded ones, and
//! random ones of any length. The same call always writes the same bytes.

use crate::line::{digits, Command, Kind, Reading};
use std::io::{self, Write};

/// The splitmix64 generator (Steele, Lea and Flood, 2014).
pub struct Random(pub u64);

impl Random {
    fn word(&mut self) -> u32 {
        self.0 = self.0.wrapping_add(0x9e3779b97f4a7c15);
        let mut z = self.0;
        z = (z ^ (z >> 30)).wrapping_mul(0xbf58476d1ce4e5b9);
        z = (z ^ (z >> 27)).wrapping_mul(0x94d049bb133111eb);
        ((z ^ (z >> 31)) >> 32) as u32
    }

    /// A number below `limit`, which is at least 1.
    pub fn below(&mut self, limit: u32) -> u32 {
        (u64::from(self.word()) * u64::from(limit) >> 32) as u32
    }
}

/// Where lists of commands go, and the kind of arena that they are for.
pub struct Lists<W: Write> {
    out: W,
    kind: Kind,
}

/// The order in which keys of rising rank are inserted.
#[derive(Clone, Copy)]
enum Order {
    Ascending,
    Descending,
    /// Lowest, highest, second lowest, second highest and so on.
    Alternating,
}

const ORDERS: [Order; 3] = [Order::Ascending, Order::Descending, Order::Alternating];

impl Order {
    /// The rank (from 0) of the key inserted at `step` (from 0) of `count`.
    fn rank(self, step: u32, count: u32) -> u32 {
        match self {
            Order::Ascending => step,
            Order::Descending => count - 1 - step,
            Order::Alternating if step % 2 == 0 => step / 2,
            Order::Alternating => count - 1 - step / 2,
        }
    }
}

/// The commands 9 and 10 in turn; the same number twice drains from one end.
type Ends = [u32; 2];

const ENDS: [Ends; 3] = [[9, 9], [10, 10], [9, 10]];

const M: u64 = u32::MAX as u64;

/// So many keys: the key of each rank (from 0), which rises with it, and keys
/// at the ends of words.
#[derive(Clone, Copy)]
struct Keys {
    count: u32,
    of_rank: fn(u64, u64) -> u64,
    ends: &'static [u64],
}

/// Keys of one word: next to each other, and spread over all 32-bit numbers,
/// so that the order of unsigned numbers is put to the test.
const NEAR: Keys = Keys { count: 0, of_rank: |rank, _| rank, ends: &[0, M] };
const SPREAD: Keys = Keys { count: 0, of_rank: |rank, count| rank * (M / count), ends: &[0, M] };

/// Keys of two words: which differ in the high word alone; in the low word
/// alone; in either or both; and whose words lie at the ends of all words, 36.
const ENDS_OF_TWO: &[u64] = &[0, M, M + 1, u64::MAX];
const HIGH: Keys =
    Keys { count: 0, of_rank: |rank, count| rank * (M / count) << 32 | 0x9000_0007, ends: ENDS_OF_TWO };
const LOW: Keys = Keys { count: 0, of_rank: |rank, count| 0x0029_1010 << 32 | rank * (M / count), ends: ENDS_OF_TWO };
const GRID: Keys = Keys {
    count: 0,
    of_rank: |rank, count| {
        let side = (count - 1).isqrt() + 1;
        rank / side * (M / side) << 32 | rank % side * (M / side)
    },
    ends: ENDS_OF_TWO,
};
const CORNERS: Keys = Keys {
    count: 0,
    of_rank: |rank, _| {
        let word = |rank: u64| [0, 1, M / 2, M / 2 + 1, M - 1, M][rank as usize % 6];
        word(rank / 6) << 32 | word(rank)
    },
    ends: ENDS_OF_TWO,
};

impl Keys {
    fn so_many(self, count: u32) -> Keys {
        Keys { count, ..self }
    }

    fn at(self, rank: u32) -> u64 {
        (self.of_rank)(rank.into(), self.count.into())
    }

    /// A key of these, and a few times in 64 one at an end.
    fn random(self, random: &mut Random) -> u64 {
        match self.ends.get(random.below(64) as usize) {
            Some(end) => *end,
            None => self.at(random.below(self.count)),
        }
    }
}

/// A command's number: 1 to 8 and 12, inserts the most frequent, and rarely
/// 11, so that an arena has time to fill up first.
fn random_number(random: &mut Random, slots: u32) -> u32 {
    if random.below(64 + 8 * slots) == 0 {
        return 11;
    }
    match random.below(32) {
        0..=4 => 1,
        5..=7 => 2,
        8..=11 => 3,
        12..=15 => 4,
        16..=24 => 5,
        25..=28 => 6,
        29 => 7,
        30 => 8,
        _ => 12,
    }
}

impl<W: Write> Lists<W> {
    pub fn new(out: W, kind: Kind) -> Lists<W> {
        Lists { out, kind }
    }

    /// The recorded input for the kind.
    pub fn recorded(&mut self) -> io::Result<()> {
        match (self.kind.reading, self.kind.width) {
            (Reading::Map, 1) => self.map(),
            (Reading::Set, 1) => self.set(),
            (Reading::Map, _) => self.wide_map(),
            (Reading::Set, _) => self.wide_set(),
        }
    }

    fn map(&mut self) -> io::Result<()> {
        self.worked_cases()?;
        self.unknown_numbers()?;
        self.short_lists(3)?;
        self.four_inserts_and_two()?;
        let mut random = Random(1);
        for (slots, keys, count) in [(1, 3, 600), (4, 8, 1500), (16, 24, 2000), (64, 100, 1600)] {
            self.random_arena(&mut random, slots, SPREAD.so_many(keys), count)?;
        }
        self.fill_and_drain_all(&[1, 2, 5, 16])?;
        self.large(&mut random, 1024, SPREAD, Order::Alternating, 1500, 1024)?;
        self.large(&mut random, 4095, SPREAD, Order::Ascending, 1000, 300)
    }

    /// The same kinds of lists, fewer.
    fn set(&mut self) -> io::Result<()> {
        self.worked_cases()?;
        self.unknown_numbers()?;
        self.short_lists(2)?;
        let mut random = Random(2);
        for (slots, keys, count) in [(1, 3, 200), (4, 8, 800), (16, 24, 800), (64, 100, 800), (1024, 1500, 1200)] {
            self.random_arena(&mut random, slots, SPREAD.so_many(keys), count)?;
        }
        self.fill_and_drain_all(&[1, 2, 5])
    }

    /// The same kinds of lists on keys of two words, the random ones once for
    /// each sort of keys.
    fn wide_map(&mut self) -> io::Result<()> {
        self.worked_cases()?;
        self.unknown_numbers()?;
        self.short_lists(2)?;
        self.four_inserts_and_two()?;
        let mut random = Random(4);
        for (slots, keys, count) in [(1, 3, 150), (4, 9, 400), (16, 25, 500), (64, 100, 500)] {
            for sort in [HIGH, LOW, GRID] {
                self.random_arena(&mut random, slots, sort.so_many(keys), count)?;
            }
        }
        for slots in [5, 24] {
            self.random_arena(&mut random, slots, CORNERS.so_many(36), 800)?;
        }
        self.fill_and_drain_all(&[1, 2, 5])?;
        self.large(&mut random, 1024, GRID, Order::Alternating, 600, 500)?;
        self.large(&mut random, 4095, GRID, Order::Ascending, 300, 100)
    }

    fn wide_set(&mut self) -> io::Result<()> {
        self.worked_cases()?;
        self.unknown_numbers()?;
        self.short_lists(2)?;
        let mut random = Random(5);
        for (sort, slots, keys, count) in
            [(GRID, 1, 3, 100), (HIGH, 4, 9, 300), (LOW, 16, 25, 300), (CORNERS, 24, 36, 500), (GRID, 1024, 1600, 600)]
        {
            self.random_arena(&mut random, slots, sort.so_many(keys), count)?;
        }
        self.fill_and_drain_all(&[1, 2])
    }

    /// One arena and `count` random commands on `keys` keys: those below that
    /// number, or of two words on which either or both may differ.
    pub fn random(&mut self, seed: u64, count: u64, slots: u32, keys: u32) -> io::Result<()> {
        let sort = if self.kind.width == 1 { NEAR } else { GRID };
        self.random_arena(&mut Random(seed), slots, sort.so_many(keys), count)
    }

    fn arena(&mut self, slots: u32) -> io::Result<()> {
        writeln!(self.out, "{}{slots:08x}", self.kind.letter())
    }

    fn command(&mut self, number: u32, key: u64, value: u32) -> io::Result<()> {
        writeln!(self.out, "{}", digits(&Command { number, key, value }.words(self.kind.width)))
    }

    /// The key that stands for a word. Of two words the low one falls as the
    /// high one rises, so that both have to be read, the high one first.
    fn key(&self, word: u32) -> u64 {
        let word = u64::from(word);
        if self.kind.width == 1 { word } else { word << 32 | M - word }
    }

    fn random_arena(&mut self, random: &mut Random, slots: u32, keys: Keys, count: u64) -> io::Result<()> {
        self.arena(slots)?;
        self.random_commands(random, slots, keys, count)
    }

    fn random_commands(&mut self, random: &mut Random, slots: u32, keys: Keys, count: u64) -> io::Result<()> {
        for _ in 0..count {
            // Unused words are random too, since they must not matter.
            let number = random_number(random, slots);
            let key = keys.random(random);
            let value = random.word();
            self.command(number, key, value)?;
        }
        Ok(())
    }

    /// P1 to P12 of docs/RULES.md.
    fn worked_cases(&mut self) -> io::Result<()> {
        self.arena(2)?;
        for (number, key, value) in
            [(5, 5, 50), (5, 9, 90), (5, 7, 70), (5, 9, 91), (6, 5, 0), (5, 1, 10), (3, 1, 0), (10, 0, 0)]
        {
            self.command(number, self.key(key), value)?;
        }
        self.arena(4)?;
        for (number, key) in [(5, 1), (5, 2), (5, 3), (5, 4), (1, 1)] {
            self.command(number, self.key(key), 0)?;
        }
        self.arena(2)?;
        for (number, key) in [(5, 1), (5, 2), (1, 0), (4, 0), (3, u32::MAX)] {
            self.command(number, self.key(key), 0)?;
        }
        Ok(())
    }

    /// Numbers that are no command, on an empty tree and on one with entries,
    /// each followed by a length.
    fn unknown_numbers(&mut self) -> io::Result<()> {
        self.arena(4)?;
        for round in 0..2 {
            for number in [0, 2, 13, 14, 0x100, 0x105, 0x10005, 0x7fffffff, 0x80000001, u32::MAX] {
                self.command(number, self.key(7), 70)?;
                self.command(12, 0, 0)?;
            }
            if round == 0 {
                for key in [3, 9, 7] {
                    self.command(5, self.key(key), key)?;
                }
            }
        }
        Ok(())
    }

    fn three_keys(&self) -> [u64; 3] {
        if self.kind.width == 1 { [0, 7, M] } else { [M, M + 1, M + 8] }
    }

    fn four_keys(&self) -> [u64; 4] {
        if self.kind.width == 1 { [0, 7, 0x80000000, M] } else { [0x80000000, 7 << 32, 7 << 32 | M, u64::MAX << 31] }
    }

    /// All lists of `length` commands out of insert, get, remove, next and
    /// prev on three keys, each in a new arena of 2 slots.
    fn short_lists(&mut self, length: u32) -> io::Result<()> {
        for list in 0..15u32.pow(length) {
            self.arena(2)?;
            for place in 0..length {
                let choice = list / 15u32.pow(length - 1 - place) % 15;
                let number = [5, 1, 6, 3, 4][choice as usize / 3];
                self.command(number, self.three_keys()[choice as usize % 3], place + 1)?;
            }
        }
        Ok(())
    }

    /// All lists that insert four keys in some order, then get or remove one
    /// and remove one, each in a new arena of 4 slots. With fewer keys a
    /// remove without its second splay would not show.
    fn four_inserts_and_two(&mut self) -> io::Result<()> {
        let keys = self.four_keys();
        let inserts = (0..256).map(|list| [list / 64, list / 16 % 4, list / 4 % 4, list % 4]);
        for order in inserts.filter(|order| (0..4).all(|key| order.contains(&key))) {
            for list in 0..32 {
                self.arena(4)?;
                for (place, key) in order.into_iter().enumerate() {
                    self.command(5, keys[key], place as u32 + 1)?;
                }
                self.command([1, 6][list / 16], keys[list / 4 % 4], 5)?;
                self.command(6, keys[list % 4], 6)?;
            }
        }
        Ok(())
    }

    /// Every order and every end for each number of slots, and 64 slots from
    /// both ends only.
    fn fill_and_drain_all(&mut self, all_slots: &[u32]) -> io::Result<()> {
        for slots in all_slots {
            for order in ORDERS {
                for ends in ENDS {
                    self.fill_and_drain(*slots, order, ends)?;
                }
            }
        }
        for order in ORDERS {
            self.fill_and_drain(64, order, [9, 10])?;
        }
        Ok(())
    }

    /// A new arena filled with the keys 10, 20 and so on in the given order,
    /// asked around its edges, and then emptied and asked once more.
    fn fill_and_drain(&mut self, slots: u32, order: Order, ends: Ends) -> io::Result<()> {
        self.arena(slots)?;
        for step in 0..slots {
            self.command(5, self.key(10 * (order.rank(step, slots) + 1)), step)?;
        }
        let last = 10 * slots;
        // One past full, a present key when full, and the first, last and
        // absent keys.
        for (number, key) in [(5, last + 5), (5, 10), (1, last), (1, 10), (3, 5), (4, last + 5), (3, last / 2), (1, 15)] {
            self.command(number, self.key(key), 0xffff0000 + number)?;
        }
        self.drain(slots, ends)?;
        for number in [ends[0], 12, 9, 10] {
            self.command(number, 0, 0)?;
        }
        Ok(())
    }

    /// `count` takes, the length asked after each eighth.
    fn drain(&mut self, count: u32, ends: Ends) -> io::Result<()> {
        for step in 0..count {
            self.command(ends[step as usize % 2], step.into(), 0)?;
            if step % 8 == 7 {
                self.command(12, 0, 0)?;
            }
        }
        Ok(())
    }

    /// A new arena filled with two of every three keys; one more, which finds
    /// it full; both ends looked up; `count` random commands; `takes` takes
    /// from both ends.
    fn large(&mut self, random: &mut Random, slots: u32, sort: Keys, order: Order, count: u64, takes: u32) -> io::Result<()> {
        let keys = sort.so_many(slots / 2 * 3);
        self.arena(slots)?;
        for step in 0..slots {
            let rank = order.rank(step, slots);
            self.command(5, keys.at(rank / 2 * 3 + rank % 2), step)?;
        }
        let last = if self.kind.width == 1 { M } else { u64::MAX };
        for (number, key) in [(5, last), (1, 0), (1, last)] {
            self.command(number, key, 0)?;
        }
        self.random_commands(random, slots, keys, count)?;
        self.drain(takes, [9, 10])
    }
}
