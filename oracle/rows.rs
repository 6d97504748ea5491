//! The table `crates/rules/specs/Rows.antt`: stories of commands from the
//! making of an arena on, each command with its answer and every word of the
//! arena after it, as the plain arena gives them. The stories are chosen so
//! that a rule which is wrong on one side only, or in one command of the set
//! only, shows. The same call always writes the same bytes.

use crate::line::{Command, Reading};
use crate::lists::Random;
use crate::plain::Plain;
use std::io::{self, Write};
use Reading::{Map, Set};

/// Number, key, value.
type Asked = [u64; 3];

const M: u64 = u32::MAX as u64;

struct Story {
    what: String,
    /// How many words a key takes.
    width: usize,
    slots: u32,
    /// Inserts of the map that lead to the first row.
    before: Vec<Asked>,
    commands: Vec<(Reading, Asked)>,
}

impl Story {
    fn new(what: &str, slots: u32) -> Story {
        Story { what: what.to_string(), width: 1, slots, before: Vec::new(), commands: Vec::new() }
    }

    fn wide(what: &str, slots: u32) -> Story {
        Story { width: 2, ..Story::new(what, slots) }
    }

    fn after(mut self, keys: &[u64]) -> Story {
        self.before = inserts(keys);
        self
    }

    fn then(mut self, reading: Reading, commands: &[Asked]) -> Story {
        self.commands.extend(commands.iter().map(|command| (reading, *command)));
        self
    }

    fn inserts(self, reading: Reading, keys: &[u64]) -> Story {
        self.then(reading, &inserts(keys))
    }

    /// The same seen from the other end of the order: the key k becomes the
    /// largest key minus k, and next, min and take first change places with
    /// prev, max and take last.
    fn mirror(&self) -> Story {
        let last = if self.width == 1 { M } else { u64::MAX };
        let turned = |[number, key, value]: Asked| {
            let number = match number {
                3 | 7 | 9 => number + 1,
                4 | 8 | 10 => number - 1,
                _ => number,
            };
            [number, last - key, value]
        };
        Story {
            what: format!("{}, from the other end", self.what),
            before: self.before.iter().map(|command| turned(*command)).collect(),
            commands: self.commands.iter().map(|(reading, command)| (*reading, turned(*command))).collect(),
            ..*self
        }
    }

    /// The story in the table's form. `joint` stands before it.
    fn write(&self, joint: &str, out: &mut impl Write) -> io::Result<()> {
        let mut arena = Plain::new(self.width, self.slots);
        writeln!(out, "    -- {}", self.what)?;
        writeln!(out, "    {joint}story {} \"{}\"", self.slots, self.arena_text(&arena))?;
        let mut joint = "(";
        for command in self.before.iter().map(read) {
            arena.ask(Map, command);
            writeln!(out, "    {joint}before as_map \"{}\"", text(&command.words(self.width)))?;
            joint = "∷ ";
        }
        for (reading, command) in &self.commands {
            let reader = if *reading == Map { "as_map" } else { "as_set" };
            let command = read(command);
            let answer = text(&arena.ask(*reading, command).words(self.width));
            let (command, words) = (text(&command.words(self.width)), self.arena_text(&arena));
            writeln!(out, "    {joint}row {reader} \"{command}\" \"{answer}\" \"{words}\"")?;
            joint = "∷ ";
        }
        writeln!(out, "    ∷ [])")
    }

    /// The header and each slot, with a comma between them.
    fn arena_text(&self, arena: &Plain) -> String {
        let (header, slots) = arena.words.split_at(4);
        let parts = std::iter::once(header).chain(slots.chunks(3 + self.width));
        parts.map(text).collect::<Vec<String>>().join(", ")
    }
}

fn read([number, key, value]: &Asked) -> Command {
    Command { number: *number as u32, key: *key, value: *value as u32 }
}

/// Inserts of keys in this order, each with ten times itself as value: ten
/// times the sum of its words, of which the low half is taken.
fn inserts(keys: &[u64]) -> Vec<Asked> {
    keys.iter().map(|key| [5, *key, 10 * ((key >> 32) + (key & M)) & 0xffff]).collect()
}

/// Words with a space between them. A word just below M is told from there.
fn text(words: &[u32]) -> String {
    let word = |word: &u32| match u32::MAX - word {
        0 => "M".to_string(),
        below @ 1..=9999 => format!("M-{below}"),
        _ => word.to_string(),
    };
    words.iter().map(word).collect::<Vec<String>>().join(" ")
}

/// Writes the whole file.
pub fn write(out: &mut impl Write) -> io::Result<()> {
    write!(out, "{HEAD}")?;
    for (name, stories) in [("rows", stories()), ("wide_rows", wide_stories())] {
        write!(out, "\nunfoldable pub {name} : List Story\n{name} =\n")?;
        let mut joint = "";
        for story in stories {
            story.write(joint, out)?;
            joint = "∷ ";
        }
        writeln!(out, "    ∷ []")?;
    }
    Ok(())
}

const HEAD: &str = "\
-- Rows from a second source: an arena in plain Rust, written from the rules in words (`oracle/plain.rs`) and held to the answers of the
-- crate itself. `oracle/record` makes this file; nothing in it is written by hand. `rows` has keys of one word, `wide_rows` keys of two.
-- The theorems are in proofs/Rows.antt.
use Rattle.std.specs.Prelude.{List, [], ◌∷◌}
use Rattle.rules.specs.Reading.{as_map, as_set}
use Rattle.rules.specs.Story.{before, row, Story, story}
";

fn stories() -> Vec<Story> {
    let mut all: Vec<Story> = twelve().iter().map(Story::mirror).collect();
    for story in told_both_ways() {
        let mirror = story.mirror();
        all.extend([story, mirror]);
    }
    all.extend(told_once());
    let mut random = Random(3);
    for slots in 1..=6 {
        for (who, readings) in [("the map", [Map, Map]), ("the map and of the set", [Map, Set])] {
            let mut story = Story::new(&format!("Random commands of {who}"), slots);
            for _ in 0..8 + 2 * slots {
                let command = random_command(&mut random, slots);
                story = story.then(readings[random.below(2) as usize], &[command]);
            }
            all.push(story);
        }
    }
    all
}

/// P1 to P12 of docs/RULES.md, which stand as they are in Twelve.antt.
fn twelve() -> [Story; 3] {
    [
        Story::new("P1 to P9", 2).then(
            Map,
            &[[5, 5, 50], [5, 9, 90], [5, 7, 70], [5, 9, 91], [6, 5, 0], [5, 1, 10], [3, 1, 0], [10, 0, 0]],
        ),
        Story::new("P10, and a remove", 4)
            .then(Map, &[[5, 1, 0], [5, 2, 0], [5, 3, 0], [5, 4, 0], [1, 1, 0], [6, 3, 0]]),
        Story::new("P11 and P12", 2).then(Map, &[[5, 1, 0], [5, 2, 0], [1, 0, 0], [4, 0, 0], [3, M, 0]]),
    ]
}

/// Stories in which a side matters.
fn told_both_ways() -> Vec<Story> {
    vec![
        Story::new("A straight path of seven nodes, and keys at its end, in its middle and beyond it", 7)
            .after(&[1, 2, 3, 4, 5, 6, 7])
            .then(Map, &[[1, 1, 0], [1, 6, 0], [1, 3, 0], [1, 8, 0], [1, 0, 0], [5, 0, 9], [3, 4, 0]]),
        Story::new("A path of six nodes that turns at each of them", 7)
            .after(&[1, 3, 4, 5, 6, 2, 7])
            .then(Map, &[[1, 1, 0], [1, 4, 0], [1, 7, 0], [1, 2, 0], [1, 5, 0], [6, 4, 0], [2, 4, 1], [2, 6, 61]]),
        Story::new("Takes from a path of four nodes with a subtree at each, then mixed with other commands", 8)
            .after(&[4, 8, 3, 2, 6, 5, 7, 1])
            .then(
                Map,
                &[
                    [1, 4, 0],
                    [1, 8, 0],
                    [9, 0, 0],
                    [10, 0, 0],
                    [1, 3, 0],
                    [9, 0, 0],
                    [5, 8, 80],
                    [1, 5, 0],
                    [10, 0, 0],
                    [6, 6, 0],
                    [9, 0, 0],
                    [10, 0, 0],
                    [9, 0, 0],
                    [10, 0, 0],
                    [9, 0, 0],
                    [10, 0, 0],
                    [5, 2, 20],
                ],
            ),
        Story::new("Takes from a tree of seven, one end after the other, to its end", 7)
            .after(&[4, 2, 6, 1, 3, 5, 7])
            .then(Map, &[[1, 4, 0], [7, 0, 0], [8, 0, 0]])
            .then(Map, &[[10, 0, 0], [10, 0, 0], [9, 0, 0], [9, 0, 0], [10, 0, 0], [9, 0, 0], [10, 0, 0], [10, 0, 0]]),
        Story::new("Writes and removes of absent keys", 4)
            .then(Map, &[[2, 5, 1], [6, 5, 1], [5, 4, 40], [2, 5, 1], [6, 3, 0], [5, 8, 80], [2, 3, 1], [6, 9, 0]])
            .then(Map, &[[2, 5, 1], [6, 6, 0], [5, 6, 60], [2, 3, 1], [2, 9, 1], [6, 3, 0], [6, 7, 0], [2, 4, 41]]),
        Story::new("Neighbours of keys and of gaps", 5)
            .inserts(Map, &[6, 2, 8, 4])
            .then(Map, &[[3, 1, 0], [3, 2, 0], [3, 3, 0], [3, 4, 0], [3, 5, 0], [3, 6, 0], [3, 7, 0], [3, 8, 0]])
            .then(Map, &[[3, 9, 0], [4, 5, 0], [3, 0, 0], [3, M, 0]]),
        Story::new("Inserts on either side, replaced, and full", 4)
            .inserts(Map, &[5, 3, 4])
            .then(Map, &[[5, 4, 41], [5, 8, 80], [5, 1, 10], [5, 9, 90], [5, 3, 31], [5, 6, 60], [6, 8, 0], [5, 7, 70]]),
        Story::new("Removes with a left subtree, a right one, both, neither; the left one splayed", 6)
            .after(&[1, 2, 3, 4, 5, 6])
            .then(Map, &[[1, 1, 0], [6, 5, 0], [6, 6, 0], [5, 6, 61], [1, 2, 0], [6, 4, 0], [6, 1, 0], [6, 2, 0]])
            .then(Map, &[[6, 6, 0], [6, 3, 0], [6, 3, 0], [5, 2, 20], [6, 2, 0]]),
        Story::new("The set's commands, on entries of its own", 3)
            .then(Set, &[[5, 4, 40], [5, 2, 20], [5, 6, 60], [2, 4, 1], [1, 4, 1], [5, 4, 41], [3, 2, 0], [4, 2, 0]])
            .then(Set, &[[7, 3, 3], [8, 3, 3], [12, 3, 3], [0, 4, 4], [13, 4, 4], [M, 4, 4], [6, 4, 0], [5, 3, 30]])
            .then(Set, &[[9, 0, 0], [5, 5, 50], [10, 0, 0], [5, 1, 10], [11, 3, 3], [11, 3, 3]]),
        Story::new("The set's commands, on entries that a map stored", 3)
            .inserts(Map, &[4, 2, 6])
            .then(Set, &[[1, 2, 0], [3, 2, 0], [4, 6, 0], [7, 0, 0], [8, 0, 0], [12, 0, 0], [2, 2, 21], [0, 2, 21]])
            .then(Set, &[[5, 4, 41]])
            .then(Map, &[[1, 4, 0], [1, 2, 0]])
            .then(Set, &[[6, 2, 0], [10, 0, 0]])
            .then(Map, &[[5, 1, 10]])
            .then(Set, &[[9, 0, 0], [12, 0, 0], [11, 0, 0]]),
    ]
}

/// Stories that know no side.
fn told_once() -> Vec<Story> {
    vec![
        Story::new("Clear: on a new arena, a full one, one emptied in another order, one with such a chain and an entry", 3)
            .then(Map, &[[11, 0, 0]])
            .inserts(Map, &[2, 1, 3])
            .then(Map, &[[11, 7, 7]])
            .inserts(Map, &[2, 1, 3])
            .then(Map, &[[6, 1, 0], [6, 3, 0], [6, 2, 0], [11, 0, 0]])
            .inserts(Map, &[1, 2, 3])
            .then(Map, &[[9, 0, 0], [9, 0, 0], [9, 0, 0], [11, 0, 0]])
            .inserts(Map, &[3, 2, 1])
            .then(Map, &[[6, 3, 0], [6, 1, 0], [11, 0, 0]])
            .inserts(Set, &[1, 2])
            .then(Set, &[[10, 0, 0], [9, 0, 0], [11, 0, 0], [5, 4, 4]]),
        Story::new("Numbers that are no command, and commands on an empty tree", 2)
            .then(Map, &[[0, 5, 5], [13, 5, 5], [M, M, M], [1, 5, 5], [2, 5, 5], [3, 5, 5], [4, 5, 5], [6, 5, 5]])
            .then(Map, &[[7, 5, 5], [8, 5, 5], [9, 5, 5], [10, 5, 5], [12, 5, 5]])
            .then(Set, &[[0, 5, 5], [13, 5, 5], [M, M, M], [1, 5, 5], [2, 5, 5], [3, 5, 5], [4, 5, 5], [6, 5, 5]])
            .then(Set, &[[7, 5, 5], [8, 5, 5], [9, 5, 5], [10, 5, 5], [12, 5, 5]])
            .inserts(Map, &[5, 3])
            .then(Map, &[[0, 5, 5], [13, 5, 5], [14, 5, 5], [256, 5, 5], [M, M, M]]),
    ]
}

/// Every command, inserts the most frequent; keys for about twice the slots.
fn random_command(random: &mut Random, slots: u32) -> Asked {
    let number = random_number(random);
    [number, random.below(2 * slots + 1).into(), random.below(100).into()]
}

fn random_number(random: &mut Random) -> u64 {
    match random.below(32) {
        0..=2 => 1,
        3..=5 => 2,
        6..=7 => 3,
        8..=9 => 4,
        10..=19 => 5,
        20..=23 => 6,
        24 => 7,
        25 => 8,
        26..=27 => 9,
        28..=29 => 10,
        30 => 12,
        _ => [0, 11, 13][random.below(3) as usize],
    }
}

/// The key of two words.
fn key(high: u64, low: u64) -> u64 {
    high << 32 | low
}

/// Stories of the second edition. How the tree is splayed, the chain kept and
/// the set read does not hang on the width, so these look at the keys' words.
fn wide_stories() -> Vec<Story> {
    let mut all = vec![];
    for story in wide_told_both_ways() {
        let mirror = story.mirror();
        all.extend([story, mirror]);
    }
    let mut random = Random(6);
    for slots in [1, 2, 4, 5] {
        let mut story = Story::wide("Random commands of the map and of the set, keys at the ends of both words", slots);
        for _ in 0..12 + 2 * slots {
            let number = random_number(&mut random);
            let mut word = || [0, 1, M - 1, M][random.below(4) as usize];
            let key = key(word(), word());
            let value = random.below(100).into();
            story = story.then([Map, Map, Set][random.below(3) as usize], &[[number, key, value]]);
        }
        all.push(story);
    }
    all
}

fn wide_told_both_ways() -> Vec<Story> {
    // Keys of which the low word falls as the high one rises.
    let at = |high: u64| key(high, M - high);
    // P1 to P12, and the set, on such keys.
    let mut all: Vec<Story> = twelve().into_iter().map(|story| in_two_words(story, at)).collect();
    all.extend([
        Story::wide("Keys that differ in the high word alone: every command, and full", 3)
            .inserts(Map, &[key(2, 7), key(1, 7), key(3, 7), key(0, 7)])
            .then(Map, &[[1, key(1, 7), 0], [1, key(0, 7), 0], [2, key(3, 7), 31], [2, key(4, 7), 1]])
            .then(Map, &[[3, key(1, 7), 0], [4, key(3, 7), 0], [3, key(3, 7), 0], [4, key(1, 7), 0], [3, key(2, 6), 0]])
            .then(Map, &[[7, 0, 0], [8, 0, 0], [12, 0, 0], [6, key(2, 7), 0], [6, key(2, 7), 0], [9, 0, 0], [10, 0, 0]])
            .inserts(Map, &[key(M, 7), key(0, 7)])
            .then(Map, &[[13, key(M, 7), 1], [11, 0, 0]]),
        Story::wide("Keys that differ in the low word alone: every command, and full", 3)
            .inserts(Map, &[key(7, 2), key(7, 1), key(7, 3), key(7, 0)])
            .then(Map, &[[1, key(7, 1), 0], [1, key(7, 0), 0], [2, key(7, 3), 31], [2, key(7, 4), 1]])
            .then(Map, &[[3, key(7, 1), 0], [4, key(7, 3), 0], [3, key(7, 3), 0], [4, key(7, 1), 0], [3, key(6, 2), 0]])
            .then(Map, &[[7, 0, 0], [8, 0, 0], [12, 0, 0], [6, key(7, 2), 0], [6, key(7, 2), 0], [9, 0, 0], [10, 0, 0]])
            .inserts(Map, &[key(7, M), key(7, 0)])
            .then(Map, &[[0, key(7, M), 1], [11, 0, 0]]),
        Story::wide("Ends of both words", 6)
            .inserts(Map, &[0, M, M + 1, u64::MAX, key(M, 0)])
            .then(Map, &[[1, 0, 0], [1, M, 0], [1, M + 1, 0], [1, key(M, 0), 0], [1, u64::MAX, 0], [1, key(1, M), 0]])
            .then(Map, &[[3, 0, 0], [3, M, 0], [3, M + 1, 0], [3, u64::MAX, 0], [4, M + 1, 0], [4, key(M, 0), 0], [4, 0, 0]])
            .then(Map, &[[6, M, 0], [10, 0, 0], [9, 0, 0], [8, 0, 0]]),
        Story::wide("A path of five nodes whose low words are in another order", 5)
            .after(&[key(1, 5), key(2, 1), key(3, 4), key(4, 0), key(5, 3)])
            .then(Map, &[[1, key(1, 5), 0], [1, key(4, 5), 0], [3, key(2, 0), 0], [4, key(2, 2), 0], [5, key(2, 2), 9]])
            .then(Map, &[[6, key(3, 4), 0], [5, key(2, 2), 9], [10, 0, 0], [9, 0, 0], [9, 0, 0], [9, 0, 0], [9, 0, 0]]),
        Story::wide("The set's commands, on entries of its own and of a map", 3)
            .then(Set, &[[5, at(4), 40], [5, at(2), 20], [2, at(4), 1], [1, at(4), 1], [5, at(4), 41], [3, at(2), 0]])
            .then(Map, &[[5, at(6), 60], [2, at(2), 22]])
            .then(Set, &[[4, at(6), 0], [1, at(2), 0], [1, at(6), 0], [7, 3, 3], [8, 3, 3], [12, 3, 3], [5, at(5), 5]])
            .then(Set, &[[6, at(6), 0], [9, 0, 0], [10, 0, 0], [M, at(2), 4], [11, 3, 3]]),
    ]);
    all
}

/// The same story with a key of two words for each key of one.
fn in_two_words(story: Story, wide: impl Fn(u64) -> u64) -> Story {
    let turned = |(reading, [number, key, value]): (Reading, Asked)| (reading, [number, wide(key), value]);
    let what = format!("{}, with k and M-k for a key k", story.what);
    Story { what, width: 2, commands: story.commands.into_iter().map(turned).collect(), ..story }
}
