//! One arena's worth of commands given to the Rust, each answer judged by a
//! plain sorted map that follows along, the mirror.

use crate::calls::{take_comparisons, Calls};
use crate::line::{Answer, Command};
use crate::shape;
use crate::splay::node::Node;
use std::collections::BTreeMap;
use std::mem;

pub const FOUND: u32 = 0;
pub const ABSENT: u32 = 1;
pub const NEW: u32 = 2;
pub const REPLACED: u32 = 3;
pub const REMOVED: u32 = 4;
pub const FULL: u32 = 5;
pub const COUNT: u32 = 6;
pub const UNKNOWN: u32 = 7;

/// An answer without its count: code, key, value.
type Said = (u32, u64, u32);

/// `code` and the entry, or ABSENT where there is none.
fn entry(code: u32, entry: Option<(u64, u32)>) -> Said {
    entry.map_or((ABSENT, 0, 0), |(key, value)| (code, key, value))
}

/// NEW, or REPLACED with the old value.
fn stored(key: u64, old: Option<u32>) -> Said {
    old.map_or((NEW, key, 0), |old| (REPLACED, key, old))
}

/// The Rust's taking consumes the tree, so an arena has two stages.
enum Stage<C: Calls> {
    Tree(C),
    Drain(C::Drain),
}

/// Why a command has no answer.
pub enum Stop {
    /// The input asks for what is not offered.
    Refused(String),
    /// The Rust and the mirror differ, or the Rust breaks a rule on counts; a
    /// library's runs differ.
    Disagreement(String),
}

/// Whatever answers an arena's commands, one after the other.
pub trait Answers {
    fn answer(&mut self, command: Command) -> Result<Answer, Stop>;
    /// Whether the first take has passed.
    fn is_draining(&self) -> bool;
    /// The tree's shape, as a sum and as text.
    fn shape_sum(&self) -> u32;
    fn shape_text(&self) -> String;
}

pub struct Arena<C: Calls> {
    slots: usize,
    stage: Stage<C>,
    mirror: BTreeMap<u64, u32>,
}

impl<C: Calls> Arena<C> {
    pub fn new(slots: u32) -> Arena<C> {
        Arena { slots: slots as usize, stage: Stage::Tree(C::new()), mirror: BTreeMap::new() }
    }

    /// The Rust's root node, or `None` for an empty tree.
    fn root(&self) -> Option<&Node<C::Key, C::Value>> {
        match &self.stage {
            Stage::Tree(tree) => tree.root(),
            Stage::Drain(drain) => C::drain_root(drain),
        }
    }

    /// The Rust's answer and what its comparator counted, once the mirror has
    /// agreed with all of it but the count.
    fn judged(&mut self, command: Command) -> Result<Answer, Stop> {
        let size = self.mirror.len();
        take_comparisons();
        let (code, key, value) = self.ask_rust(command)?;
        let comparisons = take_comparisons();
        let mirrored = self.ask_mirror(command);

        let differ = |what: String| Err(Stop::Disagreement(what));
        if (code, key, value) != mirrored {
            return differ(format!("the Rust says {:x?}, the mirror {:x?}", (code, key, value), mirrored));
        }
        if self.rust_len() != self.mirror.len() {
            return differ(format!("the Rust holds {}, the mirror {}", self.rust_len(), self.mirror.len()));
        }
        let compares = matches!(command.number, 1..=6) && code != UNKNOWN && size > 0;
        if compares != (comparisons > 0) {
            return differ(format!("{comparisons} comparisons, with {size} entries"));
        }
        Ok(Answer { code, key, value, comparisons })
    }

    fn ask_rust(&mut self, Command { number, key, value }: Command) -> Result<Said, Stop> {
        if matches!(number, 9 | 10) {
            self.start_draining();
        }
        let tree = match &mut self.stage {
            Stage::Tree(tree) => tree,
            Stage::Drain(drain) => {
                return match number {
                    9 => Ok(entry(REMOVED, C::take_first(drain))),
                    10 => Ok(entry(REMOVED, C::take_last(drain))),
                    12 => Ok((COUNT, 0, C::remaining(drain) as u32)),
                    _ => Err(Stop::Refused("after a 9 or 10 only 9, 10 and 12 may follow in the same arena".into())),
                };
            }
        };
        // The Rust has no FULL, and its min and max give the key alone.
        let full = self.mirror.len() == self.slots && !self.mirror.contains_key(&key);
        let mirror = &self.mirror;
        let with_value = |key: u64| (key, mirror.get(&key).copied().unwrap_or(0));
        Ok(match number {
            1 => entry(FOUND, tree.get(key)),
            2 if C::WRITES => entry(REPLACED, tree.write(key, value).map(|old| (key, old))),
            3 => entry(FOUND, tree.next(key)),
            4 => entry(FOUND, tree.prev(key)),
            5 if full => match tree.get(key) {
                None => (FULL, 0, 0),
                Some(_) => return Err(Stop::Disagreement("the Rust has a key that the mirror lacks".into())),
            },
            5 => stored(key, tree.insert(key, value)),
            6 => entry(REMOVED, tree.remove(key).map(|value| (key, value))),
            7 => entry(FOUND, tree.min().map(with_value)),
            8 => entry(FOUND, tree.max().map(with_value)),
            11 => {
                let dropped = tree.len();
                tree.clear();
                (COUNT, 0, dropped as u32)
            }
            12 => (COUNT, 0, tree.len() as u32),
            _ => (UNKNOWN, 0, 0),
        })
    }

    /// The same command on the mirror, by the live entries of docs/RULES.md.
    fn ask_mirror(&mut self, Command { number, key, value }: Command) -> Said {
        let mirror = &mut self.mirror;
        let copied = |(key, value): (&u64, &u32)| (*key, *value);
        // The set's entries all have the value 0.
        let value = if C::WRITES { value } else { 0 };
        match number {
            1 => entry(FOUND, mirror.get_key_value(&key).map(copied)),
            2 if C::WRITES => {
                let old = mirror.get_mut(&key).map(|place| (key, mem::replace(place, value)));
                entry(REPLACED, old)
            }
            3 => {
                let above = (std::ops::Bound::Excluded(key), std::ops::Bound::Unbounded);
                entry(FOUND, mirror.range(above).next().map(copied))
            }
            4 => entry(FOUND, mirror.range(..key).next_back().map(copied)),
            5 if mirror.len() == self.slots && !mirror.contains_key(&key) => (FULL, 0, 0),
            5 => stored(key, mirror.insert(key, value)),
            6 => entry(REMOVED, mirror.remove_entry(&key)),
            7 => entry(FOUND, mirror.first_key_value().map(copied)),
            8 => entry(FOUND, mirror.last_key_value().map(copied)),
            9 => entry(REMOVED, mirror.pop_first()),
            10 => entry(REMOVED, mirror.pop_last()),
            11 => (COUNT, 0, mem::take(mirror).len() as u32),
            12 => (COUNT, 0, mirror.len() as u32),
            _ => (UNKNOWN, 0, 0),
        }
    }

    fn start_draining(&mut self) {
        let nothing = Stage::Drain(C::new().drain());
        self.stage = match mem::replace(&mut self.stage, nothing) {
            Stage::Tree(tree) => Stage::Drain(tree.drain()),
            drain => drain,
        };
    }

    fn rust_len(&self) -> usize {
        match &self.stage {
            Stage::Tree(tree) => tree.len(),
            Stage::Drain(drain) => C::remaining(drain),
        }
    }
}

impl<C: Calls> Answers for Arena<C> {
    fn answer(&mut self, command: Command) -> Result<Answer, Stop> {
        self.judged(command)
    }
    fn is_draining(&self) -> bool {
        matches!(self.stage, Stage::Drain(_))
    }
    fn shape_sum(&self) -> u32 {
        shape::sum(&self.root())
    }
    fn shape_text(&self) -> String {
        shape::text(&self.root())
    }
}
