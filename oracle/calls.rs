//! The crate's map and its set, over keys of one word or of two, asked in the
//! same words. Every comparison that any of them makes is counted here.

use crate::shape::Word;
use crate::splay::node::Node;
use crate::splay::{set, tree, SplaySet, SplayTree};
use std::cell::Cell;
use std::cmp::Ordering;

thread_local! {
    static COMPARISONS: Cell<u32> = const { Cell::new(0) };
}

/// The comparator that all are given: the order of integers, and one more on
/// the counter.
fn counted<K: Key>(a: &K, b: &K) -> Ordering {
    COMPARISONS.with(|count| count.set(count.get() + 1));
    a.cmp(b)
}

/// The comparisons counted since the last call, and starts again from 0.
pub fn take_comparisons() -> u32 {
    COMPARISONS.with(|count| count.replace(0))
}

/// A key as the crate's tree holds it.
pub trait Key: Copy + Ord {
    /// How many words it takes.
    const WIDTH: usize;
    /// The key that is this number, which has to fit.
    fn of(number: u64) -> Self;
    fn number(self) -> u64;
}

impl Key for u32 {
    const WIDTH: usize = 1;
    fn of(number: u64) -> u32 {
        number.try_into().expect("a key of one word")
    }
    fn number(self) -> u64 {
        self.into()
    }
}

impl Key for u64 {
    const WIDTH: usize = 2;
    fn of(number: u64) -> u64 {
        number
    }
    fn number(self) -> u64 {
        self
    }
}

type Compare<K> = fn(&K, &K) -> Ordering;
type Entry = (u64, u32);

fn copied<K: Key>((key, value): (&K, &u32)) -> Entry {
    (key.number(), *value)
}

/// The entry of a set's key.
fn bare<K: Key>(key: &K) -> Entry {
    (key.number(), 0)
}

/// The crate's calls, one each. An entry is a key and its value; the set's
/// values are 0.
pub trait Calls: Sized {
    /// Whether command 2 is known.
    const WRITES: bool;
    type Key: Key;
    type Value: Word;
    /// What the tree becomes once it is drained.
    type Drain;

    fn new() -> Self;
    fn get(&self, key: u64) -> Option<Entry>;
    /// The old value of a present key, which is replaced; `None` if absent.
    fn write(&mut self, key: u64, value: u32) -> Option<u32>;
    fn next(&self, key: u64) -> Option<Entry>;
    fn prev(&self, key: u64) -> Option<Entry>;
    /// The value that was replaced, or `None` for a new key.
    fn insert(&mut self, key: u64, value: u32) -> Option<u32>;
    /// The value that went, or `None` for an absent key.
    fn remove(&mut self, key: u64) -> Option<u32>;
    fn min(&self) -> Option<u64>;
    fn max(&self) -> Option<u64>;
    fn clear(&mut self);
    fn len(&self) -> usize;
    fn root(&self) -> Option<&Node<Self::Key, Self::Value>>;

    fn drain(self) -> Self::Drain;
    fn take_first(drain: &mut Self::Drain) -> Option<Entry>;
    fn take_last(drain: &mut Self::Drain) -> Option<Entry>;
    fn remaining(drain: &Self::Drain) -> usize;
    fn drain_root(drain: &Self::Drain) -> Option<&Node<Self::Key, Self::Value>>;
}

pub type Map<K> = SplayTree<K, u32, Compare<K>>;
pub type Set<K> = SplaySet<K, Compare<K>>;

impl<K: Key> Calls for Map<K> {
    const WRITES: bool = true;
    type Key = K;
    type Value = u32;
    type Drain = tree::IntoIter<K, u32>;

    fn new() -> Map<K> {
        SplayTree::new(counted)
    }
    fn get(&self, key: u64) -> Option<Entry> {
        SplayTree::get(self, &K::of(key)).map(|value| (key, *value))
    }
    fn write(&mut self, key: u64, value: u32) -> Option<u32> {
        self.get_mut(&K::of(key)).map(|place| std::mem::replace(place, value))
    }
    fn next(&self, key: u64) -> Option<Entry> {
        SplayTree::next(self, &K::of(key)).map(copied)
    }
    fn prev(&self, key: u64) -> Option<Entry> {
        SplayTree::prev(self, &K::of(key)).map(copied)
    }
    fn insert(&mut self, key: u64, value: u32) -> Option<u32> {
        SplayTree::insert(self, K::of(key), value)
    }
    fn remove(&mut self, key: u64) -> Option<u32> {
        SplayTree::remove(self, &K::of(key))
    }
    fn min(&self) -> Option<u64> {
        SplayTree::min(self).map(|key| key.number())
    }
    fn max(&self) -> Option<u64> {
        SplayTree::max(self).map(|key| key.number())
    }
    fn clear(&mut self) {
        SplayTree::clear(self)
    }
    fn len(&self) -> usize {
        SplayTree::len(self)
    }
    fn root(&self) -> Option<&Node<K, u32>> {
        SplayTree::root(self)
    }

    fn drain(self) -> Self::Drain {
        self.into_iter()
    }
    fn take_first(drain: &mut Self::Drain) -> Option<Entry> {
        drain.next().map(|(key, value)| (key.number(), value))
    }
    fn take_last(drain: &mut Self::Drain) -> Option<Entry> {
        drain.next_back().map(|(key, value)| (key.number(), value))
    }
    fn remaining(drain: &Self::Drain) -> usize {
        drain.size_hint().0
    }
    fn drain_root(drain: &Self::Drain) -> Option<&Node<K, u32>> {
        drain.root()
    }
}

impl<K: Key> Calls for Set<K> {
    const WRITES: bool = false;
    type Key = K;
    type Value = ();
    type Drain = set::IntoIter<K>;

    fn new() -> Set<K> {
        SplaySet::new(counted)
    }
    fn get(&self, key: u64) -> Option<Entry> {
        self.find(&K::of(key)).map(bare)
    }
    fn write(&mut self, _: u64, _: u32) -> Option<u32> {
        unreachable!("command 2 is unknown to the set")
    }
    fn next(&self, key: u64) -> Option<Entry> {
        SplaySet::next(self, &K::of(key)).map(bare)
    }
    fn prev(&self, key: u64) -> Option<Entry> {
        SplaySet::prev(self, &K::of(key)).map(bare)
    }
    fn insert(&mut self, key: u64, _: u32) -> Option<u32> {
        let new = SplaySet::insert(self, K::of(key));
        if new { None } else { Some(0) }
    }
    fn remove(&mut self, key: u64) -> Option<u32> {
        let removed = SplaySet::remove(self, &K::of(key));
        if removed { Some(0) } else { None }
    }
    fn min(&self) -> Option<u64> {
        SplaySet::min(self).map(|key| key.number())
    }
    fn max(&self) -> Option<u64> {
        SplaySet::max(self).map(|key| key.number())
    }
    fn clear(&mut self) {
        SplaySet::clear(self)
    }
    fn len(&self) -> usize {
        SplaySet::len(self)
    }
    fn root(&self) -> Option<&Node<K, ()>> {
        SplaySet::root(self)
    }

    fn drain(self) -> Self::Drain {
        self.into_iter()
    }
    fn take_first(drain: &mut Self::Drain) -> Option<Entry> {
        drain.next().as_ref().map(bare)
    }
    fn take_last(drain: &mut Self::Drain) -> Option<Entry> {
        drain.next_back().as_ref().map(bare)
    }
    fn remaining(drain: &Self::Drain) -> usize {
        drain.size_hint().0
    }
    fn drain_root(drain: &Self::Drain) -> Option<&Node<K, ()>> {
        drain.root()
    }
}
