//! A tree's shape, as a sum and as text. Neither depends on where a node lies
//! in memory, and the sum not on the order in which nodes are visited.

use crate::calls::Key;
use crate::line::{digits, key_of, spell};
use crate::splay::node::Node;

/// A node's value as a word: the set's nodes hold none, which counts as 0.
pub trait Word {
    fn word(&self) -> u32;
}

impl Word for u32 {
    fn word(&self) -> u32 {
        *self
    }
}

impl Word for () {
    fn word(&self) -> u32 {
        0
    }
}

/// A tree that can be looked at node by node.
pub trait Nodes {
    type Link: Copy;
    /// How many words a key takes.
    fn width(&self) -> usize;
    fn root(&self) -> Option<Self::Link>;
    fn node(&self, link: Self::Link) -> Seen<Self::Link>;
}

/// A node: its key, its value, its left and its right child.
pub struct Seen<L> {
    key: u64,
    value: u32,
    children: [Option<L>; 2],
}

/// The crate's own tree, by its root.
impl<'a, K: Key, V: Word> Nodes for Option<&'a Node<K, V>> {
    type Link = &'a Node<K, V>;
    fn width(&self) -> usize {
        K::WIDTH
    }
    fn root(&self) -> Option<&'a Node<K, V>> {
        *self
    }
    fn node(&self, link: &'a Node<K, V>) -> Seen<&'a Node<K, V>> {
        Seen { key: link.key.number(), value: link.value.word(), children: [link.left.as_deref(), link.right.as_deref()] }
    }
}

/// The tree in an arena's words, which are well formed.
pub struct Words<'a> {
    pub width: usize,
    pub words: &'a [u32],
}

impl Nodes for Words<'_> {
    type Link = u32;
    fn width(&self) -> usize {
        self.width
    }
    fn root(&self) -> Option<u32> {
        some_link(self.words[1])
    }
    fn node(&self, link: u32) -> Seen<u32> {
        let slot = &self.words[4 + (3 + self.width) * (link as usize - 1)..];
        let (key, rest) = slot.split_at(self.width);
        Seen { key: key_of(key), value: rest[0], children: [some_link(rest[1]), some_link(rest[2])] }
    }
}

fn some_link(link: u32) -> Option<u32> {
    if link == 0 { None } else { Some(link) }
}

/// The prime 2^31 - 1. All sums are taken modulo P.
const P: u64 = 2147483647;

const START: u64 = 1013904223;
const VALUE: Factors = (1597334677, 747796405);
/// For the low word of a key and for its high one, which is 0 where a key is
/// one word: of the node itself, its left child and its right one.
const KEY: [Factors; 2] = [(1664525013, 1103515245), (1220703125, 1977326743)];
const LEFT: [Factors; 2] = [(1181783497, 1640531527), (1162261467, 1801088541)];
const RIGHT: [Factors; 2] = [(1812433253, 907633385), (1406563717, 1742810335)];

/// For a word's high half and for its low one.
type Factors = (u64, u64);

/// The sum over all nodes of `node_sum`, modulo P; 0 for an empty tree.
pub fn sum<T: Nodes>(tree: &T) -> u32 {
    let mut total = 0;
    let mut waiting: Vec<T::Link> = tree.root().into_iter().collect();
    while let Some(link) = waiting.pop() {
        let Seen { key, value, children } = tree.node(link);
        let [left, right] = children.map(|child| child.map(|child| tree.node(child).key));
        total = (total + node_sum(key, value, left, right)) % P;
        waiting.extend(children.into_iter().flatten());
    }
    total as u32
}

/// One node's share, below P: a sum of halves, each with its own factor, then
/// its 17th power. The power is what ties a key to its children: without it
/// the sum over the tree would only know which keys are left children, and
/// not of whom; a low power still mistakes some regular trees for others. 17
/// has no common factor with P - 1, so no two sums meet in one power. No step
/// exceeds 64 bits: a factor times a half, one added, is below 2^48, and a
/// product of two remainders below 2^62.
fn node_sum(key: u64, value: u32, left: Option<u64>, right: Option<u64>) -> u64 {
    let s = (START + words(KEY, key) + halves(VALUE, value) + child(LEFT, left) + child(RIGHT, right)) % P;
    let mut power = s;
    for _ in 0..4 {
        power = power * power % P;
    }
    power * s % P
}

/// The word's high half times the first factor plus its low half times the
/// second. Halves, because whole words that differ by P would be the same.
fn halves(factors: Factors, word: u32) -> u64 {
    factors.0 * u64::from(word >> 16) + factors.1 * u64::from(word & 0xffff)
}

/// The low word's halves and the high word's.
fn words(factors: [Factors; 2], key: u64) -> u64 {
    halves(factors[0], key as u32) + halves(factors[1], (key >> 32) as u32)
}

/// 0 for no child; otherwise as `words` with one added to the low word's high
/// half, so that a child with key 0 differs from none.
fn child(factors: [Factors; 2], key: Option<u64>) -> u64 {
    key.map_or(0, |key| factors[0].0 + words(factors, key))
}

/// The whole shape: `.` for none, `(key:value left right)` for a node.
pub fn text<T: Nodes>(tree: &T) -> String {
    let mut out = String::new();
    append(&mut out, tree, tree.root());
    out
}

fn append<T: Nodes>(out: &mut String, tree: &T, link: Option<T::Link>) {
    let Some(link) = link else { return out.push('.') };
    let Seen { key, value, children: [left, right] } = tree.node(link);
    *out += &format!("({}:{value:08x} ", digits(&spell(tree.width(), key)));
    append(out, tree, left);
    out.push(' ');
    append(out, tree, right);
    out.push(')');
}
