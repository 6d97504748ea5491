//! The arena of docs/RULES.md once more: its words in a vector, and the twelve
//! commands straight from its text. It is a second source, also for what the
//! Rust has no likeness of: slots, the free chain, takes among other
//! commands. It is made to be read beside that page and not to be fast;
//! `record` holds it to the Rust's recorded answers.

use crate::arena::{Answers, Stop, ABSENT, COUNT, FOUND, FULL, NEW, REMOVED, REPLACED, UNKNOWN};
use crate::line::{key_of, spell, Answer, Command, Kind, Reading};
use crate::shape;
use std::cmp::Ordering::{self, Equal, Greater, Less};

/// The header's words.
pub const SLOTS: usize = 0;
pub const ROOT: usize = 1;
pub const SIZE: usize = 2;
pub const FREE: usize = 3;

/// "The mirror image" of a rule is the same rule at the other side.
#[derive(Clone, Copy, PartialEq)]
pub enum Side {
    Left,
    Right,
}
use Side::{Left, Right};

impl Side {
    fn other(self) -> Side {
        if self == Left { Right } else { Left }
    }

    /// The side on which a key lies that compares so, `None` if equal.
    fn of(order: Ordering) -> Option<Side> {
        match order {
            Less => Some(Left),
            Equal => None,
            Greater => Some(Right),
        }
    }
}

/// "A link is 0 for none, or slot number plus 1."
type Link = u32;

/// An answer without its count: code, key, value.
type Said = (u32, u64, u32);

const NO_ENTRY: Said = (ABSENT, 0, 0);

pub struct Plain {
    /// How many words a key takes, the high one first.
    pub width: usize,
    pub words: Vec<u32>,
    /// The comparisons of the command at hand.
    pub count: u32,
}

impl Plain {
    /// "Making an arena sets size and root 0 and chains the slots 0, 1, 2 and
    /// so on."
    pub fn new(width: usize, slots: u32) -> Plain {
        let mut arena = Plain { width, words: vec![slots, 0, 0, 0], count: 0 };
        arena.words.resize(4 + (3 + width) * slots as usize, 0);
        for slot in (1..=slots).rev() {
            arena.chain(slot);
        }
        arena
    }

    /// One command, "number, key, value", as the map or the set reads it;
    /// gives the answer, "code, key, value, comparisons". The set
    /// "takes the same commands but 2, which is UNKNOWN there", "its inserts
    /// store value 0", and it "gives 0 for every entry's value, old values
    /// too; COUNT and refusals are as the map's".
    pub fn ask(&mut self, reading: Reading, Command { number, key, value }: Command) -> Answer {
        let set = reading == Reading::Set;
        let value = if set { 0 } else { value };
        self.count = 0;
        let (code, key, value) = match number {
            2 if set => (UNKNOWN, 0, 0),
            _ => self.perform(number, key, value),
        };
        let value = if set && code != COUNT { 0 } else { value };
        Answer { code, key, value, comparisons: self.count }
    }

    fn perform(&mut self, number: u32, key: u64, value: u32) -> Said {
        match number {
            1 => if self.is_brought(key) { self.entry(FOUND, self.words[ROOT]) } else { NO_ENTRY },
            2 => if self.is_brought(key) { self.replace(value) } else { NO_ENTRY },
            3 => self.neighbour(key, Right),
            4 => self.neighbour(key, Left),
            5 => self.insert(key, value),
            6 => self.remove(key),
            7 => self.outermost(Left),
            8 => self.outermost(Right),
            9 => self.take(Left),
            10 => self.take(Right),
            11 => self.clear(),
            12 => (COUNT, 0, self.words[SIZE]),
            _ => (UNKNOWN, 0, 0),
        }
    }

    // The splay, step by step.

    /// Splays the tree under a root that is not 0, and gives its new root.
    fn splay(&mut self, root: Link, key: u64) -> Link {
        // The left tree and the right tree.
        let mut gathered = [0, 0];
        let mut node = root;
        while let Some(side) = Side::of(self.compare(key, node)) {
            let child = self.child(node, side);
            if child == 0 {
                break;
            }
            if Side::of(self.compare(key, child)) == Some(side) {
                node = self.rotate(node, side);
                if self.child(node, side) == 0 {
                    break;
                }
            }
            // Link: going left, the node joins the right tree at its smallest
            // end, and its left child becomes the node.
            let next = self.child(node, side);
            self.set_child(node, side, 0);
            let tree = &mut gathered[side.other() as usize];
            *tree = self.hang(*tree, side, node);
            node = next;
        }
        // The left subtree goes to the right end of the left tree, the right
        // one to the left end of the right tree.
        for side in [Left, Right] {
            let tree = self.hang(gathered[side as usize], side.other(), self.child(node, side));
            self.set_child(node, side, tree);
        }
        node
    }

    /// The node's child on that side comes up; its other child goes over to
    /// the node, which is now below it. Gives the child.
    fn rotate(&mut self, node: Link, side: Side) -> Link {
        let child = self.child(node, side);
        self.set_child(node, side, self.child(child, side.other()));
        self.set_child(child, side.other(), node);
        child
    }

    /// The tree, a part hung at its end on that side.
    fn hang(&mut self, tree: Link, side: Side, part: Link) -> Link {
        if tree == 0 {
            return part;
        }
        let mut end = tree;
        while self.child(end, side) != 0 {
            end = self.child(end, side);
        }
        self.set_child(end, side, part);
        tree
    }

    /// "Splay, then compare with the root (one more count)." `None`, and no
    /// comparison, on an empty tree.
    fn bring(&mut self, key: u64) -> Option<Ordering> {
        if self.words[ROOT] == 0 {
            return None;
        }
        self.words[ROOT] = self.splay(self.words[ROOT], key);
        Some(self.compare(key, self.words[ROOT]))
    }

    fn is_brought(&mut self, key: u64) -> bool {
        self.bring(key) == Some(Equal)
    }

    // The commands.

    /// The value of the root's entry is replaced.
    fn replace(&mut self, value: u32) -> Said {
        let said = self.entry(REPLACED, self.words[ROOT]);
        let place = self.place(self.words[ROOT]) + self.width;
        self.words[place] = value;
        said
    }

    /// Next lies on the right, prev on the left: "walk from the root until no
    /// child is left, one count per node met; an equal key goes right for
    /// next, left for prev".
    fn neighbour(&mut self, key: u64, side: Side) -> Said {
        if self.words[ROOT] == 0 {
            return NO_ENTRY;
        }
        self.words[ROOT] = self.splay(self.words[ROOT], key);
        let mut node = self.words[ROOT];
        let mut best = 0;
        while node != 0 {
            let way = Side::of(self.compare(key, node)).unwrap_or(side);
            if way != side {
                best = node;
            }
            node = self.child(node, way);
        }
        self.entry(FOUND, best)
    }

    fn insert(&mut self, key: u64, value: u32) -> Said {
        let met = self.bring(key);
        if met == Some(Equal) {
            return self.replace(value);
        }
        if self.words[SIZE] == self.words[SLOTS] {
            return (FULL, 0, 0);
        }
        let (old, new) = (self.words[ROOT], self.take_slot(key, value));
        // "The new node is the root, taking the old root's left subtree if
        // the key is less (old root to its right), or the mirror."
        if let Some(side) = met.and_then(Side::of) {
            self.set_child(new, side, self.child(old, side));
            self.set_child(old, side, 0);
            self.set_child(new, side.other(), old);
        }
        self.words[ROOT] = new;
        (NEW, key, 0)
    }

    /// "If equal, splay the left subtree with the same key (counts added) and
    /// hang the right subtree on it; no left: the right becomes the tree."
    fn remove(&mut self, key: u64) -> Said {
        if !self.is_brought(key) {
            return NO_ENTRY;
        }
        let root = self.words[ROOT];
        let said = self.entry(REMOVED, root);
        let (left, right) = (self.child(root, Left), self.child(root, Right));
        self.words[ROOT] = right;
        if left != 0 {
            let top = self.splay(left, key);
            self.words[ROOT] = self.hang(top, Right, right);
        }
        self.free(root);
        said
    }

    /// "No splay, no count, no change."
    fn outermost(&self, side: Side) -> Said {
        let mut node = self.words[ROOT];
        while node != 0 && self.child(node, side) != 0 {
            node = self.child(node, side);
        }
        self.entry(FOUND, node)
    }

    /// "Rotate the left (right) child up until there is none, remove the
    /// root, its other child taking its place; no count."
    fn take(&mut self, side: Side) -> Said {
        let mut root = self.words[ROOT];
        if root == 0 {
            return NO_ENTRY;
        }
        while self.child(root, side) != 0 {
            root = self.rotate(root, side);
        }
        let said = self.entry(REMOVED, root);
        self.words[ROOT] = self.child(root, side.other());
        self.free(root);
        said
    }

    /// "The words of a newly made arena of N slots."
    fn clear(&mut self) -> Said {
        let dropped = self.words[SIZE];
        *self = Plain::new(self.width, self.words[SLOTS]);
        (COUNT, 0, dropped)
    }

    // Slots.

    /// "An insert takes the first free slot." There is one.
    fn take_slot(&mut self, key: u64, value: u32) -> Link {
        let slot = self.words[FREE];
        self.words[FREE] = self.child(slot, Left);
        self.words[SIZE] += 1;
        self.fill(slot, key, [value, 0, 0]);
        slot
    }

    fn free(&mut self, slot: Link) {
        self.words[SIZE] -= 1;
        self.chain(slot);
    }

    /// "A freed slot becomes the first." "A free slot holds key 0, value 0,
    /// left = next free link, right = M."
    fn chain(&mut self, slot: Link) {
        self.fill(slot, 0, [0, self.words[FREE], u32::MAX]);
        self.words[FREE] = slot;
    }

    /// A slot's words: key, value, left link, right link.
    fn fill(&mut self, slot: Link, key: u64, rest: [u32; 3]) {
        let (place, key) = (self.place(slot), spell(self.width, key));
        self.words[place..place + self.width].copy_from_slice(&key);
        self.words[place + self.width..][..3].copy_from_slice(&rest);
    }

    /// Where a slot's words begin: "4+4s", where a key is one word.
    fn place(&self, slot: Link) -> usize {
        4 + (3 + self.width) * (slot as usize - 1)
    }

    pub fn child(&self, slot: Link, side: Side) -> Link {
        self.words[self.place(slot) + self.width + 1 + side as usize]
    }

    fn set_child(&mut self, slot: Link, side: Side, child: Link) {
        let place = self.place(slot) + self.width + 1 + side as usize;
        self.words[place] = child;
    }

    pub fn key(&self, slot: Link) -> u64 {
        key_of(&self.words[self.place(slot)..][..self.width])
    }

    /// "Each comparison counts one."
    fn compare(&mut self, key: u64, slot: Link) -> Ordering {
        self.count += 1;
        key.cmp(&self.key(slot))
    }

    /// A code with the slot's entry; ABSENT for no slot.
    pub fn entry(&self, code: u32, slot: Link) -> Said {
        if slot == 0 {
            return NO_ENTRY;
        }
        (code, self.key(slot), self.words[self.place(slot) + self.width])
    }
}

/// A plain arena of one kind, as the input has it.
pub struct Asked {
    kind: Kind,
    arena: Plain,
    taken: bool,
}

impl Asked {
    pub fn new(kind: Kind, slots: u32) -> Asked {
        Asked { kind, arena: Plain::new(kind.width, slots), taken: false }
    }

    fn tree(&self) -> shape::Words<'_> {
        shape::Words { width: self.kind.width, words: &self.arena.words }
    }
}

impl Answers for Asked {
    fn answer(&mut self, command: Command) -> Result<Answer, Stop> {
        self.taken |= matches!(command.number, 9 | 10);
        Ok(self.arena.ask(self.kind.reading, command))
    }
    fn is_draining(&self) -> bool {
        self.taken
    }
    fn shape_sum(&self) -> u32 {
        shape::sum(&self.tree())
    }
    fn shape_text(&self) -> String {
        shape::text(&self.tree())
    }
}
