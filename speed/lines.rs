// The line program of docs/RULES.md in ordinary safe Rust, for the clock alone: the same lines in, the same lines out, nothing proved. It is
// written as one would write it to be quick: nodes in one vector with indices for links, tables for the digits, input and output in large
// pieces.
#![forbid(unsafe_code)]

use std::cmp::Ordering;
use std::io::{self, ErrorKind, Read, Write};

// The entries that fit.
const SLOTS: u32 = 1024;

// No node. The vector has a node there all the same, the splay's header: its right link holds the left tree and its left link the right
// tree, so that both trees have an end to hang a node on from the start.
const NONE: u32 = 0;

// Codes of answers.
const FOUND: u32 = 0;
const ABSENT: u32 = 1;
const NEW: u32 = 2;
const REPLACED: u32 = 3;
const REMOVED: u32 = 4;
const FULL: u32 = 5;
const COUNT: u32 = 6;
const UNKNOWN: u32 = 7;
const BAD_LINE: u32 = 15;

// Code, key, value, comparisons.
type Answer = [u32; 4];

const BAD: Answer = [BAD_LINE, 0, 0, 0];

// A free node's left link is the next free node.
#[derive(Clone, Copy, Default)]
struct Node {
    key: u32,
    value: u32,
    left: u32,
    right: u32,
}

struct Map {
    nodes: Vec<Node>,
    root: u32,
    size: u32,
    free: u32,
}

impl Map {
    fn new() -> Map {
        let mut map = Map {
            nodes: vec![Node::default(); SLOTS as usize + 1],
            root: NONE,
            size: 0,
            free: NONE,
        };
        map.clear();
        map
    }

    // All nodes free, in the order of their indices.
    fn clear(&mut self) {
        for i in 1..=SLOTS {
            self.nodes[i as usize] = Node {
                left: if i < SLOTS { i + 1 } else { NONE },
                ..Node::default()
            };
        }
        self.root = NONE;
        self.size = 0;
        self.free = 1;
    }

    fn command(&mut self, number: u32, key: u32, value: u32) -> Answer {
        match number {
            1 => self.get(key),
            2 => self.write(key, value),
            3 => self.next(key),
            4 => self.prev(key),
            5 => self.insert(key, value),
            6 => self.remove(key),
            7 => self.min(),
            8 => self.max(),
            9 => self.take_first(),
            10 => self.take_last(),
            11 => {
                let dropped = self.size;
                self.clear();
                [COUNT, 0, dropped, 0]
            }
            12 => [COUNT, 0, self.size, 0],
            _ => [UNKNOWN, 0, 0, 0],
        }
    }

    // Splays the tree at start, which is not empty, and gives its new root and the comparisons made.
    fn splay(&mut self, start: u32, key: u32) -> (u32, u32) {
        let nodes = &mut self.nodes[..];
        let header = NONE as usize;
        let mut left_end = header;
        let mut right_end = header;
        let mut node = start as usize;
        let mut count = 0;
        loop {
            count += 1;
            match key.cmp(&nodes[node].key) {
                Ordering::Equal => break,
                Ordering::Less => {
                    let child = nodes[node].left;
                    if child == NONE {
                        break;
                    }
                    count += 1;
                    if key < nodes[child as usize].key {
                        nodes[node].left = nodes[child as usize].right;
                        nodes[child as usize].right = node as u32;
                        node = child as usize;
                        if nodes[node].left == NONE {
                            break;
                        }
                    }
                    nodes[right_end].left = node as u32;
                    right_end = node;
                    node = nodes[node].left as usize;
                }
                Ordering::Greater => {
                    let child = nodes[node].right;
                    if child == NONE {
                        break;
                    }
                    count += 1;
                    if key > nodes[child as usize].key {
                        nodes[node].right = nodes[child as usize].left;
                        nodes[child as usize].left = node as u32;
                        node = child as usize;
                        if nodes[node].right == NONE {
                            break;
                        }
                    }
                    nodes[left_end].right = node as u32;
                    left_end = node;
                    node = nodes[node].right as usize;
                }
            }
        }
        nodes[left_end].right = nodes[node].left;
        nodes[right_end].left = nodes[node].right;
        nodes[node].left = nodes[header].right;
        nodes[node].right = nodes[header].left;
        (node as u32, count)
    }

    // Splays the whole tree, which is not empty, and compares with the root: how it compares, and the comparisons made.
    fn bring(&mut self, key: u32) -> (Ordering, u32) {
        let (root, count) = self.splay(self.root, key);
        self.root = root;
        (key.cmp(&self.nodes[root as usize].key), count + 1)
    }

    fn get(&mut self, key: u32) -> Answer {
        if self.root == NONE {
            return [ABSENT, 0, 0, 0];
        }
        match self.bring(key) {
            (Ordering::Equal, count) => [FOUND, key, self.nodes[self.root as usize].value, count],
            (_, count) => [ABSENT, 0, 0, count],
        }
    }

    fn write(&mut self, key: u32, value: u32) -> Answer {
        if self.root == NONE {
            return [ABSENT, 0, 0, 0];
        }
        match self.bring(key) {
            (Ordering::Equal, count) => [REPLACED, key, self.replace(value), count],
            (_, count) => [ABSENT, 0, 0, count],
        }
    }

    // Gives the root another value; its old one comes back.
    fn replace(&mut self, value: u32) -> u32 {
        std::mem::replace(&mut self.nodes[self.root as usize].value, value)
    }

    fn next(&mut self, key: u32) -> Answer {
        if self.root == NONE {
            return [ABSENT, 0, 0, 0];
        }
        let (root, mut count) = self.splay(self.root, key);
        self.root = root;
        let mut best = NONE;
        let mut at = root;
        while at != NONE {
            count += 1;
            let node = &self.nodes[at as usize];
            if key < node.key {
                best = at;
                at = node.left;
            } else {
                at = node.right;
            }
        }
        self.entry(best, count)
    }

    fn prev(&mut self, key: u32) -> Answer {
        if self.root == NONE {
            return [ABSENT, 0, 0, 0];
        }
        let (root, mut count) = self.splay(self.root, key);
        self.root = root;
        let mut best = NONE;
        let mut at = root;
        while at != NONE {
            count += 1;
            let node = &self.nodes[at as usize];
            if key > node.key {
                best = at;
                at = node.right;
            } else {
                at = node.left;
            }
        }
        self.entry(best, count)
    }

    // The answer of a search that ended with this node, or with none.
    fn entry(&self, at: u32, count: u32) -> Answer {
        if at == NONE {
            return [ABSENT, 0, 0, count];
        }
        let node = &self.nodes[at as usize];
        [FOUND, node.key, node.value, count]
    }

    fn insert(&mut self, key: u32, value: u32) -> Answer {
        let mut left = NONE;
        let mut right = NONE;
        let mut count = 0;
        if self.root != NONE {
            let (order, compared) = self.bring(key);
            count = compared;
            if order == Ordering::Equal {
                return [REPLACED, key, self.replace(value), count];
            }
            if self.size == SLOTS {
                return [FULL, 0, 0, count];
            }
            let old = &mut self.nodes[self.root as usize];
            if order == Ordering::Less {
                left = std::mem::replace(&mut old.left, NONE);
                right = self.root;
            } else {
                right = std::mem::replace(&mut old.right, NONE);
                left = self.root;
            }
        }
        let slot = self.free;
        let node = &mut self.nodes[slot as usize];
        self.free = node.left;
        *node = Node {
            key,
            value,
            left,
            right,
        };
        self.root = slot;
        self.size += 1;
        [NEW, key, 0, count]
    }

    fn remove(&mut self, key: u32) -> Answer {
        if self.root == NONE {
            return [ABSENT, 0, 0, 0];
        }
        let (order, mut count) = self.bring(key);
        if order != Ordering::Equal {
            return [ABSENT, 0, 0, count];
        }
        let gone = self.root;
        let Node { left, right, .. } = self.nodes[gone as usize];
        self.root = if left == NONE {
            right
        } else {
            // All of the left tree is smaller, so its last node rises and has no right child.
            let (top, compared) = self.splay(left, key);
            count += compared;
            self.nodes[top as usize].right = right;
            top
        };
        let node = self.release(gone);
        [REMOVED, node.key, node.value, count]
    }

    // Makes a node the first free one and gives what it held.
    fn release(&mut self, at: u32) -> Node {
        let empty = Node {
            left: self.free,
            ..Node::default()
        };
        self.free = at;
        self.size -= 1;
        std::mem::replace(&mut self.nodes[at as usize], empty)
    }

    fn min(&self) -> Answer {
        let mut at = self.root;
        let mut last = NONE;
        while at != NONE {
            last = at;
            at = self.nodes[at as usize].left;
        }
        self.entry(last, 0)
    }

    fn max(&self) -> Answer {
        let mut at = self.root;
        let mut last = NONE;
        while at != NONE {
            last = at;
            at = self.nodes[at as usize].right;
        }
        self.entry(last, 0)
    }

    fn take_first(&mut self) -> Answer {
        if self.root == NONE {
            return [ABSENT, 0, 0, 0];
        }
        let mut root = self.root;
        loop {
            let child = self.nodes[root as usize].left;
            if child == NONE {
                break;
            }
            self.nodes[root as usize].left = self.nodes[child as usize].right;
            self.nodes[child as usize].right = root;
            root = child;
        }
        self.root = self.nodes[root as usize].right;
        let node = self.release(root);
        [REMOVED, node.key, node.value, 0]
    }

    fn take_last(&mut self) -> Answer {
        if self.root == NONE {
            return [ABSENT, 0, 0, 0];
        }
        let mut root = self.root;
        loop {
            let child = self.nodes[root as usize].right;
            if child == NONE {
                break;
            }
            self.nodes[root as usize].right = self.nodes[child as usize].left;
            self.nodes[child as usize].left = root;
            root = child;
        }
        self.root = self.nodes[root as usize].left;
        let node = self.release(root);
        [REMOVED, node.key, node.value, 0]
    }
}

// A command's digits.
const DIGITS: usize = 24;

// What the table has for a byte that is no digit: a bit that no digit has.
const NO_DIGIT: u8 = 16;

const DIGIT_OF: [u8; 256] = digit_of();

const fn digit_of() -> [u8; 256] {
    let mut table = [NO_DIGIT; 256];
    let mut d = 0;
    while d < 16 {
        table[BYTE_OF[d] as usize] = d as u8;
        d += 1;
    }
    table
}

const BYTE_OF: &[u8; 16] = b"0123456789abcdef";

// The word that eight digits spell; in seen the bits of all of them gather.
fn word(digits: &[u8], seen: &mut u8) -> u32 {
    let mut word = 0;
    for &byte in digits {
        let digit = DIGIT_OF[byte as usize];
        *seen |= digit;
        word = word << 4 | u32::from(digit);
    }
    word
}

// The command in 24 bytes, if all of them are digits.
fn parse(line: &[u8]) -> Option<(u32, u32, u32)> {
    let mut seen = 0;
    let number = word(&line[..8], &mut seen);
    let key = word(&line[8..16], &mut seen);
    let value = word(&line[16..DIGITS], &mut seen);
    if seen & NO_DIGIT == 0 {
        Some((number, key, value))
    } else {
        None
    }
}

fn write_answer(out: &mut Vec<u8>, answer: Answer) {
    let mut line = [b'\n'; 33];
    for (digits, word) in line.chunks_exact_mut(8).zip(answer) {
        let mut rest = word;
        for digit in digits.iter_mut().rev() {
            *digit = BYTE_OF[(rest & 15) as usize];
            rest >>= 4;
        }
    }
    out.extend_from_slice(&line);
}

// Answers the complete lines at the start of the input and gives the bytes that they took.
fn answer_lines(map: &mut Map, input: &[u8], out: &mut Vec<u8>) -> usize {
    let mut at = 0;
    loop {
        let rest = &input[at..];
        // Nearly every line is a good one: its newline is looked for at its place first. A newline is no digit, so there is none before it.
        if rest.len() > DIGITS && rest[DIGITS] == b'\n' {
            if let Some((number, key, value)) = parse(&rest[..DIGITS]) {
                write_answer(out, map.command(number, key, value));
                at += DIGITS + 1;
                continue;
            }
        }
        match rest.iter().position(|&byte| byte == b'\n') {
            Some(length) => {
                write_answer(out, BAD);
                at += length + 1;
            }
            None => return at,
        }
    }
}

// Reads, answers all complete lines, writes the answers, and only then reads again.
fn run(input: &mut impl Read, output: &mut impl Write) -> io::Result<()> {
    let mut map = Map::new();
    let mut buffer = vec![0; 65536];
    let mut out = Vec::with_capacity(2 * buffer.len());
    // The bytes at the start of the buffer that are of a line not ended yet.
    let mut kept = 0;
    loop {
        let end = match input.read(&mut buffer[kept..]) {
            Ok(0) => break,
            Ok(read) => kept + read,
            Err(error) if error.kind() == ErrorKind::Interrupted => continue,
            Err(error) => return Err(error),
        };
        let done = answer_lines(&mut map, &buffer[..end], &mut out);
        output.write_all(&out)?;
        output.flush()?;
        out.clear();
        // A line of more than 24 bytes is bad whatever it holds: 25 of them are enough to remember that.
        kept = (end - done).min(DIGITS + 1);
        buffer.copy_within(done..done + kept, 0);
    }
    if kept > 0 {
        let answer = match parse_last(&buffer[..kept]) {
            Some((number, key, value)) => map.command(number, key, value),
            None => BAD,
        };
        write_answer(&mut out, answer);
        output.write_all(&out)?;
        output.flush()?;
    }
    Ok(())
}

// The command of a last line without its newline.
fn parse_last(line: &[u8]) -> Option<(u32, u32, u32)> {
    if line.len() == DIGITS {
        parse(line)
    } else {
        None
    }
}

fn main() {
    if let Err(error) = run(&mut io::stdin().lock(), &mut io::stdout().lock()) {
        eprintln!("lines: {}", error);
        std::process::exit(1);
    }
}
