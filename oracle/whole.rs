//! The whole calls of docs/RULES.md on the plain arena: what they check, what
//! they refuse and in which order.

use crate::arena::FOUND;
use crate::line::{Command, Reading};
use crate::plain::Side::{Left, Right};
use crate::plain::{Plain, FREE, ROOT, SIZE, SLOTS};

/// "N, the number of slots, from 1 to 4,095".
const MOST_SLOTS: u32 = 4095;

/// "10 SIZE", "11 SHORT".
pub fn make(width: usize, arena: &mut [u32], slots: u32) -> u32 {
    if !(1..=MOST_SLOTS).contains(&slots) {
        return 10;
    }
    let made = Plain::new(width, slots);
    if arena.len() < made.words.len() {
        return 11;
    }
    arena[..made.words.len()].copy_from_slice(&made.words);
    0
}

/// "12 DAMAGED", "13 RAGGED", "14 NO ROOM".
pub fn run(width: usize, arena: &mut [u32], list: &[u32], answers: &mut [u32]) -> u32 {
    let (command, answer) = (2 + width, 3 + width);
    if !is_well_formed(width, arena) {
        return 12;
    }
    if list.len() % command != 0 {
        return 13;
    }
    if answers.len() < answer * (list.len() / command) {
        return 14;
    }
    let slots_end = 4 + (3 + width) * arena[SLOTS] as usize;
    let mut plain = Plain { width, words: arena[..slots_end].to_vec(), count: 0 };
    for (words, place) in list.chunks(command).zip(answers.chunks_mut(answer)) {
        place.copy_from_slice(&plain.ask(Reading::Map, Command::of_words(words)).words(width));
    }
    arena[..slots_end].copy_from_slice(&plain.words);
    0
}

/// "An arena is well formed when all of this holds", point by point.
fn is_well_formed(width: usize, words: &[u32]) -> bool {
    // 1: the words of a header, N, the words of the slots.
    let Some(&n) = words.get(SLOTS) else { return false };
    if !(1..=MOST_SLOTS).contains(&n) || words.len() < 4 + (3 + width) * n as usize {
        return false;
    }
    // 2: root link, size, first free link.
    if words[ROOT] > n || words[SIZE] > n || words[FREE] > n {
        return false;
    }
    let arena = Plain { width, words: words.to_vec(), count: 0 };
    // 3 and 4: from left to right, no link above N and no slot twice.
    let mut met = vec![false; n as usize + 1];
    let mut keys = Vec::new();
    let (mut node, mut above) = (words[ROOT], Vec::new());
    while node != 0 || !above.is_empty() {
        while node != 0 {
            if node > n || met[node as usize] {
                return false;
            }
            met[node as usize] = true;
            above.push(node);
            node = arena.child(node, Left);
        }
        let Some(slot) = above.pop() else { break };
        keys.push(arena.key(slot));
        node = arena.child(slot, Right);
    }
    // 5 and 6: as many nodes as the size says, keys that ascend.
    if keys.len() != words[SIZE] as usize || keys.windows(2).any(|pair| pair[0] >= pair[1]) {
        return false;
    }
    // 7: the chain.
    let mut free = words[FREE];
    for _ in words[SIZE]..n {
        if free == 0 || free > n || arena.entry(FOUND, free) != (FOUND, 0, 0) || arena.child(free, Right) != u32::MAX {
            return false;
        }
        free = arena.child(free, Left);
    }
    free == 0
}
