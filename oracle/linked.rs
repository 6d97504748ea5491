//! The calls for C of either edition, from the static libraries that
//! `rt lib` writes in crates/host and crates/host64. Each command is a run
//! of its own; and every so often all of them since the arena was made are
//! given once more in one run, which has to give the same answers and words.

use crate::arena::{Answers, Stop};
use crate::line::{key_of, Answer, Command, Kind, Reading};
use crate::shape;

type Make = unsafe extern "C" fn(*mut u32, usize, u32) -> u32;
type Run = unsafe extern "C" fn(*mut u32, usize, *const u32, usize, *mut u32, usize) -> u32;

macro_rules! declared {
    ($($make:ident, $run:ident;)*) => {
        extern "C" {$(
            fn $make(arena: *mut u32, words: usize, slots: u32) -> u32;
            fn $run(
                arena: *mut u32,
                words: usize,
                list: *const u32,
                list_words: usize,
                answers: *mut u32,
                answer_words: usize,
            ) -> u32;
        )*}
    };
}
declared! {
    mingdholep_make, mingdholep_run;
    mingdholep64_make, mingdholep64_run;
}

fn calls(width: usize) -> (Make, Run) {
    if width == 1 { (mingdholep_make, mingdholep_run) } else { (mingdholep64_make, mingdholep64_run) }
}

/// After so many commands they are given again as one run.
const AGAIN_AT: usize = 1000;

struct Linked {
    width: usize,
    words: Vec<u32>,
    taken: bool,
    /// The commands and answers since `start`, which is the arena as it was
    /// before them.
    start: Vec<u32>,
    list: Vec<u32>,
    told: Vec<u32>,
}

/// An arena that is made by the library, with a few words behind it.
pub fn new(kind: Kind, slots: u32) -> Result<Box<dyn Answers>, Stop> {
    if kind.reading == Reading::Set {
        return Err(Stop::Refused("the libraries for C have no set".into()));
    }
    let width = kind.width;
    let mut words = vec![0xa5a5a5a5; 4 + (3 + width) * slots as usize + 4];
    let code = unsafe { calls(width).0(words.as_mut_ptr(), words.len(), slots) };
    if code != 0 {
        return Err(Stop::Refused(format!("the making is refused with {code}")));
    }
    Ok(Box::new(Linked { width, start: words.clone(), words, taken: false, list: vec![], told: vec![] }))
}

/// A run on an arena, with a few words more than it needs for the answers.
fn run(width: usize, words: &mut [u32], list: &[u32]) -> Result<Vec<u32>, Stop> {
    let room = list.len() / (2 + width) * (3 + width);
    let mut answers = vec![0xa5a5a5a5; room + 4];
    let run = calls(width).1;
    let code =
        unsafe { run(words.as_mut_ptr(), words.len(), list.as_ptr(), list.len(), answers.as_mut_ptr(), answers.len()) };
    let behind = [&words[words.len() - 4..], &answers[room..]].concat();
    if code != 0 || behind.iter().any(|word| *word != 0xa5a5a5a5) {
        return Err(Stop::Disagreement(format!("a run returned {code}, and left {behind:x?} behind arena and answers")));
    }
    answers.truncate(room);
    Ok(answers)
}

impl Linked {
    /// The commands kept so far once more, as one run.
    fn again(&mut self) -> Result<(), Stop> {
        let mut words = std::mem::replace(&mut self.start, self.words.clone());
        let told = run(self.width, &mut words, &self.list)?;
        if told != self.told || words != self.words {
            return Err(Stop::Disagreement("one run of many commands and many runs of one differ".into()));
        }
        self.list.clear();
        self.told.clear();
        Ok(())
    }

    fn tree(&self) -> shape::Words<'_> {
        shape::Words { width: self.width, words: &self.words }
    }
}

impl Answers for Linked {
    fn answer(&mut self, command: Command) -> Result<Answer, Stop> {
        self.taken |= matches!(command.number, 9 | 10);
        let list = command.words(self.width);
        let told = run(self.width, &mut self.words, &list)?;
        self.list.extend(&list);
        self.told.extend(&told);
        if self.list.len() >= AGAIN_AT * list.len() {
            self.again()?;
        }
        let [code, ref key @ .., value, comparisons] = *told else { unreachable!("an answer has four words or five") };
        Ok(Answer { code, key: key_of(key), value, comparisons })
    }
    fn is_draining(&self) -> bool {
        self.taken
    }
    fn shape_sum(&self) -> u32 {
        shape::sum(&self.tree())
    }
    fn shape_text(&self) -> String {
        shape::text(&self.tree())
    }
}
