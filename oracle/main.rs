//! The judge of the port: runs the crate's own splay tree, its comparator
//! wrapped in a counter, on lists of commands, and writes those lists.
//! `README.md` beside this file has the formats.

mod arena;
mod calls;
mod line;
#[cfg(linked)]
mod linked;
mod lists;
mod plain;
mod rows;
mod shape;
#[allow(dead_code)]
mod splay;

use arena::{Answers, Arena, Stop};
use calls::{Map, Set};
use line::{digits, Kind, Line, Reading, KINDS};
use lists::Lists;
use plain::Asked;
use std::io::{self, BufRead, BufWriter, Write};
use std::process::exit;

const USAGE: &str = "usage:
  oracle answers|plain|linked [--shapes] [--every K] [--drain-shapes]   answers to the input on stdin:
                               of the Rust, of the arena in plain words, of the C libraries
  oracle lists KIND                                                     the recorded input
  oracle random KIND SEED COUNT N KEYS                                  a random input
  oracle rows                                                           the table of rows, from the plain arena
KIND is map, set, map64 or set64; numbers are decimal; K, N and KEYS are at least 1";

/// The Rust drops a tree by calls as deep as the tree, and a tree may be as
/// deep as it has nodes.
const STACK_BYTES: usize = 256 << 20;

/// How `answers` writes.
struct Options {
    /// The whole shape instead of its sum.
    shapes: bool,
    /// A shape with each so manieth command only.
    every: u64,
    /// Shapes also while draining.
    drain_shapes: bool,
}

/// Why the program ends early.
enum Failure {
    /// The arguments or the input are at fault; status 2.
    Caller(String),
    /// The Rust is not what it should be, or reading or writing failed;
    /// status 1.
    Here(String),
}

impl From<io::Error> for Failure {
    fn from(error: io::Error) -> Failure {
        Failure::Here(error.to_string())
    }
}

fn main() {
    let work = std::thread::Builder::new().stack_size(STACK_BYTES).spawn(run);
    let (status, why) = match work.expect("no thread").join() {
        Ok(Ok(())) => return,
        Ok(Err(Failure::Caller(why))) => (2, why),
        Ok(Err(Failure::Here(why))) => (1, why),
        // The panic has printed its own message.
        Err(_) => exit(1),
    };
    eprintln!("oracle: {why}");
    exit(status)
}

/// Does what the arguments say. What was written before a failure still goes
/// out.
fn run() -> Result<(), Failure> {
    let arguments: Vec<String> = std::env::args().skip(1).collect();
    let arguments: Vec<&str> = arguments.iter().map(String::as_str).collect();
    let mut out = BufWriter::new(io::stdout().lock());
    match arguments[..] {
        ["answers", ref rest @ ..] => answers(judge, &read_options(rest)?, &mut out)?,
        ["plain", ref rest @ ..] => answers(plain, &read_options(rest)?, &mut out)?,
        #[cfg(linked)]
        ["linked", ref rest @ ..] => answers(linked::new, &read_options(rest)?, &mut out)?,
        ["lists", name] => Lists::new(&mut out, kind(name)?).recorded()?,
        ["rows"] => rows::write(&mut out)?,
        ["random", name, seed, count, slots, keys] => {
            let seed = number(seed, 0, u64::MAX)?;
            let count = number(count, 0, u64::MAX)?;
            let slots = number(slots, 1, 1 << 24)? as u32;
            let keys = number(keys, 1, u32::MAX.into())? as u32;
            Lists::new(&mut out, kind(name)?).random(seed, count, slots, keys)?
        }
        _ => return Err(Failure::Caller(USAGE.into())),
    }
    Ok(out.flush()?)
}

fn read_options(mut rest: &[&str]) -> Result<Options, Failure> {
    let mut options = Options { shapes: false, every: 1, drain_shapes: false };
    loop {
        rest = match *rest {
            [] => return Ok(options),
            ["--shapes", ref rest @ ..] => {
                options.shapes = true;
                rest
            }
            ["--every", every, ref rest @ ..] => {
                options.every = number(every, 1, u64::MAX)?;
                rest
            }
            ["--drain-shapes", ref rest @ ..] => {
                options.drain_shapes = true;
                rest
            }
            _ => return Err(Failure::Caller(USAGE.into())),
        }
    }
}

fn number(text: &str, least: u64, most: u64) -> Result<u64, Failure> {
    match text.parse() {
        Ok(number) if (least..=most).contains(&number) => Ok(number),
        _ => Err(Failure::Caller(format!("{text}: not a number from {least} to {most}\n{USAGE}"))),
    }
}

fn kind(name: &str) -> Result<Kind, Failure> {
    let found = KINDS.into_iter().find(|kind| kind.name() == name);
    found.ok_or_else(|| Failure::Caller(format!("{name}: no kind of arena\n{USAGE}")))
}

/// The crate's own tree as a judge.
fn judge(kind: Kind, slots: u32) -> Result<Box<dyn Answers>, Stop> {
    Ok(match (kind.reading, kind.width) {
        (Reading::Map, 1) => Box::new(Arena::<Map<u32>>::new(slots)),
        (Reading::Set, 1) => Box::new(Arena::<Set<u32>>::new(slots)),
        (Reading::Map, _) => Box::new(Arena::<Map<u64>>::new(slots)),
        (Reading::Set, _) => Box::new(Arena::<Set<u64>>::new(slots)),
    })
}

fn plain(kind: Kind, slots: u32) -> Result<Box<dyn Answers>, Stop> {
    Ok(Box::new(Asked::new(kind, slots)))
}

/// Writes a line for every command of the input, up to the first line that
/// can't be answered.
fn answers(
    new: fn(Kind, u32) -> Result<Box<dyn Answers>, Stop>,
    options: &Options,
    out: &mut impl Write,
) -> Result<(), Failure> {
    let mut arena: Option<(usize, Box<dyn Answers>)> = None;
    let mut commands = 0;
    for (index, bytes) in io::stdin().lock().split(b'\n').enumerate() {
        let stopped = |stop: Stop| match stop {
            Stop::Refused(why) => Failure::Caller(format!("line {}: {why}", index + 1)),
            Stop::Disagreement(what) => Failure::Here(format!("line {}: {what}", index + 1)),
        };
        let refused = |why: &str| Err(stopped(Stop::Refused(why.into())));
        let (width, command) = match line::read(&bytes?) {
            None => return refused("neither n, s, N or S and 8 nor 24 or 32 lower-case hexadecimal digits"),
            Some(Line::New(_, 0)) => return refused("an arena has at least one slot"),
            Some(Line::New(kind, slots)) => {
                arena = Some((kind.width, new(kind, slots).map_err(stopped)?));
                continue;
            }
            Some(Line::Command(width, command)) => (width, command),
        };
        let arena = match &mut arena {
            None => return refused("a command before the first arena"),
            Some((its, _)) if *its != width => return refused("a command of the other edition"),
            Some((_, arena)) => arena,
        };
        commands += 1;
        let answer = arena.answer(command).map_err(stopped)?;
        let shown = commands % options.every == 0 && (options.drain_shapes || !arena.is_draining());
        let shape = match (shown, options.shapes) {
            (false, _) => "--------".to_string(),
            (true, false) => format!("{:08x}", arena.shape_sum()),
            (true, true) => arena.shape_text(),
        };
        writeln!(out, "{} {shape}", digits(&answer.words(width)))?;
    }
    Ok(())
}
