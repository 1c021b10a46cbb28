//! A plain Rust program without proof that plays the same scripts: it answers from a `HashMap` and prints the same lines.
//! It is a measure of what the proved program costs, and no part of the store.

use std::collections::{HashMap, HashSet};
use std::fmt::Write as _;
use std::io::{self, Read, Write};
use std::process::ExitCode;

const SEGMENT_WORDS: u64 = 1024;
const SEGMENTS: u64 = 256;

/// What was made of a call, for the history.
struct Made<'a> {
    stamp: u64,
    rank: u64,
    number: u64,
    key: u64,
    /// The value that was put, or None for a get.
    put: Option<&'a str>,
    found: Option<&'a str>,
}

/// The one session and the one lane.
#[derive(Default)]
struct World<'a> {
    map: HashMap<u64, &'a str>,
    sealed: HashSet<u64>,
    history: Vec<Made<'a>>,
    stamp: u64,
    rank: u64,
    len: u64,
    calls: u64,
    given: u64,
    pending: u64,
    index: u64,
}

/// Where the log ends behind a record of so many words.
fn end_of(len: u64, words: u64) -> u64 {
    let rest = SEGMENT_WORDS - len % SEGMENT_WORDS;
    if rest < words { len + rest + words } else { len + words }
}

impl<'a> World<'a> {
    fn put(&mut self, out: &mut String, key: u64, value: &'a str) {
        self.calls += 1;
        let end = end_of(self.len, 2 + (value.len() as u64).div_ceil(8));
        if SEGMENT_WORDS * SEGMENTS < end {
            self.given += 1;
            let number = self.calls;
            let _ = writeln!(out, "c1 {number} full 0 {SEGMENTS}\nc1 {number} given");
            return;
        }
        self.len = end;
        self.stamp += 1;
        self.rank = 0;
        self.map.insert(key, value);
        self.sealed.insert(key);
        let _ = writeln!(out, "c1 {} stored {}.0.1", self.calls, self.stamp);
        self.keep(key, Some(value), None);
    }

    fn get(&mut self, out: &mut String, key: u64) {
        self.calls += 1;
        self.rank += 1;
        let (number, stamp, rank) = (self.calls, self.stamp, self.rank);
        let found = self.map.get(&key).copied();
        let _ = match found {
            Some(value) => writeln!(out, "c1 {number} ={value} {stamp}.{rank}.1"),
            None => writeln!(out, "c1 {number} absent {stamp}.{rank}.1"),
        };
        if self.sealed.contains(&key) {
            self.pending += 1;
        } else {
            self.index += 1;
        }
        self.keep(key, None, found);
    }

    fn keep(&mut self, key: u64, put: Option<&'a str>, found: Option<&'a str>) {
        self.history.push(Made {
            stamp: self.stamp,
            rank: self.rank,
            number: self.calls,
            key,
            put,
            found,
        });
    }

    fn finish(&mut self, out: &mut String) {
        self.history.sort_by_key(|made| (made.stamp, made.rank));
        let _ = writeln!(out, "history {}", self.history.len());
        for made in &self.history {
            let _ = write!(out, "{}.{}.1 {} ", made.stamp, made.rank, made.number);
            let _ = match (made.put, made.found) {
                (Some(value), _) => writeln!(out, "put {} ={value} stored", made.key),
                (None, Some(value)) => writeln!(out, "get {} ={value}", made.key),
                (None, None) => writeln!(out, "get {} absent", made.key),
            };
        }
        let (calls, given) = (self.calls, self.given);
        let (stamp, len) = (self.stamp, self.len);
        let _ = writeln!(out, "lane 1 live stamp {stamp} len {len} mark {len}");
        let made = self.history.len();
        let _ = writeln!(
            out,
            "calls {calls} made {made} refused {given} unanswered 0 given {given}"
        );
        let (pending, index) = (self.pending, self.index);
        let _ = writeln!(out, "ways value 0 shortcut 0 pending {pending} index {index} cell 0");
        let _ = writeln!(out, "map {}", self.map.len());
    }
}

/// The number in a field, where it has neither sign nor leading zero.
fn number(field: &str) -> Option<u64> {
    let digits = field.bytes().all(|b| b.is_ascii_digit()) && !field.starts_with('0');
    if digits { field.parse().ok() } else { None }
}

/// Plays a line; None where it isn't of the grammar.
fn play<'a>(world: &mut World<'a>, out: &mut String, line: &'a str) -> Option<()> {
    let printable = line.bytes().all(|b| (b' '..=b'~').contains(&b));
    if line.len() > 4096 || !printable {
        return None;
    }
    if line.is_empty() || line.starts_with(';') {
        return Some(());
    }
    let mut fields = line.split(' ');
    if fields.next()? != "c1" {
        return None;
    }
    let verb = fields.next()?;
    let key = number(fields.next()?)?;
    match verb {
        "get" => world.get(out, key),
        "put" => {
            let value = fields.next()?.strip_prefix('=')?;
            if value.len() > 1024 {
                return None;
            }
            world.put(out, key, value);
        }
        _ => return None,
    }
    if fields.next().is_some() { None } else { Some(()) }
}

fn main() -> ExitCode {
    let mut script = String::new();
    if io::stdin().read_to_string(&mut script).is_err() {
        return ExitCode::from(3);
    }
    let mut world = World::default();
    let mut out = String::new();
    let lines = script.strip_suffix('\n').map(|lines| lines.split('\n'));
    for (place, line) in lines.into_iter().flatten().enumerate() {
        if play(&mut world, &mut out, line).is_none() {
            println!("line {}: bad", place + 1);
            return ExitCode::from(6);
        }
    }
    world.finish(&mut out);
    match io::stdout().write_all(out.as_bytes()) {
        Ok(()) => ExitCode::SUCCESS,
        Err(_) => ExitCode::from(4),
    }
}
