//! Random inputs, guarded buffers, and calls of the library as C makes them.
#![allow(dead_code)]

pub mod background;
pub mod calls;
pub mod inputs;
pub mod movement;
pub mod verdict;

use std::collections::BTreeMap;
use std::fmt::Debug;
use std::io::Write;
use std::path::{Path, PathBuf};

/// SplitMix64.
pub struct Rng(u64);

impl Rng {
    pub fn new(seed: u64) -> Rng {
        Rng(seed)
    }

    pub fn next(&mut self) -> u64 {
        self.0 = self.0.wrapping_add(0x9E37_79B9_7F4A_7C15);
        let mut z = self.0;
        z = (z ^ (z >> 30)).wrapping_mul(0xBF58_476D_1CE4_E5B9);
        z = (z ^ (z >> 27)).wrapping_mul(0x94D0_49BB_1331_11EB);
        z ^ (z >> 31)
    }

    /// From low to high, both included.
    pub fn range(&mut self, low: i64, high: i64) -> i64 {
        low + (self.next() % (high - low + 1) as u64) as i64
    }

    pub fn size(&mut self, low: usize, high: usize) -> usize {
        self.range(low as i64, high as i64) as usize
    }

    pub fn one_in(&mut self, n: u64) -> bool {
        self.next() % n == 0
    }

    pub fn byte(&mut self) -> u8 {
        self.next() as u8
    }

    pub fn pick<T: Clone>(&mut self, from: &[T]) -> T {
        from[self.size(0, from.len() - 1)].clone()
    }
}

/// A buffer to lend, with guards around it.
#[derive(Debug)]
pub struct Guarded<T> {
    all: Vec<T>,
    before: Vec<T>,
}

const GUARD: usize = 32;

impl<T: Clone + PartialEq + Debug> Guarded<T> {
    pub fn new(length: usize, mut value: impl FnMut() -> T) -> Guarded<T> {
        let all: Vec<T> = (0..length + 2 * GUARD).map(|_| value()).collect();
        Guarded {
            before: all.clone(),
            all,
        }
    }

    /// With these elements to lend.
    pub fn around(held: &[T], value: impl FnMut() -> T) -> Guarded<T> {
        let mut guarded = Guarded::new(held.len(), value);
        guarded.lend().clone_from_slice(held);
        guarded.before = guarded.all.clone();
        guarded
    }

    pub fn lend(&mut self) -> &mut [T] {
        let end = self.all.len() - GUARD;
        &mut self.all[GUARD..end]
    }

    pub fn held(&self) -> &[T] {
        &self.all[GUARD..self.all.len() - GUARD]
    }

    /// Nothing is altered but perhaps the first `count` elements that were lent.
    pub fn kept_behind(&self, count: usize) -> bool {
        let after = GUARD + count;
        self.all[..GUARD] == self.before[..GUARD] && self.all[after..] == self.before[after..]
    }

    /// Nothing is altered.
    pub fn kept(&self) -> bool {
        self.all == self.before
    }

    /// Nothing around what was lent is altered.
    pub fn guards_kept(&self) -> bool {
        self.kept_behind(self.all.len() - 2 * GUARD)
    }
}

/// The seed of a run: from HEJSLOPI_SEED, or always the same.
pub fn base_seed() -> u64 {
    match std::env::var("HEJSLOPI_SEED") {
        Ok(text) => text.parse().expect("HEJSLOPI_SEED is a number"),
        Err(_) => 20260101,
    }
}

/// A line that is shown whether or not the test's output is.
pub fn say(line: String) {
    let _ = writeln!(std::io::stderr(), "{line}");
}

/// How often each number was returned.
#[derive(Default)]
pub struct Tally(BTreeMap<u32, u64>);

impl Tally {
    pub fn add(&mut self, number: u32) {
        *self.0.entry(number).or_default() += 1;
    }

    fn line(&self) -> String {
        let calls: u64 = self.0.values().sum();
        let done = self.0.get(&0).copied().unwrap_or(0);
        let refused = self
            .0
            .iter()
            .filter(|n| *n.0 > 0)
            .map(|(n, k)| format!(", {k} no {n}"));
        format!(
            "{calls} calls compared: {done} done{}",
            refused.collect::<String>()
        )
    }
}

/// Tries so many inputs. `one` makes an input from its seed and says what is wrong with the library's answer, with the whole input.
pub fn compare(name: &str, inputs: u64, one: impl Fn(&mut Rng, &mut Tally) -> Result<(), String>) {
    let base = base_seed();
    let mut tally = Tally::default();
    for k in 0..inputs {
        let seed = base.wrapping_mul(1_000_003).wrapping_add(k);
        if let Err(case) = one(&mut Rng::new(seed), &mut tally) {
            let path = Path::new(env!("CARGO_TARGET_TMPDIR")).join(format!(
                "failing-{}-{seed}.txt",
                name.replace([' ', ','], "")
            ));
            std::fs::write(&path, &case).expect("the failing case can be written");
            let first = case.lines().next().unwrap_or("");
            panic!(
                "{name}: input {k} of seed {base}: {first}; the whole case is in {}",
                path.display()
            );
        }
    }
    say(format!(
        "{name}: seed {base}, {inputs} inputs, {}",
        tally.line()
    ));
}

pub fn hex(bytes: &[u8]) -> String {
    bytes
        .iter()
        .map(|b| format!("{b:02X}"))
        .collect::<Vec<_>>()
        .join(" ")
}

/// The folders of vectors that have this file.
pub fn vectors_with(file: &str) -> Vec<PathBuf> {
    let package = Path::new(env!("CARGO_MANIFEST_DIR"));
    let vectors = package.join("../crates/conformance/data/vectors");
    let entries = std::fs::read_dir(vectors).unwrap();
    let mut folders: Vec<PathBuf> = entries.map(|entry| entry.unwrap().path()).collect();
    folders.retain(|folder| folder.join(file).exists());
    folders.sort();
    folders
}
