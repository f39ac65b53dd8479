//! The scripts among the vectors: lists of operations on a background, with the answer to each.
mod reference;
mod support;

use hejslopi::{Background, Held};
use reference::background::Memory;
use std::path::Path;

/// How much memory a script can lend, of bytes and of labels.
const WHOLE: usize = 4096;

/// T and the raster of a mean, none, or the number of a refusal.
type Mean = Result<Option<(u64, Vec<u8>)>, u32>;

/// Whatever runs a script.
trait Keeper {
    /// So much memory is lent from now on.
    fn lend(&mut self, rasters: usize, labels: usize);
    fn add(&mut self, still: &[u8], number: u32, tolerance: u32) -> Result<(), u32>;
    fn remove(&mut self, number: u32) -> Result<(), u32>;
    fn mean(&self, room: usize) -> Mean;
}

/// The library, by the calls that are lent all memory.
struct Lent {
    rasters: Vec<u8>,
    labels: Vec<u32>,
    held: Held,
    lent: (usize, usize),
}

impl Keeper for Lent {
    fn lend(&mut self, rasters: usize, labels: usize) {
        self.lent = (rasters, labels);
    }

    fn add(&mut self, still: &[u8], number: u32, tolerance: u32) -> Result<(), u32> {
        let rasters = &mut self.rasters[..self.lent.0];
        let labels = &mut self.labels[..self.lent.1];
        hejslopi::add_still_into(still, number, tolerance, rasters, labels, &mut self.held)
            .map_err(|refusal| refusal.number())
    }

    fn remove(&mut self, number: u32) -> Result<(), u32> {
        let rasters = &mut self.rasters[..self.lent.0];
        let labels = &mut self.labels[..self.lent.1];
        hejslopi::remove_still_from(number, rasters, labels, &mut self.held)
            .map_err(|refusal| refusal.number())
    }

    fn mean(&self, room: usize) -> Mean {
        let mut out = vec![0; room];
        let (rasters, labels) = (&self.rasters[..self.lent.0], &self.labels[..self.lent.1]);
        let done = hejslopi::mean_still_into(rasters, labels, &self.held, &mut out)
            .map_err(|refusal| refusal.number())?;
        Ok(done.map(|mean| (mean.tolerance, out[..mean.length].to_vec())))
    }
}

/// The library, by the type that has memory of its own.
impl Keeper for Background {
    fn lend(&mut self, _rasters: usize, _labels: usize) {}

    fn add(&mut self, still: &[u8], number: u32, tolerance: u32) -> Result<(), u32> {
        Background::add(self, still, number, tolerance).map_err(|refusal| refusal.number())
    }

    fn remove(&mut self, number: u32) -> Result<(), u32> {
        Background::remove(self, number).map_err(|refusal| refusal.number())
    }

    fn mean(&self, _room: usize) -> Mean {
        let mean = Background::mean(self).map_err(|refusal| refusal.number())?;
        Ok(mean.map(|mean| (mean.tolerance, mean.raster)))
    }
}

/// The plain reading of lent memory.
struct Plain {
    whole: Memory,
    lent: (usize, usize),
}

impl Plain {
    fn part(&self) -> Memory {
        Memory {
            rasters: self.whole.rasters[..self.lent.0].to_vec(),
            labels: self.whole.labels[..self.lent.1].to_vec(),
            held: self.whole.held,
        }
    }

    fn take_back(&mut self, part: Memory) {
        self.whole.rasters[..self.lent.0].copy_from_slice(&part.rasters);
        self.whole.labels[..self.lent.1].copy_from_slice(&part.labels);
        self.whole.held = part.held;
    }
}

impl Keeper for Plain {
    fn lend(&mut self, rasters: usize, labels: usize) {
        self.lent = (rasters, labels);
    }

    fn add(&mut self, still: &[u8], number: u32, tolerance: u32) -> Result<(), u32> {
        let part = self.part().add(still, number, tolerance)?;
        self.take_back(part);
        Ok(())
    }

    fn remove(&mut self, number: u32) -> Result<(), u32> {
        let part = self.part().remove(number)?;
        self.take_back(part);
        Ok(())
    }

    fn mean(&self, room: usize) -> Mean {
        self.part().mean(room)
    }
}

// Scripts.

fn lines(folder: &Path, name: &str) -> Vec<String> {
    let text = std::fs::read_to_string(folder.join(name)).unwrap();
    text.lines().map(str::to_string).collect()
}

/// The answer to a step as the vectors have it; none where the step only says how much is lent.
fn answer(keeper: &mut dyn Keeper, folder: &Path, step: &str) -> Option<String> {
    let words: Vec<&str> = step.split(' ').collect();
    let number = |k: usize| words[k].parse::<u32>().unwrap();
    let changed = match words[0] {
        "lend" => {
            keeper.lend(number(1) as usize, number(2) as usize);
            return None;
        }
        "mean" => return Some(mean_words(keeper.mean(number(1) as usize))),
        "add" => {
            let still = std::fs::read(folder.join(words[3])).unwrap();
            keeper.add(&still, number(1), number(2))
        }
        "take" => keeper.remove(number(1)),
        _ => panic!("{}: no step is called {}", folder.display(), words[0]),
    };
    Some(changed.map_or_else(|refusal| format!("no {refusal}"), |()| "ok".into()))
}

fn mean_words(mean: Mean) -> String {
    match mean {
        Err(refusal) => format!("no {refusal}"),
        Ok(None) => "none".into(),
        Ok(Some((tolerance, raster))) => {
            let hex: String = raster.iter().map(|byte| format!("{byte:02x}")).collect();
            format!("mean {tolerance} {hex}")
        }
    }
}

/// Every script, each by a new keeper, and how many answers were compared.
fn try_scripts(keeper: impl Fn() -> Box<dyn Keeper>) -> usize {
    let mut tried = 0;
    for folder in support::vectors_with("script") {
        let mut keeper = keeper();
        let steps = lines(&folder, "script");
        let answers: Vec<String> = steps
            .iter()
            .filter_map(|step| answer(&mut *keeper, &folder, step))
            .collect();
        assert_eq!(answers, lines(&folder, "line"), "{}", folder.display());
        tried += answers.len();
    }
    tried
}

#[test]
fn scripts_in_lent_memory() {
    let tried = try_scripts(|| {
        Box::new(Lent {
            rasters: vec![0; WHOLE],
            labels: vec![0; WHOLE],
            held: Held::default(),
            lent: (0, 0),
        })
    });
    assert!(tried >= 1000, "{tried} answers");
}

#[test]
fn scripts_by_the_plain_reading() {
    let tried = try_scripts(|| {
        let whole = Memory {
            rasters: vec![0; WHOLE],
            labels: vec![0; WHOLE],
            held: [0; 4],
        };
        Box::new(Plain {
            whole,
            lent: (0, 0),
        })
    });
    assert!(tried >= 1000, "{tried} answers");
}

/// Memory of its own is never too short: without the steps that were lent too little, all others have their answers.
#[test]
fn scripts_in_memory_of_its_own() {
    let mut tried = 0;
    for folder in support::vectors_with("script") {
        let mut keeper = Background::new();
        let steps = lines(&folder, "script");
        let answered = steps.iter().filter(|step| !step.starts_with("lend"));
        for (step, expected) in answered.zip(lines(&folder, "line")) {
            if expected != "no 20" {
                let said = answer(&mut keeper, &folder, step);
                assert_eq!(said, Some(expected), "{}: {step}", folder.display());
                tried += 1;
            }
        }
    }
    assert!(tried >= 1000, "{tried} answers");
}
