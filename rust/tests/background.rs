//! A background against two plain readings: lists of operations in lent memory, with guards around it, and in memory of its own.
//! HEJSLOPI_SEED=N tries other lists.
mod reference;
mod support;

use hejslopi::{Background, Refusal};
use reference::background::{Memory, Stills};
use support::background::{self, grey, library_mean, owned_mean};
use support::{compare, inputs, Rng, Tally};

/// A still, its number and its T.
type Addition = (Vec<u8>, u32, u32);

/// The number of a refusal, or 0.
fn number<T>(answer: Result<T, u32>) -> u32 {
    answer.err().unwrap_or(0)
}

// Random additions.

/// Few numbers, so that they come again, and a size or two.
struct Pool {
    numbers: Vec<u32>,
    sizes: Vec<[usize; 3]>,
}

impl Pool {
    fn new(rng: &mut Rng, most_numbers: usize) -> Pool {
        let numbers = rng.size(1, most_numbers);
        let number = |rng: &mut Rng| match rng.one_in(4) {
            true => rng.pick(&[0, 1, 7, u32::MAX]),
            false => rng.next() as u32,
        };
        let size = |rng: &mut Rng| [rng.size(1, 4), rng.size(1, 3), rng.pick(&[1, 1, 3])];
        Pool {
            numbers: (0..numbers).map(|_| number(rng)).collect(),
            sizes: (0..rng.pick(&[1, 1, 2])).map(|_| size(rng)).collect(),
        }
    }

    fn addition(&self, rng: &mut Rng) -> Addition {
        let [w, h, channels] = match rng.one_in(6) {
            true => rng.pick(&self.sizes),
            false => self.sizes[0],
        };
        let raster = inputs::samples(rng, w * h * channels);
        let (mut still, header) = inputs::still(rng, w, h, channels, 255, &raster);
        if rng.one_in(15) {
            inputs::damage(rng, &mut still, header + 2);
        }
        let any = rng.next() as u32;
        let tolerance = rng.pick(&[0, 1, 33280, 98060, 16_678_912, 16_678_913, u32::MAX, any]);
        (still, rng.pick(&self.numbers), tolerance)
    }
}

// Lists of operations in lent memory.

/// All memory that there is, of which each operation is lent a part, beside the stills in the order in which they came.
struct Run {
    whole: Memory,
    plain: Stills,
    /// The additions that were neither refused nor removed later.
    left: Vec<Addition>,
}

/// How much is lent of a buffer, where `need` is needed: mostly all of it.
fn part(rng: &mut Rng, need: usize, whole: usize) -> usize {
    let any = rng.size(0, whole);
    let less = need.saturating_sub(1);
    rng.pick(&[less, need, any, whole, whole, whole, whole, whole])
        .min(whole)
}

impl Run {
    fn new(rng: &mut Rng, stills: usize) -> Run {
        let whole = Memory {
            rasters: (0..36 * stills).map(|_| rng.byte()).collect(),
            labels: (0..2 * stills).map(|_| rng.next() as u32).collect(),
            held: [0; 4],
        };
        Run {
            whole,
            plain: Stills::default(),
            left: vec![],
        }
    }

    fn lend(&self, rng: &mut Rng) -> Memory {
        let [count, width, height, channels] = self.whole.held.map(|n| n as usize);
        let stills = count + rng.size(0, 1);
        let need = stills * width * height * channels;
        let rasters = part(rng, need, self.whole.rasters.len());
        let labels = part(rng, 2 * stills, self.whole.labels.len());
        Memory {
            rasters: self.whole.rasters[..rasters].to_vec(),
            labels: self.whole.labels[..labels].to_vec(),
            held: self.whole.held,
        }
    }

    fn take_back(&mut self, lent: Memory) {
        self.whole.rasters[..lent.rasters.len()].copy_from_slice(&lent.rasters);
        self.whole.labels[..lent.labels.len()].copy_from_slice(&lent.labels);
        self.whole.held = lent.held;
    }

    /// The plain reading has all the memory that it needs, so 20 is nothing to it.
    fn agrees(answer: u32, plain: u32) -> Result<(), String> {
        match answer == plain {
            true => Ok(()),
            false => Err(format!(
                "returned {answer}, of stills in their order {plain}\n"
            )),
        }
    }

    fn add(&mut self, rng: &mut Rng, addition: Addition) -> Result<u32, String> {
        let (still, number_of_it, tolerance) = &addition;
        let mut lent = self.lend(rng);
        let answer = background::add(rng, &mut lent, still, *number_of_it, *tolerance)?;
        self.take_back(lent);
        if answer != 20 {
            let plain = self.plain.add(still, *number_of_it, *tolerance);
            Run::agrees(answer, number(plain))?;
        }
        if answer == 0 {
            self.left.push(addition);
        }
        Ok(answer)
    }

    fn remove(&mut self, rng: &mut Rng, number_of_it: u32) -> Result<u32, String> {
        let mut lent = self.lend(rng);
        let answer = background::remove(rng, &mut lent, number_of_it)?;
        self.take_back(lent);
        if answer != 20 {
            Run::agrees(answer, number(self.plain.remove(number_of_it)))?;
        }
        if answer == 0 {
            self.left.retain(|(_, number, _)| *number != number_of_it);
        }
        Ok(answer)
    }

    fn mean(&mut self, rng: &mut Rng) -> Result<u32, String> {
        if library_mean(&self.whole) != self.plain.mean() {
            return Err("the mean is not that of the stills in their order\n".into());
        }
        let lent = self.lend(rng);
        let raster = lent.held[1..].iter().product::<u64>() as usize;
        let room = part(rng, raster, raster + 9);
        background::mean(rng, &lent, room)
    }

    fn step(&mut self, rng: &mut Rng, pool: &Pool) -> Result<u32, String> {
        match rng.size(0, 9) {
            0..=5 => {
                let addition = pool.addition(rng);
                self.add(rng, addition)
            }
            6..=7 => {
                let number = rng.pick(&pool.numbers);
                self.remove(rng, number)
            }
            _ => self.mean(rng),
        }
    }

    /// Only what is left comes, into other memory: the mean is the same.
    fn replayed(&self, rng: &mut Rng) -> Result<(), String> {
        let mut alone = Run::new(rng, self.left.len()).whole;
        for (still, number, tolerance) in &self.left {
            let answer = background::add(rng, &mut alone, still, *number, *tolerance)?;
            Run::agrees(answer, 0)?;
        }
        match library_mean(&alone) == library_mean(&self.whole) {
            true => Ok(()),
            false => Err("the stills left have another mean by themselves\n".into()),
        }
    }
}

fn lists(name: &str, count: u64, most_numbers: usize, most_steps: usize) {
    compare(name, count, |rng, tally: &mut Tally| {
        let pool = Pool::new(rng, most_numbers);
        let mut run = Run::new(rng, most_numbers + 1);
        for _ in 0..rng.size(1, most_steps) {
            tally.add(run.step(rng, &pool)?);
        }
        tally.add(run.mean(rng)?);
        run.replayed(rng)
    });
}

#[test]
fn lists_of_operations_are_answered_alike() {
    lists("background", 6_000, 12, 80);
}

#[test]
fn long_lists_of_operations_are_answered_alike() {
    lists("background, long", 60, 300, 1500);
}

/// Numbers at the edge of what `held` may have, and far beyond.
const TELLING: [u64; 14] = [
    0,
    1,
    3,
    999,
    1000,
    1001,
    8192,
    65535,
    65536,
    65537,
    1 << 32,
    1 << 48,
    1 << 63,
    u64::MAX,
];

/// Memory that no call has left behind: any numbers in what is held, and anything where stills would be.
fn any_memory(rng: &mut Rng, [w, h]: [usize; 2]) -> Memory {
    let (rasters, labels, held) = match rng.size(0, 199) {
        0 => (
            rng.size(0, 30_000),
            rng.size(0, 140_000),
            [rng.pick(&TELLING), w as u64, h as u64, 1],
        ),
        1..=60 => (60, 20, [0; 4].map(|_| rng.pick(&TELLING))),
        _ => (
            rng.size(0, 60),
            rng.size(0, 20),
            [0; 4].map(|_| rng.size(0, 3) as u64),
        ),
    };
    Memory {
        rasters: inputs::samples(rng, rasters),
        labels: (0..labels).map(|_| rng.range(0, 9) as u32).collect(),
        held,
    }
}

#[test]
fn any_memory_is_answered_alike() {
    compare("background, any memory", 60_000, |rng, tally| {
        let (w, h) = (rng.size(1, 3), rng.size(1, 3));
        let (still, _) = inputs::still(rng, w, h, 1, 255, &vec![9; w * h]);
        let mut memory = any_memory(rng, [w, h]);
        let room = rng.size(0, 60);
        tally.add(background::mean(rng, &memory, room)?);
        let number = rng.range(0, 19) as u32;
        tally.add(background::add(rng, &mut memory, &still, number, 5)?);
        let number = rng.range(0, 19) as u32;
        tally.add(background::remove(rng, &mut memory, number)?);
        Ok(())
    });
}

/// Three samples each: one that is always 255, one that is 255 in every second still (a half of a level more than 127), and any.
fn numbered(k: u32) -> Vec<u8> {
    grey(&[255, if k % 2 == 0 { 255 } else { 0 }, (k * 11) as u8])
}

/// Memory for so many stills of three samples, full of what was there before.
fn memory_for(stills: usize) -> Memory {
    Memory {
        rasters: vec![99; 3 * stills],
        labels: vec![5; 2 * stills],
        held: [0; 4],
    }
}

#[test]
fn a_thousand_in_lent_memory_and_one_more() {
    let mut rng = Rng::new(support::base_seed());
    let mut memory = memory_for(1001);
    let mut add = |memory: &mut Memory, still: &[u8], number: u32| {
        background::add(&mut rng, memory, still, number, number).unwrap()
    };
    for k in 0..1000 {
        assert_eq!(add(&mut memory, &numbered(k), k), 0);
    }
    assert_eq!(library_mean(&memory).unwrap().1[..2], [255, 128]);
    assert_eq!(library_mean(&memory).unwrap().0, 999 + 32768);
    // in the order of the tests, each still with a cause for all later refusals too
    assert_eq!(add(&mut memory, b"P5\n4 1\n255\nabc", 7), 5);
    assert_eq!(add(&mut memory, &grey(b"abcd"), 7), 23);
    assert_eq!(add(&mut memory, &grey(b"abcd"), 1000), 24);
    assert_eq!(add(&mut memory, &numbered(1000), 1000), 25);
    let mut short = memory.clone();
    short.rasters.truncate(2999);
    assert_eq!(add(&mut short, &grey(b"abcd"), 7), 20);
    short = memory.clone();
    short.labels.truncate(2000);
    assert_eq!(add(&mut short, &numbered(1000), 1000), 25);
}

#[test]
fn the_thousandth_needs_its_room() {
    let mut rng = Rng::new(support::base_seed());
    let mut memory = memory_for(1000);
    for k in 0..999 {
        let added = background::add(&mut rng, &mut memory, &numbered(k), k, 0);
        assert_eq!(added, Ok(0));
    }
    for (rasters, labels, answer) in [(2999, 2000, 20), (3000, 1999, 20), (3000, 2000, 0)] {
        let mut lent = memory.clone();
        lent.rasters.truncate(rasters);
        lent.labels.truncate(labels);
        let added = background::add(&mut rng, &mut lent, &numbered(999), 999, 0);
        assert_eq!(added, Ok(answer), "{rasters} {labels}");
    }
}

// Memory of its own.

#[test]
fn lists_of_operations_in_memory_of_its_own() {
    compare("background, its own memory", 3_000, |rng, tally| {
        let pool = Pool::new(rng, 20);
        let (mut kept, mut plain) = (Background::new(), Stills::default());
        for _ in 0..rng.size(1, 120) {
            let (answer, expected) = if rng.one_in(3) {
                let number = rng.pick(&pool.numbers);
                (kept.remove(number), plain.remove(number))
            } else {
                let (still, number, tolerance) = pool.addition(rng);
                let added = kept.add(&still, number, tolerance);
                (added, plain.add(&still, number, tolerance))
            };
            let answer = number(answer.map_err(|refusal| refusal.number()));
            tally.add(answer);
            Run::agrees(answer, number(expected))?;
            if owned_mean(&kept) != plain.mean() || kept.len() != plain.len() {
                return Err(format!("another mean than that of {plain:?}\n"));
            }
        }
        Ok(())
    });
}

#[test]
fn a_thousand_in_memory_of_its_own_and_one_more() {
    let mut kept = Background::new();
    for k in 0..1000 {
        kept.add(&numbered(k), k, 0).unwrap();
    }
    let before = owned_mean(&kept);
    for (still, number, refusal) in [
        (b"P7".to_vec(), 0, Refusal::Magic),
        (grey(b"abcd"), 0, Refusal::StillNumber),
        (grey(b"abcd"), 1000, Refusal::StillSize),
        (numbered(1000), 1000, Refusal::BackgroundFull),
    ] {
        assert_eq!(kept.add(&still, number, u32::MAX), Err(refusal));
        assert_eq!((kept.len(), owned_mean(&kept)), (1000, before.clone()));
    }
    kept.remove(500).unwrap();
    assert_eq!(kept.add(&numbered(1000), 1000, 0), Ok(()));
    assert_eq!(kept.len(), 1000);
}

#[test]
fn an_emptied_background_takes_any_size() {
    let mut kept = Background::new();
    assert_eq!(
        (kept.mean(), kept.len(), kept.is_empty()),
        (Ok(None), 0, true)
    );
    assert_eq!(kept.remove(1), Err(Refusal::StillNumber));
    kept.add(&grey(b"abcd"), 1, 0).unwrap();
    assert_eq!(kept.add(&grey(b"ab"), 2, 0), Err(Refusal::StillSize));
    kept.remove(1).unwrap();
    assert_eq!((kept.mean(), kept.is_empty()), (Ok(None), true));
    kept.add(b"P6\n1 1\n255\nxyz", 2, 16_678_913).unwrap();
    let mean = kept.mean().unwrap().unwrap();
    assert_eq!((mean.width, mean.height, mean.channels), (1, 1, 3));
    assert_eq!((mean.raster, mean.tolerance), (b"xyz".to_vec(), 16_711_680));
}

#[test]
fn needs_of_a_background() {
    let needs = |w, h, channels, stills| {
        let needs = hejslopi::background_needs(w, h, channels, stills)?;
        Ok((needs.rasters, needs.labels))
    };
    assert_eq!(needs(96, 72, 1, 100), Ok((691_200, 200)));
    assert_eq!(needs(96, 72, 3, 1000), Ok((20_736_000, 2000)));
    assert_eq!(needs(96, 72, 1, 0), Ok((0, 0)));
    assert_eq!(needs(96, 72, 1, 1001), Err(Refusal::BackgroundFull));
    assert_eq!(needs(96, 72, 2, 1), Err(Refusal::Channels));
    assert_eq!(needs(8193, 72, 1, 1), Err(Refusal::Side));
}
