//! The movement between two stills: against a plain reading, with guards around every lent buffer, and beside the exact results.
//! HEJSLOPI_SEED=N tries other inputs.
mod reference;
mod support;

use hejslopi::Movement;
use reference::exact::{self, Exact};
use reference::movement::{motion, Motion};
use reference::Lengths;
use std::cell::RefCell;
use support::movement::{movement, Input};
use support::{compare, inputs, Rng};

// Random pairs of stills.

/// A raster that is mostly near another.
fn near(rng: &mut Rng, raster: &[u8]) -> Vec<u8> {
    let far = rng.pick(&[0, 1, 3, 20, 255]);
    let moved = |x: &u8| (*x as i64 + rng.range(-far, far)).clamp(0, 255) as u8;
    raster.iter().map(moved).collect()
}

/// Two recipes, of as many stages as is picked. Half of them are one.
fn two_recipes(rng: &mut Rng, stages: &[usize]) -> [Vec<u8>; 2] {
    let mut any = || {
        let count = rng.pick(stages);
        inputs::recipe(rng, count)
    };
    let (first, second) = (any(), any());
    let second = if rng.one_in(2) { second } else { first.clone() };
    [first, second]
}

fn cost(recipes: &[Vec<u8>; 2]) -> usize {
    let one = |bytes: &Vec<u8>| inputs::cost(&reference::read_recipe(bytes).unwrap_or_default());
    recipes.iter().map(one).sum()
}

/// Two stills of one size. Nothing but a recipe can be refused.
fn pair(rng: &mut Rng, recipes: [Vec<u8>; 2], channels: usize, nanoseconds: usize) -> Input {
    let (w, h) = inputs::size(rng, cost(&recipes) * channels, nanoseconds);
    let raster = inputs::samples(rng, w * h * channels);
    let rasters = [raster.clone(), near(rng, &raster)];
    let (few, any) = (rng.range(0, 6) as u64, rng.range(0, 255) as u64);
    Input {
        recipes,
        stills: rasters.map(|raster| inputs::still(rng, w, h, channels, 255, &raster).0),
        limit: rng.pick(&[0, few, few, few, any, any, 254, 255]),
    }
}

/// Something wrong in one place or more.
fn damage(rng: &mut Rng, input: &mut Input) {
    for bytes in input.recipes.iter_mut().chain(&mut input.stills) {
        if rng.one_in(4) {
            let within = bytes.len().min(20);
            inputs::damage(rng, bytes, within);
        }
    }
    if rng.one_in(3) {
        let (w, h, channels) = (rng.size(1, 3), rng.size(1, 3), rng.pick(&[1, 3]));
        let raster = inputs::samples(rng, w * h * channels);
        input.stills[rng.size(0, 1)] = inputs::still(rng, w, h, channels, 255, &raster).0;
    }
    if rng.one_in(4) {
        input.limit = rng.pick(&[256, 257, 65535, 1 << 32, 1 << 63, u64::MAX]);
    }
}

/// What one run needs; something where it is refused.
fn need_of(recipe: &[u8], still: &[u8]) -> Lengths {
    let refused = Lengths {
        work: 99,
        rows: 99,
        sums: 0,
        out: 99,
    };
    match (reference::read_recipe(recipe), reference::read_still(still)) {
        (Ok(stages), Ok(p)) => {
            let header = format!("P5\n{} {}\n255\n", p.width, p.height).len();
            let file = header + p.width * p.height * p.channels;
            reference::needs(&stages, p.width, p.height, file)
        }
        _ => refused,
    }
}

/// What is just enough for both runs.
fn need(input: &Input) -> Lengths {
    let [a, b] = [0, 1].map(|k| need_of(&input.recipes[k], &input.stills[k]));
    Lengths {
        work: a.work.max(b.work),
        rows: a.rows.max(b.rows),
        sums: a.sums.max(b.sums),
        out: a.out.max(b.out),
    }
}

fn two_stills(name: &str, count: u64, nanoseconds: usize) {
    compare(name, count, |rng, tally| {
        let recipes = two_recipes(rng, &[1, 1, 1, 2, 3, 8]);
        let channels = rng.pick(&[1, 3]);
        let mut input = pair(rng, recipes, channels, nanoseconds);
        if rng.one_in(3) {
            damage(rng, &mut input);
        }
        let need = need(&input);
        for lent in inputs::lengths(rng, need) {
            tally.add(movement(rng, &input, lent, lent.out)?);
        }
        for out2 in [need.out - 1, need.out + rng.size(1, 9), 0] {
            tally.add(movement(rng, &input, need, out2)?);
        }
        Ok(())
    });
}

#[test]
fn two_stills_are_answered_alike() {
    two_stills("movement", 10_000, 500_000);
}

#[test]
fn two_large_stills_are_answered_alike() {
    two_stills("movement, large", 100, 100_000_000);
}

#[test]
fn swapped_stills_give_the_same_counts() {
    compare("movement, swapped", 2_000, |rng, tally| {
        let recipes = two_recipes(rng, &[1, 2]);
        let mut input = pair(rng, recipes, 1, 100_000);
        let (Ok(forth), Ok(back)) = (input.seen(), input.swapped().seen()) else {
            return Ok(());
        };
        let turned = Movement {
            tolerance1: back.tolerance2,
            tolerance2: back.tolerance1,
            picture1: back.picture2,
            picture2: back.picture1,
            ..back
        };
        if forth != turned {
            return Err(input.shown("the stills the other way round"));
        }
        // nothing has moved from a still to itself
        input.recipes[1] = input.recipes[0].clone();
        input.stills[1] = input.stills[0].clone();
        tally.add(0);
        match input.seen() {
            Ok(seen) if seen.moved == 0 => Ok(()),
            other => Err(input.shown(&format!("a still and itself: {other:?}"))),
        }
    });
}

// What the counts say of exact results.

/// Both rasters, from the library's own files.
fn rasters(seen: &Movement) -> [&[u8]; 2] {
    [&seen.picture1, &seen.picture2].map(|file| {
        let start = hejslopi::read_still(file).unwrap().raster_start;
        &file[start..]
    })
}

/// What the written samples tell, place by place.
fn motions(seen: &Movement, limit: u64) -> Vec<Motion> {
    let [first, second] = rasters(seen);
    let both = seen.tolerance1 + seen.tolerance2;
    let pairs = first.iter().zip(second);
    pairs.map(|(a, b)| motion(limit, both, *a, *b)).collect()
}

/// A limit that some sample is near to.
fn telling_limit(rng: &mut Rng, seen: &Movement) -> u64 {
    let [first, second] = rasters(seen);
    let place = rng.size(0, first.len() - 1);
    let difference = first[place].abs_diff(second[place]) as i64;
    let levels = (seen.tolerance1 + seen.tolerance2) as i64 / 65536 + 1;
    (difference + rng.range(-levels, levels)).clamp(0, 255) as u64
}

/// The exact results of one channel, over one denominator: of five stages a recipe at most it fits into a wide number.
fn exact_pair(input: &Input, channels: usize, channel: usize) -> [Exact; 2] {
    let stages = [0, 1].map(|k| reference::read_recipe(&input.recipes[k]).unwrap());
    [0, 1].map(|k| {
        let picture = reference::read_still(&input.stills[k]).unwrap();
        let raster = &input.stills[k][picture.start..];
        let plane = reference::channel(raster, channels, channel);
        let exact = exact::chain(&stages[k], picture.width, picture.height, &plane);
        exact.expanded(&stages[1 - k])
    })
}

/// A moved sample's exact results differ by more than the limit, a still one's do not.
fn true_of(input: &Input, channels: usize, motions: &[Motion]) -> Result<(), String> {
    for channel in 0..channels {
        let [x1, x2] = exact_pair(input, channels, channel);
        for (place, motion) in motions.iter().skip(channel).step_by(channels).enumerate() {
            let at_most = exact::differ_by_at_most(input.limit, &x1, &x2, place);
            if *motion == Motion::Moved && at_most || *motion == Motion::Still && !at_most {
                return Err(format!("channel {channel}, place {place}: {motion:?}"));
            }
        }
    }
    Ok(())
}

#[test]
fn counts_are_true_of_exact_results() {
    let totals = RefCell::new([0; 3]);
    compare("movement, exactly", 4_000, |rng, tally| {
        let recipes = two_recipes(rng, &[1, 1, 1, 2, 2, 3, 5]);
        let channels = rng.pick(&[1, 1, 3]);
        let mut input = pair(rng, recipes, channels, 50_000);
        let Ok(any) = input.seen() else {
            return Ok(());
        };
        input.limit = telling_limit(rng, &any);
        let seen = input.seen().map_err(|e| input.shown(&e.to_string()))?;
        let motions = motions(&seen, input.limit);
        let count = |which| motions.iter().filter(|m| **m == which).count();
        let counts = [Motion::Moved, Motion::Still, Motion::Open].map(count);
        if counts != [seen.moved, seen.still, seen.open] {
            return Err(input.shown("other counts than the files tell"));
        }
        true_of(&input, channels, &motions).map_err(|e| input.shown(&e))?;
        totals
            .borrow_mut()
            .iter_mut()
            .zip(counts)
            .for_each(|(sum, n)| *sum += n);
        tally.add(0);
        Ok(())
    });
    let totals = totals.into_inner();
    support::say(format!(
        "movement, exactly: moved, still and open are {totals:?}"
    ));
    assert!(totals.iter().all(|n| *n > 1000));
}
