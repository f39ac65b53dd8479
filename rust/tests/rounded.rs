//! Request 2026-08: stills that make the most of the rounding of weights, and what T pays for it.
//! HEJSLOPI_SEED=N tries other inputs.
mod reference;
mod support;

use reference::{exact, Axis, Stage, Work};
use support::Rng;

const TAPS: usize = 31;
const LINES: usize = 200;

/// T of a first stage with a gain of 1 down and no rounded weight: a row value's rounding, and the last one.
const UNROUNDED: u64 = 512 + 32768;

/// 31 positive weights that add up to the divisor: what one has more than an even share, its opposite has less.
fn weights(rng: &mut Rng, divisor: i64) -> Vec<i16> {
    let even = divisor / TAPS as i64;
    let mut all = [even; TAPS];
    all[TAPS / 2] = divisor - even * (TAPS as i64 - 1);
    for k in 0..TAPS / 2 {
        let more = rng.range(-even / 2, even / 2);
        all[k] += more;
        all[TAPS - 1 - k] -= more;
    }
    all.map(|a| a as i16).to_vec()
}

/// A stage of ratios, nearest: these weights at -15 to 15 on one axis, and 1/1 at 0 on the other.
fn recipe(weights: &[i16], divisor: u16, down: bool) -> Vec<u8> {
    let offsets = (-15..=15).map(|o: i8| o as u8);
    let values = weights.iter().flat_map(|a| a.to_be_bytes());
    let (n, one) = (TAPS as u8, 1u16.to_be_bytes());
    let mut bytes = vec![1, 1, 1, 0];
    if down {
        bytes.extend([1, n].into_iter().chain(one).chain(divisor.to_be_bytes()));
        bytes.extend([0].into_iter().chain(offsets).chain(one).chain(values));
    } else {
        bytes.extend([n, 1].into_iter().chain(divisor.to_be_bytes()).chain(one));
        bytes.extend(offsets.chain([0]).chain(values).chain(one));
    }
    bytes
}

/// Which taps see a bright sample: those whose weight in 65,536ths is above its fraction, and of those that have it exactly any.
fn bright(rng: &mut Rng, axis: &Axis) -> Vec<bool> {
    let pairs = axis.taps.iter().zip(reference::weights(axis));
    let more = pairs.map(|(t, a)| (a * axis.divisor).cmp(&(65536 * t.numerator)));
    more.map(|more| more.is_gt() || more.is_eq() && rng.one_in(2))
        .collect()
}

/// Lines of 31 samples, each bright where the rounding of a weight adds and dark where it takes off: at the middle of a line all of it comes together.
fn lines(rng: &mut Rng, bright: &[bool]) -> Vec<Vec<u8>> {
    let mut sample = |bright: &bool| {
        let away = rng.range(0, 16) as u8;
        if *bright {
            255 - away
        } else {
            away
        }
    };
    (0..LINES)
        .map(|_| bright.iter().map(&mut sample).collect())
        .collect()
}

/// T of a stage, how many samples are not within it, and how many would not be within T if no weight counted as rounded.
fn beyond(rng: &mut Rng, divisor: i64, down: bool) -> (u64, usize, usize) {
    let recipe = recipe(&weights(rng, divisor), divisor as u16, down);
    let stages: Vec<Stage> = reference::read_recipe(&recipe).unwrap();
    let Work::Weighted {
        across,
        down: columns,
    } = &stages[0].work
    else {
        panic!("a stage of ratios has weights");
    };
    let bright = bright(rng, if down { columns } else { across });
    let lines = lines(rng, &bright);
    let (w, h) = if down { (LINES, TAPS) } else { (TAPS, LINES) };
    let place = |k: usize| {
        if down {
            lines[k % w][k / w]
        } else {
            lines[k / w][k % w]
        }
    };
    let plane: Vec<u8> = (0..w * h).map(place).collect();
    let done = hejslopi::filter_plane(&recipe, w, h, &plane).unwrap();
    let exactly = exact::chain(&stages, w, h, &plane);
    let count = |t: u64| {
        let outside = |k: &usize| !exact::within(t, &exactly, *k, done.samples[*k]);
        (0..w * h).filter(outside).count()
    };
    (done.tolerance, count(done.tolerance), count(UNROUNDED))
}

/// Over an odd divisor all weights are rounded. That shows, and T pays for it: a T that counts none of them is passed.
#[test]
fn rounded_weights_have_to_be_paid_for() {
    let mut rng = Rng::new(support::base_seed());
    for (down, expected) in [(false, 33280 + 31 * 255), (true, 33280 + 31 * 255 + 1)] {
        let mut shown = 0;
        for _ in 0..20 {
            let divisor = 2 * rng.range(10_000, 32_000) + 1;
            let (tolerance, outside, unpaid) = beyond(&mut rng, divisor, down);
            assert_eq!((tolerance, outside), (expected, 0));
            shown += unpaid;
        }
        support::say(format!("rounded weights: {shown} samples beyond 33280"));
        assert!(shown > 0);
    }
}

/// Over a power of 2 none is, and T has nothing for it.
#[test]
fn weights_that_fit_are_not_paid_for() {
    let mut rng = Rng::new(support::base_seed());
    for down in [false, true] {
        for power in 9..16 {
            let found = beyond(&mut rng, 1 << power, down);
            assert_eq!(found, (UNROUNDED, 0, 0), "over 2^{power}");
        }
    }
}
