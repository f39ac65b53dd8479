//! The library against the reference, on random and damaged inputs, with guards around every lent buffer.
//! HEJSLOPI_SEED=N tries other inputs. A failing case is written to a file of the target folder whole.
mod reference;
mod support;

use reference::Lengths;
use support::{calls, compare, inputs, Rng};

#[test]
fn stills_are_read_alike() {
    compare("read_still", 300_000, |rng, tally| {
        let channels = rng.pick(&[1, 1, 3]);
        let (w, h) = match rng.size(0, 9) {
            0 => (rng.pick(&[0, 1, 8191, 8192, 8193, 10000, usize::MAX]), 1),
            1 => (1, rng.pick(&[0, 1, 8191, 8192, 8193, 10000, usize::MAX])),
            _ => (rng.size(1, 9), rng.size(1, 9)),
        };
        let maximum = if rng.one_in(20) {
            rng.pick(&[0, 1, 25, 254, 256, 511, 65535, usize::MAX])
        } else {
            255
        };
        let size = if w.max(h) <= 10000 {
            w * h * channels
        } else {
            5
        };
        let size = if rng.one_in(10) {
            (size + rng.size(0, 2)).saturating_sub(1)
        } else {
            size
        };
        let raster = inputs::samples(rng, size);
        let (mut bytes, header) = inputs::still(rng, w, h, channels, maximum, &raster);
        if rng.one_in(2) {
            inputs::damage(rng, &mut bytes, header + 2);
        }
        tally.add(calls::read_still(rng, &bytes)?);
        Ok(())
    });
}

#[test]
fn recipes_are_read_alike() {
    compare("read_recipe", 300_000, |rng, tally| {
        let stages = rng.size(1, 8);
        let mut bytes = inputs::recipe(rng, stages);
        if rng.one_in(2) {
            let within = bytes.len();
            inputs::damage(rng, &mut bytes, within);
        }
        tally.add(calls::read_recipe(rng, &bytes)?);
        Ok(())
    });
}

#[test]
fn every_short_recipe_is_read_alike() {
    let mut rng = Rng::new(support::base_seed());
    let mut tried = 0u64;
    let mut try_one = |bytes: &[u8]| {
        calls::read_recipe(&mut rng, bytes).unwrap();
        tried += 1;
    };
    try_one(&[]);
    for a in 0..=255 {
        try_one(&[a]);
        for b in 0..=255 {
            try_one(&[a, b]);
            try_one(&[1, 3, 1, 0, a, b]);
            try_one(&[1, 4, 0, a, b]);
            try_one(&[1, 4, a, b, 0, 0]);
            try_one(&[1, 5, 1, 0, 1, 2, a, b]);
            try_one(&[1, 6, a, b]);
            try_one(&[1, 1, 0, 9, 1, 1, 0, 1, 0, 1, a, b, 0, 1, 0, 1]);
            try_one(&[1, 2, 2, 0, 1, 1, 0, 0, a, b, 0, 0, 0x3F, 0x80, 0, 0]);
            try_one(&[1, 2, 2, 0, 1, 1, 0, 0, 0x3F, 0x80, 0, 0, a, b, 0, 1]);
        }
    }
    support::say(format!(
        "read_recipe, every value of two bytes in nine places: {tried} calls compared"
    ));
}

#[test]
fn stills_are_written_alike() {
    compare("write_still", 40_000, |rng, tally| {
        let channels = if rng.one_in(8) {
            rng.pick(&[0, 2, 4, 5, usize::MAX])
        } else {
            rng.pick(&[1, 3])
        };
        let (mut w, mut h) = (rng.size(1, 12), rng.size(1, 12));
        if rng.one_in(10) {
            (w, h) = rng.pick(&[
                (0, 1),
                (1, 0),
                (8192, 1),
                (1, 8192),
                (8193, 1),
                (1, 8193),
                (usize::MAX, usize::MAX),
                (100, 10),
                (10, 1000),
            ]);
        }
        let size = if w.max(h) <= 8193 && channels <= 5 {
            w * h * channels
        } else {
            3
        };
        let size = if rng.one_in(6) {
            (size + rng.size(0, 2)).saturating_sub(1)
        } else {
            size
        };
        let raster = inputs::samples(rng, size);
        let need = format!("P5\n{w} {h}\n255\n").len() + size;
        let spare = rng.size(1, 40);
        for room in [need, need - 1, need + spare, 0] {
            tally.add(calls::write_still(rng, w, h, channels, &raster, room)?);
        }
        Ok(())
    });
}

fn planes(name: &str, count: u64, nanoseconds: usize) {
    compare(name, count, |rng, tally| {
        let stages = if rng.one_in(20) { 2 } else { 1 };
        let mut recipe = inputs::recipe(rng, stages);
        if rng.one_in(10) {
            let within = recipe.len();
            inputs::damage(rng, &mut recipe, within);
        }
        let stages = reference::read_recipe(&recipe).unwrap_or_default();
        let (mut w, mut h) = inputs::size(rng, inputs::cost(&stages), nanoseconds);
        let wrong_side = rng.one_in(30);
        if wrong_side {
            (w, h) = rng.pick(&[
                (0, h),
                (w, 0),
                (8193, h),
                (w, 8193),
                (usize::MAX, usize::MAX),
            ]);
        }
        let size = if wrong_side { 4 } else { w * h };
        let size = if rng.one_in(20) {
            (size + rng.size(0, 2)).saturating_sub(1)
        } else {
            size
        };
        let plane = inputs::samples(rng, size);
        let need = if wrong_side {
            Lengths {
                work: 9,
                rows: 9,
                sums: 9,
                out: 9,
            }
        } else {
            reference::needs(&stages, w, h, w * h)
        };
        for lengths in inputs::lengths(rng, need) {
            tally.add(calls::filter_plane(rng, &recipe, w, h, &plane, lengths)?);
        }
        Ok(())
    });
}

#[test]
fn planes_are_filtered_alike() {
    planes("filter_plane", 30_000, 1_000_000);
}

#[test]
fn large_planes_are_filtered_alike() {
    planes("filter_plane, large", 250, 200_000_000);
}

/// Few different weights on an axis: which of equal remainders gets a unit decides samples.
#[test]
fn symmetric_weights_are_filtered_alike() {
    compare("filter_plane, symmetric", 5_000, |rng, tally| {
        let recipe = inputs::symmetric_recipe(rng, 1);
        let stages = reference::read_recipe(&recipe).unwrap_or_default();
        let (w, h) = inputs::size(rng, inputs::cost(&stages), 1_000_000);
        let plane = inputs::samples(rng, w * h);
        let need = reference::needs(&stages, w, h, w * h);
        tally.add(calls::filter_plane(rng, &recipe, w, h, &plane, need)?);
        Ok(())
    });
}

fn files(name: &str, count: u64, nanoseconds: usize) {
    compare(name, count, |rng, tally| {
        let (recipe, still, need) = inputs::file(rng, nanoseconds);
        for lengths in inputs::lengths(rng, need) {
            tally.add(calls::filter_file(rng, &recipe, &still, None, lengths)?);
        }
        Ok(())
    });
}

#[test]
fn files_are_filtered_alike() {
    files("filter_file", 20_000, 1_000_000);
}

#[test]
fn large_files_are_filtered_alike() {
    files("filter_file, large", 150, 200_000_000);
}

/// The longest sides, and one more.
#[test]
fn longest_sides_are_filtered_alike() {
    let mut rng = Rng::new(support::base_seed());
    for (w, h) in [
        (8192, 1),
        (1, 8192),
        (8192, 3),
        (2, 8192),
        (8193, 1),
        (1, 8193),
    ] {
        for border in 0..4 {
            for work in [
                &[3, border, 0, 15, 15][..],
                &[4, border, 0, 15, 15],
                &[5, border, 0, 2, 2, 0, 9],
                &[5, border, 0, 4, 3, 0, 40],
                &[6, border, 0],
            ] {
                let recipe = [&[1], work].concat();
                let stages = reference::read_recipe(&recipe).unwrap();
                let plane = inputs::samples(&mut rng, w * h);
                let need = reference::needs(&stages, w, h, w * h);
                calls::filter_plane(&mut rng, &recipe, w, h, &plane, need).unwrap();
            }
        }
    }
}

/// A rank stage at the first position, the last and one between, on a frame that may be smaller than its window.
fn rank(rng: &mut Rng, border: u8, r: u8, s: u8) {
    let (w, h) = (rng.size(1, 20), rng.size(1, 12));
    let plane = inputs::samples(rng, w * h);
    let last = (2 * r as u16 + 1) * (2 * s as u16 + 1);
    let value = if border == 0 { rng.byte() } else { 0 };
    for p in [1, rng.size(1, last as usize) as u16, last] {
        let [high, low] = p.to_be_bytes();
        let recipe = [1, 5, border, value, r, s, high, low];
        let need = reference::needs(&reference::read_recipe(&recipe).unwrap(), w, h, w * h);
        calls::filter_plane(rng, &recipe, w, h, &plane, need).unwrap();
    }
}

/// A box stage, on a frame that may be smaller than its window or have more rows than it holds sums for.
fn mean(rng: &mut Rng, border: u8, r: u8, s: u8) {
    let (w, h) = (rng.size(1, 20), rng.size(1, 80));
    let plane = inputs::samples(rng, w * h);
    let value = if border == 0 { rng.byte() } else { 0 };
    let recipe = [1, 4, border, value, r, s];
    let need = reference::needs(&reference::read_recipe(&recipe).unwrap(), w, h, w * h);
    calls::filter_plane(rng, &recipe, w, h, &plane, need).unwrap();
}

/// Every window under every border.
fn windows(stage: fn(&mut Rng, u8, u8, u8)) {
    let mut rng = Rng::new(support::base_seed());
    for border in 0..4 {
        for r in 0..=15 {
            for s in 0..=15 {
                stage(&mut rng, border, r, s);
            }
        }
    }
}

#[test]
fn ranks_are_filtered_alike() {
    windows(rank);
}

#[test]
fn boxes_are_filtered_alike() {
    windows(mean);
}

/// Every frame of up to 16 a side under every border: thirds at -15 and 15, and windows of 31 by 31. A side of 1 is left by up to 15 lengths.
#[test]
fn short_axes_are_filtered_alike() {
    const THIRDS: [u8; 18] = [2, 2, 0, 3, 0, 3, 241, 15, 241, 15, 0, 1, 0, 2, 0, 2, 0, 1];
    let works: [(u8, &[u8]); 4] = [
        (1, &THIRDS),
        (3, &[15, 15]),
        (4, &[15, 15]),
        (5, &[15, 15, 1, 225]),
    ];
    let mut rng = Rng::new(support::base_seed());
    for (w, h) in (1..=16).flat_map(|w| (1..=16).map(move |h| (w, h))) {
        let plane = inputs::samples(&mut rng, w * h);
        for border in 0..4 {
            for (kind, fields) in works {
                let value = if border == 0 { 99 } else { 0 };
                let recipe = [&[1, kind, border, value], fields].concat();
                let need = reference::needs(&reference::read_recipe(&recipe).unwrap(), w, h, w * h);
                calls::filter_plane(&mut rng, &recipe, w, h, &plane, need).unwrap();
            }
        }
    }
}

/// The samples of this frame have a sum that passes 2^32 three times.
#[test]
fn a_bright_large_frame_is_filtered_alike() {
    let mut rng = Rng::new(support::base_seed());
    let (w, h) = (8192, 8192);
    let mut plane = vec![255; w * h];
    for _ in 0..1000 {
        let at = rng.size(0, w * h - 1);
        plane[at] = rng.byte();
    }
    let recipe = [1, 4, 2, 0, 1, 1];
    let need = reference::needs(&reference::read_recipe(&recipe).unwrap(), w, h, w * h);
    calls::filter_plane(&mut rng, &recipe, w, h, &plane, need)
        .unwrap_or_else(|e| panic!("{}", &e[..200]));
}

/// Demand 3: what is written lies within T of the exact result, and T is what is told.
fn within_the_tolerance(name: &str, count: u64, recipe: impl Fn(&mut Rng) -> Vec<u8>) {
    compare(name, count, |rng, tally| {
        let recipe = recipe(rng);
        let Ok(stages) = reference::read_recipe(&recipe) else {
            return Ok(());
        };
        let (w, h) = inputs::size(rng, inputs::cost(&stages) * 40, 6_000_000);
        let plane = inputs::samples(rng, w * h);
        let (still, _) = inputs::still(rng, w, h, 1, 255, &plane);
        let file = hejslopi::filter_file(&recipe, &still).map_err(|e| format!("{e}\n"))?;
        let exact = reference::exact::chain(&stages, w, h, &plane);
        let written = &file.bytes[file.bytes.len() - w * h..];
        match (0..w * h).find(|&k| !reference::exact::within(file.tolerance, &exact, k, written[k]))
        {
            None => {
                tally.add(0);
                Ok(())
            }
            Some(k) => Err(format!(
                "sample {k} is not within {}\nrecipe {}\nstill {}\n",
                file.tolerance,
                support::hex(&recipe),
                support::hex(&still)
            )),
        }
    });
}

#[test]
fn written_samples_lie_within_the_tolerance() {
    within_the_tolerance("demand 3", 5_000, |rng| {
        let stages = rng.size(1, 8);
        inputs::recipe(rng, stages)
    });
}

#[test]
fn written_outlines_lie_within_the_tolerance() {
    within_the_tolerance("demand 3, outlines", 2_000, inputs::outlined_recipe);
}
