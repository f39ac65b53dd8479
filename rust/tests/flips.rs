//! Request 2026-06: stills flipped left to right, under recipes whose taps across are symmetric.
//! HEJSLOPI_SEED=N tries other inputs.
mod reference;
mod support;

use reference::{Stage, Work};
use std::cell::Cell;
use support::{compare, inputs, Rng};

/// A raster of rows of `width`, each read from its other end, pixel by pixel.
fn flipped(raster: &[u8], width: usize, channels: usize) -> Vec<u8> {
    let rows = raster.chunks(width * channels);
    rows.flat_map(|row| row.chunks(channels).rev().flatten())
        .copied()
        .collect()
}

/// Whether the weights across are symmetric in every stage that has some: where taps are, no pair is split then.
fn symmetric(stages: &[Stage]) -> bool {
    stages.iter().all(|stage| match &stage.work {
        Work::Weighted { across, .. } => reference::has_symmetric_weights(across),
        _ => true,
    })
}

/// How many samples differ between the still filtered and then flipped, and flipped and then filtered.
fn differences(
    recipe: &[u8],
    width: usize,
    height: usize,
    channels: usize,
    raster: &[u8],
) -> usize {
    let filtered = |raster: &[u8]| {
        let still = hejslopi::write_still(width, height, channels, raster).unwrap();
        let file = hejslopi::filter_file(recipe, &still).unwrap();
        file.bytes[file.bytes.len() - raster.len()..].to_vec()
    };
    let after = flipped(&filtered(raster), width, channels);
    let before = filtered(&flipped(raster, width, channels));
    after.iter().zip(&before).filter(|(a, b)| a != b).count()
}

#[test]
fn flipped_stills_give_flipped_results() {
    let tried = Cell::new(0);
    compare("flips", 1_200, |rng, tally| {
        let stages = rng.size(1, 3);
        let recipe = inputs::symmetric_recipe(rng, stages);
        let Ok(stages) = reference::read_recipe(&recipe) else {
            return Ok(());
        };
        if !symmetric(&stages) {
            return Ok(());
        }
        tried.set(tried.get() + 1);
        let (width, height) = (rng.size(1, 60), rng.size(1, 20));
        let channels = rng.pick(&[1, 3]);
        let raster = inputs::samples(rng, width * height * channels);
        match differences(&recipe, width, height, channels, &raster) {
            0 => {
                tally.add(0);
                Ok(())
            }
            n => Err(format!(
                "{n} samples differ\n{width} by {height}, {channels} channels\nrecipe {}\nraster {}\n",
                support::hex(&recipe),
                support::hex(&raster)
            )),
        }
    });
    assert!(tried.get() >= 400, "{} recipes are symmetric", tried.get());
}

/// 1/384 is 170 2/3 units, and one is left for the pair: 171 and 170. 189 times these are 31.6 and 31.4 64ths of a level, which are rounded up and down.
#[test]
fn a_split_pair_shows() {
    let pair = [
        &[1, 1, 0, 0, 2, 1, 1, 128, 0, 1][..],
        &[255, 1, 0],
        &[0, 1, 0, 1, 0, 1],
    ]
    .concat();
    assert!(!symmetric(&reference::read_recipe(&pair).unwrap()));
    let samples = |plane| hejslopi::filter_plane(&pair, 3, 1, plane).unwrap().samples;
    assert_eq!(samples(&[189, 0, 0]), [0, 1, 0]);
    assert_eq!(samples(&[0, 0, 189]), [0, 0, 0]);
}

/// The weights of all binomials but these four are symmetric, and a still of noise tells.
#[test]
fn four_binomials_tell_left_from_right() {
    let mut rng = Rng::new(support::base_seed());
    let raster: Vec<u8> = (0..512 * 128).map(|_| rng.byte()).collect();
    for r in 0..=15 {
        let recipe = [1, 3, 3, 0, r, 0];
        let found = differences(&recipe, 512, 128, 1, &raster);
        assert_eq!(found > 0, [9, 10, 12, 13].contains(&r), "r {r}: {found}");
    }
}
