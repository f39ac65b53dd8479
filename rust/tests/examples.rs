//! Document 01's examples and vectors, and the wrappers.
mod reference;

use hejslopi::{Lent, Refusal};
use std::path::{Path, PathBuf};

fn repository() -> PathBuf {
    Path::new(env!("CARGO_MANIFEST_DIR"))
        .parent()
        .unwrap()
        .to_path_buf()
}

fn plane(recipe: &[u8], samples: &[u8; 3]) -> (Vec<u8>, u64) {
    let done = hejslopi::filter_plane(recipe, 3, 1, samples).unwrap();
    (done.samples, done.tolerance)
}

const BENCH: [u8; 3] = [10, 20, 40];

/// A stage of ratios, nearest: three weights over a divisor at -1 0 1 across, and 1/1 alone at 0 down.
fn ratios(a: [i16; 3], d: u16) -> Vec<u8> {
    let mut recipe = vec![1, 1, 1, 0, 3, 1];
    recipe.extend(d.to_be_bytes());
    recipe.extend([0, 1, 255, 0, 1, 0]);
    recipe.extend(a.iter().chain(&[1]).flat_map(|a| a.to_be_bytes()));
    recipe
}

#[test]
fn bench_stills() {
    assert_eq!(
        plane(&[1, 3, 1, 0, 1, 0], &BENCH),
        (vec![13, 23, 35], 33280)
    );
    assert_eq!(
        plane(&[1, 3, 0, 0, 1, 0], &BENCH),
        (vec![10, 23, 25], 33280)
    );
    assert_eq!(
        plane(&[1, 3, 3, 0, 1, 0], &BENCH),
        (vec![20, 23, 28], 33280)
    );
    assert_eq!(
        plane(&[1, 4, 1, 0, 1, 0], &BENCH),
        (vec![13, 23, 33], 32768)
    );
    assert_eq!(
        plane(&[1, 5, 1, 0, 1, 0, 0, 1], &BENCH),
        (vec![10, 10, 20], 0)
    );
    assert_eq!(
        plane(&[1, 5, 1, 0, 1, 0, 0, 2], &BENCH),
        (vec![10, 20, 40], 0)
    );
    assert_eq!(
        plane(&[1, 5, 1, 0, 1, 0, 0, 3], &BENCH),
        (vec![20, 40, 40], 0)
    );
    assert_eq!(plane(&ratios([-1, 0, 1], 2), &BENCH).0, [5, 15, 10]);
    assert_eq!(plane(&ratios([-1, 0, 1], 2), &[40, 20, 10]).0, [0, 0, 0]);
    let two = [2, 3, 1, 0, 1, 1, 4, 1, 0, 1, 1];
    assert_eq!(
        hejslopi::read_recipe(&[1, 3, 1, 0, 1, 1])
            .unwrap()
            .tolerance,
        33280
    );
    assert_eq!(hejslopi::read_recipe(&two).unwrap().tolerance, 66048);
}

/// T of a recipe.
fn tolerance(recipe: &[u8]) -> u64 {
    hejslopi::read_recipe(recipe).unwrap().tolerance
}

/// A stage of ratios, nearest: at -1 0 1 three weights over a divisor across, and three over another down.
fn both_ways(across: [i16; 3], d: u16, down: [i16; 3], e: u16) -> Vec<u8> {
    let mut recipe = vec![1, 1, 1, 0, 3, 3];
    recipe.extend([d, e].iter().flat_map(|d| d.to_be_bytes()));
    recipe.extend([255, 0, 1, 255, 0, 1]);
    recipe.extend(across.iter().chain(&down).flat_map(|a| a.to_be_bytes()));
    recipe
}

/// Request 2026-08, by hand: 512 and 32,768 for a gain of 1 down; for each rounded weight across 255, and for each down 255 and a little.
#[test]
fn the_tolerance_counts_rounded_weights() {
    let (quarters, thirds) = ([1, 2, 1], [1, 1, 1]);
    assert_eq!(tolerance(&both_ways(quarters, 4, quarters, 4)), 33280);
    assert_eq!(tolerance(&both_ways(thirds, 3, thirds, 3)), 34811);
    assert_eq!(tolerance(&both_ways(quarters, 4, thirds, 3)), 34046);
    assert_eq!(tolerance(&both_ways(thirds, 3, quarters, 4)), 34045);
    assert_eq!(tolerance(&both_ways([-1, 0, 1], 3, quarters, 4)), 33790);
    assert_eq!(tolerance(&both_ways([1, 2, 3], 6, quarters, 4)), 33790);
    let real = |weight: f32| {
        let one = 1f32.to_be_bytes();
        [&[1, 2, 1, 0, 1, 1, 0, 0][..], &weight.to_be_bytes(), &one].concat()
    };
    assert_eq!(tolerance(&real(1.0 / 4096.0)), 33280);
    assert_eq!(tolerance(&real(1.0 / 3.0)), 33535);
    for (r, rounded) in (0..16).zip([0, 0, 0, 0, 0, 0, 0, 0, 0, 8, 17, 23, 25, 27, 29, 31]) {
        assert_eq!(tolerance(&[1, 3, 1, 0, r, 0]), 33280 + 255 * rounded);
    }
}

/// A stage of ratios, mirror: 1/1 at one offset across and at one down.
fn taken_from(across: i8, down: i8) -> Vec<u8> {
    [
        &[1, 1, 2, 0, 1, 1, 0, 1, 0, 1][..],
        &[across as u8, down as u8],
        &[0, 1, 0, 1],
    ]
    .concat()
}

/// Request 2026-04: a short row or column goes there and back, over and over, as far as an offset reaches.
#[test]
fn short_axes_are_mirrored_again_and_again() {
    let periods: [&[u8]; 3] = [&[10, 10], &[10, 30, 30, 10], &[10, 20, 40, 40, 20, 10]];
    for there_and_back in periods {
        let n = there_and_back.len() / 2;
        let samples = &there_and_back[..n];
        for offset in -15..=15 {
            let from = i64::from(offset).rem_euclid(2 * n as i64) as usize;
            let supplied = there_and_back.iter().copied().cycle().skip(from);
            let expected: Vec<u8> = supplied.take(n).collect();
            let row = hejslopi::filter_plane(&taken_from(offset, 0), n, 1, samples);
            assert_eq!(row.unwrap().samples, expected, "{samples:?} at {offset}");
            let column = hejslopi::filter_plane(&taken_from(0, offset), 1, n, samples);
            assert_eq!(column.unwrap().samples, expected, "{samples:?} at {offset}");
        }
    }
}

/// One row: with nearest, mirror and wrap it stands above and below too, so its difference counts three times; with a constant of 0 once.
#[test]
fn outlines_of_a_row() {
    assert_eq!(plane(&[1, 6, 1, 0], &BENCH), (vec![30, 90, 60], 0));
    assert_eq!(plane(&[1, 6, 2, 0], &BENCH), (vec![30, 90, 60], 0));
    assert_eq!(plane(&[1, 6, 3, 0], &BENCH), (vec![60, 90, 30], 0));
    assert_eq!(plane(&[1, 6, 0, 0], &BENCH), (vec![20, 30, 20], 0));
    assert_eq!(plane(&[1, 6, 1, 0], &[0, 0, 86]), (vec![0, 255, 255], 0));
    assert_eq!(plane(&[1, 6, 1, 0], &[85, 0, 0]), (vec![255, 255, 0], 0));
    assert_eq!(plane(&[1, 6, 1, 0], &[84, 0, 0]), (vec![252, 252, 0], 0));
}

/// Three samples of 9 on one side of the middle, on each of the eight: the kernel for that side counts all three, each other one two at most.
#[test]
fn outlines_of_every_side() {
    let around = [0, 1, 2, 5, 8, 7, 6, 3];
    for side in 0..8 {
        let mut samples = [0; 9];
        for k in 0..3 {
            samples[around[(side + k) % 8]] = 9;
        }
        let done = hejslopi::filter_plane(&[1, 6, 1, 0], 3, 3, &samples).unwrap();
        assert_eq!(done.samples[4], 27, "{samples:?}");
    }
    // a single corner counts once, whichever kernel sees it, and the middle not at all
    let done = hejslopi::filter_plane(&[1, 6, 1, 0], 3, 3, &[9, 0, 0, 0, 200, 0, 0, 0, 0]);
    assert_eq!(done.unwrap().samples[4], 9);
}

/// A box has T 32,768. Each outline makes six times as much of it, up to 255 grey levels, and of nothing nothing.
#[test]
fn outlines_make_t_six_times_as_large() {
    let outlines = |count: usize| [6, 1, 0].repeat(count);
    for (count, expected) in [(0, 32768), (1, 196608), (3, 7_077_888), (4, 16_711_680)] {
        let recipe = [&[count as u8 + 1, 4, 1, 0, 1, 1], &outlines(count)[..]].concat();
        assert_eq!(hejslopi::read_recipe(&recipe).unwrap().tolerance, expected);
    }
    let alone = [&[8], &outlines(8)[..]].concat();
    assert_eq!(hejslopi::read_recipe(&alone).unwrap().tolerance, 0);
}

#[test]
fn the_reference_gives_the_papers_weights() {
    let weights = |a, d| match &reference::read_recipe(&ratios(a, d)).unwrap()[0].work {
        reference::Work::Weighted { across, .. } => reference::weights(across),
        _ => unreachable!(),
    };
    assert_eq!(weights([1, 1, 1], 3), [21845, 21846, 21845]);
    assert_eq!(weights([-1, -1, 5], 3), [-21845, -21845, 109226]);
}

#[test]
fn gains_and_real_weights_at_their_limits() {
    let one = |a: i16| {
        [
            &[1, 1, 1, 0, 1, 1, 0, 1, 0, 1, 0, 0][..],
            &a.to_be_bytes(),
            &[0, 1],
        ]
        .concat()
    };
    assert!(hejslopi::read_recipe(&one(4)).is_ok());
    assert_eq!(hejslopi::read_recipe(&one(5)), Err(Refusal::Gain));
    assert_eq!(
        hejslopi::read_recipe(&ratios([4, 1, 0], 1)),
        Err(Refusal::Gain)
    );
    let real = |bits: u32| {
        [
            &[1, 2, 1, 0, 1, 1, 0, 0][..],
            &bits.to_be_bytes(),
            &[0x3F, 0x80, 0, 0],
        ]
        .concat()
    };
    for (bits, accepted) in [
        (0x39800000, true),
        (0x397FFFFF, false),
        (0x40800000, true),
        (0x40800001, false),
    ] {
        assert_eq!(hejslopi::read_recipe(&real(bits)).is_ok(), accepted);
    }
    assert_eq!(
        hejslopi::read_recipe(&real(0x7FC00000)),
        Err(Refusal::RealWeight)
    );
}

/// The line of document 01's program and what it writes, with its buffers, as either reading has it.
fn program(
    still: Option<Vec<u8>>,
    recipe: Option<Vec<u8>>,
    by_reference: bool,
) -> Result<(String, Vec<u8>), u32> {
    let limited = |file: Option<Vec<u8>>, most: usize| -> Result<Vec<u8>, u32> {
        match file {
            None => Err(22),
            Some(bytes) if bytes.len() > most => Err(21),
            Some(bytes) => Ok(bytes),
        }
    };
    let still = limited(still, 65536)?;
    let recipe = limited(recipe, 4096)?;
    if by_reference {
        let lent = reference::Lengths {
            work: 32768,
            rows: 16384,
            sums: 16384,
            out: 65536,
        };
        let (p, t, file) = reference::filter_file(&recipe, &still, lent)?;
        return Ok((
            format!("ok {} {} {} {t}", p.width, p.height, p.channels),
            file,
        ));
    }
    let (mut work, mut rows, mut sums, mut out) = (
        vec![0; 32768],
        vec![0; 16384],
        vec![0; 16384],
        vec![0; 65536],
    );
    let lent = Lent {
        work: &mut work,
        rows: &mut rows,
        sums: &mut sums,
    };
    let p = hejslopi::filter_file_into(&recipe, &still, lent, &mut out).map_err(|r| r.number())?;
    out.truncate(p.length);
    Ok((
        format!("ok {} {} {} {}", p.width, p.height, p.channels, p.tolerance),
        out,
    ))
}

#[test]
fn vectors() {
    let folder = repository().join("crates/conformance/data/vectors");
    let mut tried = 0;
    for entry in std::fs::read_dir(&folder).unwrap() {
        let case = entry.unwrap().path();
        let file = |name: &str| std::fs::read(case.join(name)).ok();
        // the program knows nothing of backgrounds, of movement, of limits, of verdicts and of needs: tests/scripts.rs, tests/movement_examples.rs,
        // tests/limits.rs, tests/verdict.rs and tests/needs.rs run these
        if ["script", "still1", "limits", "received"]
            .iter()
            .any(|name| file(name).is_some())
        {
            continue;
        }
        let line = String::from_utf8(file("line").unwrap()).unwrap();
        if line.starts_with("work") {
            continue;
        }
        for by_reference in [false, true] {
            let (said, out) = match program(file("still"), file("recipe"), by_reference) {
                Ok((line, out)) => (line, Some(out)),
                Err(n) => (format!("no {n}"), None),
            };
            assert_eq!(
                said,
                line.trim_end(),
                "{}, by the reference: {by_reference}",
                case.display()
            );
            assert_eq!(
                out,
                file("out"),
                "{}, by the reference: {by_reference}",
                case.display()
            );
        }
        tried += 1;
    }
    assert!(tried >= 346, "{tried} vectors");
}

#[test]
fn wrappers() {
    let file = b"P6\n1 2\n255\n\x01\x02\x03\x04\x05\x06";
    let still = hejslopi::read_still(file).unwrap();
    assert_eq!(
        (
            still.width,
            still.height,
            still.channels,
            still.raster_start
        ),
        (1, 2, 3, 11)
    );
    assert_eq!(hejslopi::write_still(1, 2, 3, &file[11..]).unwrap(), file);
    assert_eq!(
        hejslopi::write_still(1, 2, 2, &file[11..]),
        Err(Refusal::Channels)
    );
    assert_eq!(
        hejslopi::write_still(0, 2, 3, &file[11..]),
        Err(Refusal::Side)
    );
    assert_eq!(
        hejslopi::write_still(1, 2, 3, &file[12..]),
        Err(Refusal::RasterShort)
    );
    assert_eq!(
        hejslopi::write_still(1, 2, 3, &file[10..]),
        Err(Refusal::RasterLong)
    );
    assert_eq!(
        hejslopi::write_still_into(1, 2, 3, &file[11..], &mut [0; 16]),
        Err(Refusal::Room)
    );
    assert_eq!(hejslopi::read_still(b"P7"), Err(Refusal::Magic));

    // the order of refusals: the recipe's, 14, the sides, the raster
    let (one, two) = ([1, 4, 1, 0, 1, 0], [2, 4, 1, 0, 1, 0, 4, 1, 0, 1, 0]);
    assert_eq!(
        hejslopi::filter_plane(&[9], 0, 0, &[]),
        Err(Refusal::StageCount)
    );
    assert_eq!(hejslopi::filter_plane(&two, 0, 0, &[]), Err(Refusal::Count));
    assert_eq!(hejslopi::filter_plane(&one, 0, 1, &[]), Err(Refusal::Side));
    assert_eq!(
        hejslopi::filter_plane(&one, 2, 1, &[1]),
        Err(Refusal::RasterShort)
    );
    assert_eq!(hejslopi::filter_file(&[9], b"P7"), Err(Refusal::StageCount));
    assert_eq!(hejslopi::filter_file(&one, b"P7"), Err(Refusal::Magic));
}

#[test]
fn refusals_have_numbers_and_words() {
    let numbers: Vec<u32> = Refusal::ALL.iter().map(|r| r.number()).collect();
    assert_eq!(
        numbers,
        [
            1, 2, 3, 4, 5, 6, 10, 11, 12, 13, 14, 15, 16, 17, 18, 19, 20, 21, 22, 23, 24, 25, 26,
            27, 28, 29, 30, 31, 32
        ]
    );
    for refusal in Refusal::ALL {
        assert_eq!(Refusal::from_number(refusal.number()), Some(refusal));
        assert!(refusal.to_string().len() > 10);
    }
    assert_eq!(Refusal::from_number(0), None);
}

/// Calls in several threads at once, each with 128 KiB of stack, over shared inputs.
#[test]
fn threads_with_small_stacks() {
    let recipe = [
        4, 3, 1, 0, 15, 15, 4, 2, 0, 15, 15, 5, 3, 0, 1, 1, 0, 5, 6, 0, 9,
    ];
    let raster: Vec<u8> = (0..8192 * 4).map(|k| (k * k >> 7) as u8).collect();
    let still = hejslopi::write_still(8192, 4, 1, &raster).unwrap();
    let make_calls = || {
        let file = hejslopi::filter_file(&recipe, &still).unwrap();
        let mut kept = hejslopi::Background::new();
        for number in 0..3 {
            kept.add(&file.bytes, number, 0).unwrap();
        }
        kept.remove(0).unwrap();
        let seen = hejslopi::movement(&recipe, &still, &recipe, &file.bytes, 9).unwrap();
        (file, kept.mean().unwrap(), seen)
    };
    let alone = make_calls();
    std::thread::scope(|scope| {
        let threads: Vec<_> = (0..4)
            .map(|_| {
                std::thread::Builder::new()
                    .stack_size(128 * 1024)
                    .spawn_scoped(scope, make_calls)
                    .unwrap()
            })
            .collect();
        for thread in threads {
            assert_eq!(thread.join().unwrap(), alone);
        }
    });
}
