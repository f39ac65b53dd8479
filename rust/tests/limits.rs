//! Request 2026-07: a file filtered for a caller with limits.
mod reference;
mod support;

use hejslopi::{Lent, Limits, Refusal};
use reference::Lengths;
use std::path::Path;
use support::{calls, compare, inputs, Rng};

/// What the vectors lend at most: row values for a picture of 8,192 by 2.
const PLENTY: Lengths = Lengths {
    work: 32768,
    rows: 262144,
    sums: 16384,
    out: 65536,
};

/// A line, and the bytes in the output.
type Answer = (String, Option<Vec<u8>>);

fn refused(number: u32) -> Answer {
    (format!("no {number}"), None)
}

/// With limits, or by the call that takes none.
fn in_lent_memory(recipe: &[u8], still: &[u8], limits: Option<Limits>, lengths: Lengths) -> Answer {
    let (mut work, mut rows) = (vec![170; lengths.work], vec![-7; lengths.rows]);
    let (mut sums, mut out) = (vec![7; lengths.sums], vec![85; lengths.out]);
    let lent = Lent {
        work: &mut work,
        rows: &mut rows,
        sums: &mut sums,
    };
    let answer = match limits {
        Some(limits) => hejslopi::filter_file_limited_into(recipe, still, limits, lent, &mut out),
        None => hejslopi::filter_file_into(recipe, still, lent, &mut out),
    };
    match answer {
        Err(refusal) => refused(refusal.number()),
        Ok(p) => {
            assert!(out[p.length..].iter().all(|byte| *byte == 85));
            out.truncate(p.length);
            let line = format!("ok {} {} {} {}", p.width, p.height, p.channels, p.tolerance);
            (line, Some(out))
        }
    }
}

fn in_memory_of_its_own(recipe: &[u8], still: &[u8], limits: Limits) -> Answer {
    match hejslopi::filter_file_limited(recipe, still, limits) {
        Err(refusal) => refused(refusal.number()),
        Ok(f) => {
            let line = format!("ok {} {} {} {}", f.width, f.height, f.channels, f.tolerance);
            (line, Some(f.bytes))
        }
    }
}

fn by_the_plain_reading(recipe: &[u8], still: &[u8], limits: Limits, lengths: Lengths) -> Answer {
    let most = [limits.stages, limits.samples];
    match reference::filter_file_limited(recipe, still, most, lengths) {
        Err(number) => refused(number),
        Ok((p, t, file)) => {
            let line = format!("ok {} {} {} {t}", p.width, p.height, p.channels);
            (line, Some(file))
        }
    }
}

fn numbers(text: &str) -> Vec<usize> {
    text.split_whitespace()
        .map(|n| n.parse().unwrap())
        .collect()
}

/// One vector: to the panel, and to the archive with the same lent lengths.
fn tried(folder: &Path) {
    let bytes = |name: &str| std::fs::read(folder.join(name)).ok();
    let text = |name: &str| bytes(name).map(|bytes| String::from_utf8(bytes).unwrap());
    let (recipe, still) = (bytes("recipe").unwrap(), bytes("still").unwrap());
    let [stages, samples] = numbers(&text("limits").unwrap())[..] else {
        panic!("{}: limits are two numbers", folder.display());
    };
    let lent = numbers(&text("lent").unwrap());
    let lengths = Lengths {
        work: lent[0].min(PLENTY.work),
        rows: lent[1].min(PLENTY.rows),
        sums: lent[2].min(PLENTY.sums),
        out: lent[3].min(PLENTY.out),
    };
    let panel = Limits { stages, samples };
    assert_eq!(panel, Limits::PANEL);
    let line = text("line").unwrap();
    let archive = text("archive").unwrap_or(line.clone());
    for (limits, line) in [(panel, line), (Limits::ARCHIVE, archive)] {
        let out = bytes("out").filter(|_| line.starts_with("ok"));
        let expected = (line.trim_end().to_string(), out);
        let name = format!("{} with {limits:?}", folder.display());
        let found = in_lent_memory(&recipe, &still, Some(limits), lengths);
        assert!(found == expected, "{name}: {}", found.0);
        if limits == Limits::ARCHIVE {
            let found = in_lent_memory(&recipe, &still, None, lengths);
            assert!(
                found == expected,
                "{name}, by the call without limits: {}",
                found.0
            );
        }
        let found = by_the_plain_reading(&recipe, &still, limits, lengths);
        assert!(
            found == expected,
            "{name}, by the plain reading: {}",
            found.0
        );
        if expected.0 != "no 20" {
            let found = in_memory_of_its_own(&recipe, &still, limits);
            assert!(
                found == expected,
                "{name}, in memory of its own: {}",
                found.0
            );
        }
    }
}

#[test]
fn vectors() {
    let folders = support::vectors_with("limits");
    assert_eq!(folders.len(), 43);
    folders.iter().for_each(|folder| tried(folder));
}

/// Around what a recipe and a still have, far above it, and nothing.
fn limits(rng: &mut Rng, recipe: &[u8], still: &[u8]) -> [usize; 2] {
    let stages = recipe.first().map_or(1, |s| usize::from(*s));
    let samples = reference::read_still(still).map_or(1, |p| p.width * p.height);
    [stages, samples].map(|n| match rng.size(0, 9) {
        0 => 0,
        1 => usize::MAX,
        2 | 3 => n.saturating_sub(1),
        4 => 3 * n,
        5 => n + 1,
        _ => n,
    })
}

#[test]
fn limited_files_are_filtered_alike() {
    compare("filter_file_limited", 20_000, |rng, tally| {
        let (recipe, still, need) = inputs::file(rng, 300_000);
        let most = limits(rng, &recipe, &still);
        for lengths in inputs::lengths(rng, need) {
            tally.add(calls::filter_file(
                rng,
                &recipe,
                &still,
                Some(most),
                lengths,
            )?);
        }
        Ok(())
    });
}

/// With the same lent lengths: what narrower limits do not refuse by 28 or 29 comes out alike with wider ones and by the call without limits, and that one gives what the
/// archive's limits give.
#[test]
fn wider_limits_change_nothing_that_is_accepted() {
    compare("wider limits", 4_000, |rng, tally| {
        let (recipe, still, need) = inputs::file(rng, 300_000);
        let all = inputs::lengths(rng, need);
        let lengths = rng.pick(&all);
        let [stages, samples] = limits(rng, &recipe, &still);
        let narrow = Limits { stages, samples };
        let wide = Limits {
            stages: stages.saturating_add(rng.size(0, 2)),
            samples: samples.saturating_add(rng.size(0, 9)),
        };
        let with = |limits| in_lent_memory(&recipe, &still, limits, lengths);
        let [found, other] = [narrow, wide].map(|limits| with(Some(limits)));
        let (archive, plain) = (with(Some(Limits::ARCHIVE)), with(None));
        let limited = |answer: &Answer| [refused(28), refused(29)].contains(answer);
        let number = found.0.strip_prefix("no ");
        tally.add(number.map_or(0, |n| n.parse().unwrap()));
        let alike = limited(&found) || (found == other && found == plain);
        if alike && archive == plain && !limited(&plain) {
            Ok(())
        } else {
            Err(format!(
                "{narrow:?} {wide:?} {lengths:?}\n{recipe:?}\n{still:?}\n"
            ))
        }
    });
}

#[test]
fn at_the_limits() {
    let grey = b"P5\n3 1\n255\n\x0A\x14\x28";
    let colours = b"P6\n3 1\n255\n\x01\x02\x03\x04\x05\x06\x07\x08\x09";
    let two = [2, 4, 1, 0, 1, 0, 4, 1, 0, 1, 0];
    let limited = |recipe: &[u8], still: &[u8], stages, samples| {
        hejslopi::filter_file_limited(recipe, still, Limits { stages, samples })
    };
    for still in [&grey[..], colours] {
        let file = limited(&two, still, 2, 3).unwrap();
        assert_eq!(file, hejslopi::filter_file(&two, still).unwrap());
        assert_eq!(limited(&two, still, 1, 3), Err(Refusal::StageLimit));
        assert_eq!(limited(&two, still, 0, 0), Err(Refusal::StageLimit));
        assert_eq!(limited(&two, still, 2, 2), Err(Refusal::SampleLimit));
        assert_eq!(limited(&two, still, 8, 0), Err(Refusal::SampleLimit));
    }
    // the recipe's own refusals come before 28, and 28 before the still is looked at; the still's own before 29
    assert_eq!(limited(&two[..10], grey, 1, 3), Err(Refusal::Cut));
    assert_eq!(limited(&[9], grey, 1, 3), Err(Refusal::StageCount));
    assert_eq!(limited(&two, b"P7", 1, 3), Err(Refusal::StageLimit));
    assert_eq!(limited(&two, &grey[..13], 2, 2), Err(Refusal::RasterShort));
    assert_eq!(limited(&two, b"P7", 2, 0), Err(Refusal::Magic));
}

/// 28 and 29 come before 20: within the limits the same buffers are too short.
#[test]
fn limits_before_room() {
    let still = b"P5\n3 1\n255\n\x0A\x14\x28";
    let recipe = [1, 3, 1, 0, 1, 0];
    for (stages, samples, number) in [(0, 3, 28), (1, 2, 29), (1, 3, 20)] {
        let limits = Limits { stages, samples };
        let lengths = Lengths {
            work: 5,
            rows: 93,
            sums: 0,
            out: 14,
        };
        assert_eq!(
            in_lent_memory(&recipe, still, Some(limits), lengths),
            refused(number)
        );
    }
}
