//! Request 2026-11: a verdict on a still that was filtered elsewhere. HEJSLOPI_SEED=N tries other inputs.
mod reference;
mod support;

use hejslopi::Refusal;
use reference::verdict::Results;
use reference::Answer;
use std::cell::RefCell;
use std::cmp::Ordering;
use std::path::Path;
use support::verdict::{verdict, Input};
use support::{compare, inputs, say, Rng, Tally};

// Vectors.

/// The answer as a line.
fn said(answer: Result<bool, Refusal>) -> String {
    match answer {
        Ok(yes) => if yes { "yes" } else { "not" }.to_string(),
        Err(refusal) => format!("no {}", refusal.number()),
    }
}

/// With so many work bytes, which a refusal leaves as they were.
fn in_lent_memory(input: &Input, room: usize) -> String {
    let before: Vec<u8> = (0..room).map(|k| (7 * k) as u8).collect();
    let mut work = before.clone();
    let [recipe, raw, received] = input.files();
    let answer = hejslopi::verdict_into(recipe, raw, received, input.distance, &mut work);
    assert!(
        answer.is_ok() || work == before,
        "{}",
        input.shown("altered")
    );
    said(answer)
}

fn by_the_plain_reading(input: &Input, room: usize) -> String {
    match reference::verdict::verdict(input.files(), input.distance, room) {
        Ok(yes) => said(Ok(yes)),
        Err(number) => format!("no {number}"),
    }
}

/// One vector, and what its line says. Where there is plenty of memory, with as much as is enough for all.
fn tried(folder: &Path) -> String {
    let bytes = |name: &str| std::fs::read(folder.join(name)).unwrap();
    let text = |name: &str| String::from_utf8(bytes(name)).unwrap();
    let input = Input {
        recipe: bytes("recipe"),
        raw: bytes("raw"),
        received: bytes("received"),
        distance: text("distance").trim_end().parse().unwrap(),
    };
    let lent: usize = text("lent").trim_end().parse().unwrap();
    let (line, lent, name) = (text("line"), lent.min(65536), folder.display());
    let line = line.trim_end();
    assert_eq!(in_lent_memory(&input, lent), line, "{name}");
    assert_eq!(by_the_plain_reading(&input, lent), line, "{name}");
    if line != "no 20" {
        assert_eq!(said(input.judged()), line, "{name}");
    }
    if !line.starts_with("no ") {
        let picture = reference::read_still(&input.raw).unwrap();
        let need = picture.width * picture.height;
        assert_eq!(in_lent_memory(&input, need), line, "{name}");
        assert_eq!(in_lent_memory(&input, need - 1), "no 20", "{name}");
    }
    line.to_string()
}

#[test]
fn vectors() {
    let folders = support::vectors_with("received");
    let lines: Vec<String> = folders.iter().map(|folder| tried(folder)).collect();
    let count = |wanted: &str| lines.iter().filter(|line| line.starts_with(wanted)).count();
    assert_eq!(lines.len(), 96);
    assert_eq!([count("yes"), count("not"), count("no ")], [21, 16, 59]);
}

// Random stills, as C asks, beside exact fractions.

/// Up to 12 by 9, of one channel or three.
fn size(rng: &mut Rng) -> [usize; 3] {
    [rng.size(1, 12), rng.size(1, 9), rng.pick(&[1, 3])]
}

/// A raster that is near to the exact results in one of several ways: rounded, a few levels off, as far off as is near enough, and that with one sample a level further.
fn received(rng: &mut Rng, exact: &Results, distance: u64) -> Vec<u8> {
    let (style, far) = (rng.size(0, 4), rng.range(1, 3));
    let near = |place| match style {
        0 | 1 => exact.rounded(place) as i64,
        2 => exact.rounded(place) as i64 + rng.range(-far, far),
        _ => rng.pick(&exact.ends(place, distance)) as i64,
    };
    let mut samples: Vec<i64> = (0..exact.numerators.len()).map(near).collect();
    if style == 1 || style == 3 {
        let place = rng.size(0, samples.len() - 1);
        samples[place] += rng.pick(&[-1, 1]) * if style == 1 { far } else { 1 };
    }
    samples.iter().map(|y| (*y).clamp(0, 255) as u8).collect()
}

/// A received still that may get either answer, and the exact results that decide. Nothing is refused but perhaps the recipe: then there are none.
fn judged(
    rng: &mut Rng,
    recipe: Vec<u8>,
    [w, h, channels]: [usize; 3],
) -> (Input, Option<Results>) {
    let distance = rng.pick(&[0, 0, 1, 1, 1, 2, 2, 3, 3, 255]);
    let raster = inputs::samples(rng, w * h * channels);
    let raw = inputs::still(rng, w, h, channels, 255, &raster).0;
    let picture = reference::read_still(&raw).unwrap();
    let exact = reference::read_recipe(&recipe)
        .ok()
        .map(|stages| Results::of(&stages[0], picture, &raster));
    let samples = match &exact {
        Some(exact) => received(rng, exact, distance),
        None => raster,
    };
    let received = inputs::still(rng, w, h, channels, 255, &samples).0;
    let input = Input {
        recipe,
        raw,
        received,
        distance,
    };
    (input, exact)
}

/// How many samples are just at the distance.
fn ties(input: &Input, exact: &Results) -> usize {
    let samples = &input.received[input.received.len() - exact.numerators.len()..];
    let beside = |(place, y): (usize, &u8)| exact.beside(place, *y, input.distance);
    let all = samples.iter().enumerate().map(beside);
    all.filter(|beside| *beside == Ordering::Equal).count()
}

/// What was answered: how often yes and not; and how often yes with a tie, at a distance above 0 from a result over a denominator above 1.
#[derive(Default)]
struct Answers {
    yes: usize,
    not: usize,
    tied: usize,
}

impl Answers {
    fn add(&mut self, yes: bool, input: &Input, exact: &Results) {
        *(if yes { &mut self.yes } else { &mut self.not }) += 1;
        let tied = input.distance > 0 && exact.denominator > 1 && ties(input, exact) > 0;
        self.tied += usize::from(yes && tied);
    }

    /// Each often enough to mean something.
    fn shown(&self, name: &str) {
        let (yes, not, tied) = (self.yes, self.not, self.tied);
        say(format!("{name}: {yes} yes, {tied} of them tied, {not} not"));
        assert!(10 * yes.min(not) >= yes + not, "{name}");
        assert!(20 * tied >= yes, "{name}");
    }
}

/// One still with as many work bytes as it needs and with more, which is the answer, then with one less and with none.
fn as_c_asks(
    rng: &mut Rng,
    tally: &mut Tally,
    input: &Input,
    need: usize,
) -> Result<Answer<bool>, String> {
    let answer = verdict(rng, input, need)?;
    tally.add(answer.err().unwrap_or(0));
    let (more, short) = (need + rng.size(1, 9), answer.and(Err(20)));
    for (room, wanted) in [(more, answer), (need - 1, short), (0, short)] {
        let found = verdict(rng, input, room)?;
        tally.add(found.err().unwrap_or(0));
        if found != wanted {
            return Err(input.shown(&format!("other with {room} work bytes than with {need}")));
        }
    }
    if input.judged().map_err(Refusal::number) != answer {
        return Err(input.shown("other in memory of its own"));
    }
    Ok(answer)
}

#[test]
fn stills_are_judged_alike() {
    let answers = RefCell::new(Answers::default());
    compare("verdict", 12_000, |rng, tally| {
        let (recipe, size) = (inputs::judged_recipe(rng), size(rng));
        let (input, exact) = judged(rng, recipe, size);
        let answer = as_c_asks(rng, tally, &input, size[0] * size[1])?;
        if let (Ok(yes), Some(exact)) = (answer, exact) {
            answers.borrow_mut().add(yes, &input, &exact);
        }
        Ok(())
    });
    answers.into_inner().shown("verdict");
}

/// A box and a rank of these radii.
fn window(rng: &mut Rng, border: u8, r: u8, s: u8) -> [Vec<u8>; 2] {
    let value = if border == 0 { rng.byte() } else { 0 };
    let last = (2 * r as usize + 1) * (2 * s as usize + 1);
    let any = rng.size(1, last);
    let position = rng.pick(&[1, (last + 1) / 2, any, last]) as u16;
    let mut rank = vec![1, 5, border, value, r, s];
    rank.extend(position.to_be_bytes());
    [vec![1, 4, border, value, r, s], rank]
}

/// Every window of a box and of a rank under every border.
#[test]
fn every_window_is_judged_alike() {
    let mut answers = Answers::default();
    let mut rng = Rng::new(support::base_seed());
    let radii = (0..=15).flat_map(|r| (0..=15).map(move |s| (r, s)));
    for (border, (r, s)) in (0..4).flat_map(|border| radii.clone().map(move |rs| (border, rs))) {
        for recipe in window(&mut rng, border, r, s) {
            let size = size(&mut rng);
            let (input, exact) = judged(&mut rng, recipe, size);
            let answer = as_c_asks(&mut rng, &mut Tally::default(), &input, size[0] * size[1]);
            let yes = answer.unwrap_or_else(|e| panic!("{e}")).unwrap();
            answers.add(yes, &input, &exact.unwrap());
        }
    }
    answers.shown("verdict, every window");
}

/// Stills that are larger than a window, and the longest sides.
#[test]
fn large_stills_are_judged_alike() {
    compare("verdict, large", 60, |rng, tally| {
        let recipe = inputs::judged_recipe(rng);
        let stages = reference::read_recipe(&recipe).unwrap_or_default();
        let channels = rng.pick(&[1, 3]);
        let (w, h) = inputs::size(rng, 20 * channels * inputs::cost(&stages), 300_000_000);
        let (input, _) = judged(rng, recipe, [w, h, channels]);
        let _ = as_c_asks(rng, tally, &input, w * h)?;
        Ok(())
    });
    let thirds = [
        1, 1, 1, 0, 3, 1, 0, 3, 0, 1, 241, 0, 15, 0, 0, 1, 0, 1, 0, 1, 0, 1,
    ];
    let mut rng = Rng::new(support::base_seed());
    for (w, h) in [(8192, 1), (1, 8192), (8192, 2), (2, 8192)] {
        for recipe in [&thirds[..], &[1, 4, 2, 0, 3, 1], &[1, 5, 3, 0, 1, 2, 0, 7]] {
            let (input, _) = judged(&mut rng, recipe.to_vec(), [w, h, 1]);
            let answer = as_c_asks(&mut rng, &mut Tally::default(), &input, w * h);
            answer.unwrap_or_else(|e| panic!("{}", &e[..200])).unwrap();
        }
    }
}

/// Something wrong in one place or more.
fn damage(rng: &mut Rng, input: &mut Input) {
    for bytes in [&mut input.recipe, &mut input.raw, &mut input.received] {
        if rng.one_in(4) {
            let within = bytes.len().min(20);
            inputs::damage(rng, bytes, within);
        }
    }
    if rng.one_in(3) {
        let [w, h, channels] = size(rng);
        let raster = inputs::samples(rng, w * h * channels);
        input.received = inputs::still(rng, w, h, channels, 255, &raster).0;
    }
    if rng.one_in(3) {
        let stages = rng.size(1, 3);
        input.recipe = inputs::recipe(rng, stages);
    }
    if rng.one_in(6) {
        input.distance = rng.pick(&[256, 257, 65535, 1 << 32, 1 << 63, u64::MAX]);
    }
}

#[test]
fn damaged_stills_are_judged_alike() {
    compare("verdict, damaged", 12_000, |rng, tally| {
        let (recipe, size) = (inputs::judged_recipe(rng), size(rng));
        let (mut input, _) = judged(rng, recipe, size);
        damage(rng, &mut input);
        let need = reference::read_still(&input.raw).map_or(9, |p| p.width * p.height);
        let _ = as_c_asks(rng, tally, &input, need)?;
        Ok(())
    });
}

// By hand.

const RANK: &[u8] = &[1, 5, 1, 0, 0, 0, 0, 1]; // one sample: the exact result is the raw sample
const BOX: &[u8] = &[1, 4, 1, 0, 1, 0]; // three samples across

/// A grey still of one row.
fn row(samples: &[u8]) -> Vec<u8> {
    hejslopi::write_still(samples.len(), 1, 1, samples).unwrap()
}

/// The exact results are 40/3, 70/3 and 100/3.
#[test]
fn a_box_by_hand() {
    let raw = row(&[10, 20, 40]);
    for (samples, distance, yes) in [
        ([13, 23, 33], 0, false),
        ([13, 23, 33], 1, true),
        ([14, 24, 34], 1, true),
        ([12, 23, 33], 1, false),
        ([15, 23, 33], 1, false),
        ([13, 22, 33], 1, false),
        ([13, 23, 35], 1, false),
        ([12, 22, 32], 2, true),
        ([15, 25, 35], 2, true),
        ([11, 25, 35], 2, false),
        ([15, 25, 36], 2, false),
        ([255, 255, 255], 241, false),
        ([255, 255, 255], 242, true),
        ([0, 0, 0], 33, false),
        ([0, 0, 0], 34, true),
        ([0, 255, 0], 255, true),
    ] {
        let found = hejslopi::verdict(BOX, &raw, &row(&samples), distance);
        assert_eq!(found, Ok(yes), "{samples:?} {distance}");
    }
}

/// Three channels: a sample that is too far off in any of them is enough.
#[test]
fn every_sample_counts() {
    let raster: Vec<u8> = (0..3 * 5 * 4).map(|k| 40 + 3 * k).collect();
    let raw = hejslopi::write_still(5, 4, 3, &raster).unwrap();
    assert_eq!(hejslopi::verdict(RANK, &raw, &raw, 0), Ok(true));
    for place in 0..raster.len() {
        for (by, distance, yes) in [(1, 0, false), (-1, 0, false), (7, 7, true), (-8, 7, false)] {
            let mut other = raster.clone();
            other[place] = other[place].wrapping_add_signed(by);
            let received = hejslopi::write_still(5, 4, 3, &other).unwrap();
            let found = hejslopi::verdict(RANK, &raw, &received, distance);
            assert_eq!(found, Ok(yes), "{place} {by} {distance}");
        }
    }
}

/// 1, 32,767 and 32,767 over 65,535, both ways: the finest weights that add up to 1.
fn finest() -> Vec<u8> {
    let weights: [u8; 6] = [0, 1, 127, 255, 127, 255];
    let mut recipe = vec![1, 1, 1, 0, 3, 3, 255, 255, 255, 255];
    recipe.extend([255, 0, 1, 255, 0, 1]);
    recipe.extend(weights.iter().chain(&weights));
    recipe
}

/// A frame of 3 by 3 that is 100 but for its first sample, and its verdict with so much in the middle, at which the exact result is 100 or less or more
/// by 1 / 65,535^2. All else is rounded, so less than a level off.
fn middle(first: u8, sample: u8, distance: u64) -> bool {
    let mut raster = [100; 9];
    raster[0] = first;
    let raw = hejslopi::write_still(3, 3, 1, &raster).unwrap();
    let picture = reference::read_still(&raw).unwrap();
    let stages = reference::read_recipe(&finest()).unwrap();
    let exact = Results::of(&stages[0], picture, &raster);
    let above = exact.numerators[4] - 100 * exact.denominator;
    assert_eq!(above, first as i128 - 100);
    let mut samples: Vec<u8> = (0..9).map(|place| exact.rounded(place)).collect();
    samples[4] = sample;
    let received = hejslopi::write_still(3, 3, 1, &samples).unwrap();
    hejslopi::verdict(&finest(), &raw, &received, distance).unwrap()
}

/// Just at the distance is yes, and the smallest step there is beyond it is not.
#[test]
fn ties_are_yes_and_a_step_further_is_not() {
    for c in 1..=100 {
        let (low, high, distance) = (100 - c, 100 + c, c as u64);
        assert!(middle(100, low, distance) && middle(100, high, distance));
        assert!(!middle(100, low, distance - 1) && !middle(100, high, distance - 1));
        assert!(!middle(101, low, distance) && middle(101, high, distance));
        assert!(middle(99, low, distance) && !middle(99, high, distance));
    }
}

/// Weights that lead below 0 and above 255: the exact result is kept to 0 and 255.
#[test]
fn exact_results_are_kept_to_the_levels() {
    for (weight, level) in [(-4i16, 0), (4, 255)] {
        let [high, low] = weight.to_be_bytes();
        let recipe = [1, 1, 1, 0, 1, 1, 0, 1, 0, 1, 0, 0, high, low, 0, 1];
        for sample in 0..=255u8 {
            let apart = sample.abs_diff(level) as u64;
            let found = |c| hejslopi::verdict(&recipe, &row(&[200]), &row(&[sample]), c);
            assert_eq!(found(apart), Ok(true));
            assert!(apart == 0 || found(apart - 1) == Ok(false));
        }
    }
}

/// The filter's own output lies within T, so it gets yes at every distance from T on.
#[test]
fn the_filters_own_output_is_near_enough() {
    let distances = RefCell::new(0);
    compare("verdict on the filter's own output", 3_000, |rng, tally| {
        let (recipe, [w, h, channels]) = (inputs::judged_recipe(rng), size(rng));
        let raster = inputs::samples(rng, w * h * channels);
        let raw = inputs::still(rng, w, h, channels, 255, &raster).0;
        let Ok(file) = hejslopi::filter_file(&recipe, &raw) else {
            return Ok(());
        };
        for distance in file.tolerance.div_ceil(65536)..=255 {
            let input = Input {
                recipe: recipe.clone(),
                raw: raw.clone(),
                received: file.bytes.clone(),
                distance,
            };
            if input.judged() != Ok(true) {
                return Err(input.shown("the filter's own output"));
            }
            *distances.borrow_mut() += 1;
        }
        tally.add(0);
        Ok(())
    });
    let distances = distances.into_inner();
    say(format!(
        "verdict on the filter's own output: {distances} distances"
    ));
    assert!(distances > 500_000);
}

// Refusals.

/// Each cause of a refusal, in the order of the tests.
const CAUSES: [(&str, Refusal); 7] = [
    ("distance", Refusal::DistanceLimit),
    ("recipe", Refusal::Trailing),
    ("stage", Refusal::VerdictStage),
    ("raw", Refusal::RasterShort),
    ("received", Refusal::RasterLong),
    ("size", Refusal::ReceivedSize),
    ("room", Refusal::Room),
];

/// A still of 3 by 1 and the same received, with these causes and no others.
fn caused(causes: &[&str]) -> Result<bool, Refusal> {
    let has = |cause| causes.contains(&cause);
    let mut recipe = if has("stage") { &[1, 6, 1, 0] } else { RANK }.to_vec();
    recipe.extend(has("recipe").then_some(0));
    let mut raw = row(&[1, 2, 3]);
    let wide = if has("size") {
        row(&[1, 2, 3, 4])
    } else {
        raw.clone()
    };
    raw.truncate(raw.len() - usize::from(has("raw")));
    let received = [&wide[..], if has("received") { b"x" } else { b"" }].concat();
    let distance = if has("distance") { 256 } else { 255 };
    let mut work = vec![9; if has("room") { 2 } else { 3 }];
    let before = work.clone();
    let answer = hejslopi::verdict_into(&recipe, &raw, &received, distance, &mut work);
    assert!(answer.is_ok() || work == before);
    answer
}

/// Each alone, before each later one, and before all later ones together.
#[test]
fn refusals_come_in_their_order() {
    assert_eq!(caused(&[]), Ok(true));
    for (k, (cause, refusal)) in CAUSES.iter().enumerate() {
        let later: Vec<&str> = CAUSES[k..].iter().map(|cause| cause.0).collect();
        assert_eq!(caused(&[cause]), Err(*refusal), "{cause}");
        assert_eq!(caused(&later), Err(*refusal), "{later:?}");
        for other in later {
            assert_eq!(caused(&[other, cause]), Err(*refusal), "{cause}, {other}");
        }
    }
}

/// Every refusal of a recipe and of a still, by either still, with a cause for the next of the same part where there can be one.
#[test]
fn refusals_of_every_part() {
    let good = row(&[1]);
    for (bytes, number) in [
        (&b"P7\n1"[..], 1),
        (b"P5\n1 1\n255", 2),
        (b"P5\n0 1\n254\nab", 3),
        (b"P5\n1 8193\n255\nab", 3),
        (b"P5\n1 1\n254\nab", 4),
        (b"P5\n1 1\n255\n", 5),
        (b"P5\n1 1\n255\nab", 6),
    ] {
        let refused = |raw, received| said(hejslopi::verdict(RANK, raw, received, 0));
        assert_eq!(refused(bytes, &good), format!("no {number}"));
        assert_eq!(refused(&good, bytes), format!("no {number}"));
        assert_eq!(refused(bytes, b"P7"), format!("no {number}"));
    }
    for (recipe, number) in [
        (&[9, 7][..], 10),
        (&[1], 11),
        (&[1, 5, 1, 0, 0, 0, 0, 1, 0], 12),
        (&[1, 7, 1, 0], 13),
        (&[1, 4, 1, 0, 16, 0], 14),
        (&[1, 1, 1, 0, 1, 1, 0, 1, 0, 1, 16], 15),
        (&[1, 2, 1, 0, 1, 1, 0, 0, 0x40, 0xA0, 0, 0], 16),
        (&[1, 1, 1, 0, 1, 1, 0, 1, 0, 1, 0, 0, 0, 5, 0, 1], 17),
        (&[1, 5, 1, 0, 0, 0, 0, 2], 18),
    ] {
        let found = hejslopi::verdict(recipe, b"P7", b"P7", 255);
        assert_eq!(said(found), format!("no {number}"));
    }
}

/// One stage of ratios, a box or a rank is judged. Two are not, nor one of another kind, though the same weights as ratios are.
#[test]
fn one_stage_of_three_kinds() {
    let one = 1f32.to_be_bytes();
    let real = [&[1, 2, 1, 0, 1, 1, 0, 0][..], &one, &one].concat();
    let ratio = [1, 1, 1, 0, 1, 1, 0, 1, 0, 1, 0, 0, 0, 1, 0, 1];
    let (still, two) = (row(&[7]), [2, 5, 1, 0, 0, 0, 0, 1, 5, 1, 0, 0, 0, 0, 1]);
    for recipe in [&ratio[..], &[1, 4, 1, 0, 0, 0], RANK] {
        assert_eq!(hejslopi::verdict(recipe, &still, &still, 0), Ok(true));
    }
    for recipe in [&real[..], &[1, 3, 1, 0, 0, 0], &[1, 6, 1, 0], &two] {
        let found = hejslopi::verdict(recipe, &still, &still, 0);
        assert_eq!(found, Err(Refusal::VerdictStage));
    }
}

#[test]
fn distances_over_255() {
    let still = row(&[7]);
    assert_eq!(hejslopi::verdict(RANK, &still, &still, 255), Ok(true));
    for distance in [256, 511, 1 << 32, 1 << 63, u64::MAX] {
        let found = hejslopi::verdict(RANK, &still, &still, distance);
        assert_eq!(found, Err(Refusal::DistanceLimit));
    }
}

/// Width, height and channels are compared, not how many samples there are.
#[test]
fn other_sizes() {
    let sizes = [
        (6, 1, 1),
        (3, 2, 1),
        (2, 3, 1),
        (1, 6, 1),
        (2, 1, 3),
        (1, 2, 3),
        (2, 2, 1),
    ];
    let still = |(w, h, channels)| {
        let raster = vec![5; w * h * channels];
        hejslopi::write_still(w, h, channels, &raster).unwrap()
    };
    for first in sizes {
        for second in sizes {
            let found = hejslopi::verdict(RANK, &still(first), &still(second), 255);
            let wanted = if first == second {
                Ok(true)
            } else {
                Err(Refusal::ReceivedSize)
            };
            assert_eq!(found, wanted, "{first:?} {second:?}");
        }
    }
}

/// Calls in several threads at once, each with 192 KiB of stack, over shared inputs: rows are held there, whatever the width.
#[test]
fn threads_with_small_stacks() {
    let recipes: [&[u8]; 4] = [
        &[1, 1, 1, 0, 1, 1, 0, 1, 0, 1, 15, 15, 0, 1, 0, 1],
        &[1, 4, 2, 0, 15, 15],
        &[1, 5, 0, 7, 1, 1, 0, 5],
        &[1, 5, 3, 0, 15, 15, 1, 225],
    ];
    let raster: Vec<u8> = (0..8192 * 4).map(|k| (k * k >> 7) as u8).collect();
    let still = hejslopi::write_still(8192, 4, 1, &raster).unwrap();
    let judged = || recipes.map(|recipe| hejslopi::verdict(recipe, &still, &still, 254));
    let alone = judged();
    assert!(alone.iter().all(Result::is_ok));
    std::thread::scope(|scope| {
        let start = || {
            let thread = std::thread::Builder::new().stack_size(192 * 1024);
            thread.spawn_scoped(scope, judged).unwrap()
        };
        for thread in [start(), start(), start(), start()] {
            assert_eq!(thread.join().unwrap(), alone);
        }
    });
}
