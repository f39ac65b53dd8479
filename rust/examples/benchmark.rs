//! benchmark [PEERS]: tables in nanoseconds, a sample or a call, best of several runs, one thread, buffers warm: of all stages, of ranks by window, picture and
//! position, of medians by their radii, of movement, of a verdict, of a background, of reading recipes.
//! Run it by `cargo run --release --example benchmark`. PEERS is a file that `python/peers.py` wrote; without it those columns are empty.
#[path = "../tests/reference/mod.rs"]
mod reference;

use hejslopi::Held;
use reference::background::Stills;
use reference::movement::Run;
use reference::Lengths;
use std::collections::HashMap;
use std::hint::black_box;
use std::time::{Duration, Instant};

/// Width and height.
type Size = (usize, usize);

const SIZES: [Size; 2] = [(96, 72), (1024, 768)];

/// Boxes have one more: a frame whose running sums would fit no cache, were they all held.
const LARGE: Size = (4096, 4096);

// Pictures. peers.py makes the same samples, in whole numbers like these.

/// Makes the samples of a picture from its width and height.
type Make = fn(usize, usize) -> Vec<u8>;

/// How each picture is called, how it is made, and the checksum of it in all sizes, which peers.py has too.
const PICTURES: [(&str, Make, u64); 3] = [
    ("usual", picture, 39427188518567),
    ("noise", noise, 39434502244458),
    ("bed", bed, 42140440107691),
];

/// The usual picture.
fn picture(w: usize, h: usize) -> Vec<u8> {
    let byte = |k: usize| {
        let x = (k as u32).wrapping_mul(2654435761);
        ((x ^ x >> 15).wrapping_mul(2246822519) >> 24) as u8
    };
    (0..w * h).map(byte).collect()
}

/// The number at place k of splitmix64 that begins with 0.
fn random(k: usize) -> u64 {
    let z = (k as u64 + 1).wrapping_mul(0x9E3779B97F4A7C15);
    let z = (z ^ z >> 30).wrapping_mul(0xBF58476D1CE4E5B9);
    let z = (z ^ z >> 27).wrapping_mul(0x94D049BB133111EB);
    z ^ z >> 31
}

/// Every sample at random.
fn noise(w: usize, h: usize) -> Vec<u8> {
    (0..w * h).map(|k| (random(k) >> 56) as u8).collect()
}

/// Ellipses that lie on the bed: the middle of each across and down, its radii, and how much lighter it is. Lengths are in 4,096ths of the frame.
const OBJECTS: [[i64; 5]; 5] = [
    [1500, 2300, 900, 500, 55],
    [2900, 1300, 350, 600, -50],
    [2048, 3600, 1900, 90, 40],
    [700, 700, 160, 160, -35],
    [3300, 3000, 240, 200, 70],
];

/// Like a still of a bed: lighter in the middle than in the corners, with a few objects' edges, and a sensor's noise of at most three levels.
fn bed(w: usize, h: usize) -> Vec<u8> {
    let sample = |k: usize| {
        let (u, v) = ((k % w * 4096 / w) as i64, (k / w * 4096 / h) as i64);
        let shade = 150 - ((u - 2048).pow(2) + (v - 2048).pow(2)) / 131072;
        let lighter = |&[x, y, r, s, by]: &[i64; 5]| {
            by * i64::from(((u - x) * s).pow(2) + ((v - y) * r).pow(2) <= (r * s).pow(2))
        };
        let objects: i64 = OBJECTS.iter().map(lighter).sum();
        let grain = (random(k) >> 62) + (random(k) >> 60 & 3);
        (shade + objects + grain as i64 - 3) as u8
    };
    (0..w * h).map(sample).collect()
}

/// The checksum of a picture in all sizes: every sample times its place from 1, added up.
fn checksum(make: Make) -> u64 {
    let weighed = |samples: Vec<u8>| -> u64 { (1..).zip(samples).map(|(k, x)| k * x as u64).sum() };
    SIZES.map(|(w, h)| weighed(make(w, h))).iter().sum()
}

// Times.

/// How long a cell is measured, where its runs are not too long for that.
const LONG: Duration = Duration::from_millis(500);
/// The same in the tables of ranks, which have many cells.
const SHORT: Duration = Duration::from_millis(150);

/// The best time of one run, of at least three and for about half a second.
fn best(run: impl FnMut()) -> Duration {
    best_for(LONG, run)
}

/// The same for another while.
fn best_for(span: Duration, mut run: impl FnMut()) -> Duration {
    best_after(span, || (), |()| run())
}

/// The same of a run that something is made for each time, which does not count.
fn best_after<T>(
    span: Duration,
    mut make: impl FnMut() -> T,
    mut run: impl FnMut(&mut T),
) -> Duration {
    let mut best = Duration::MAX;
    let start = Instant::now();
    let mut runs = 0;
    while runs < 3 || (start.elapsed() < span && runs < 100_000) {
        let mut made = make();
        let before = Instant::now();
        run(&mut made);
        best = best.min(before.elapsed());
        runs += 1;
        if start.elapsed() > Duration::from_secs(10) {
            break;
        }
    }
    best
}

/// Nanoseconds a sample.
fn each(time: Duration, (w, h): Size) -> f64 {
    time.as_nanos() as f64 / (w * h) as f64
}

fn named((w, h): Size) -> String {
    format!("{w}x{h}")
}

/// The library's time for a recipe of one stage on a plane, and its samples.
fn on_plane(recipe: &[u8], (w, h): Size, plane: &[u8], span: Duration) -> (Duration, Vec<u8>) {
    let mut room = hejslopi::Room::new(hejslopi::plane_needs(recipe, w, h).unwrap());
    let mut out = vec![0; w * h];
    let time = best_for(span, || {
        hejslopi::filter_plane_into(recipe, w, h, plane, room.lend(), &mut out).unwrap();
    });
    (time, out)
}

/// The library's time for any recipe on a file, and the file that it writes.
fn on_file(recipe: &[u8], still: &[u8]) -> (Duration, Vec<u8>) {
    let mut room = hejslopi::Room::new(hejslopi::needs(recipe, still).unwrap());
    let mut out = vec![0; still.len()];
    let time = best(|| {
        hejslopi::filter_file_into(recipe, still, room.lend(), &mut out).unwrap();
    });
    (time, out)
}

/// What the plain reading is lent: enough for all.
const PLENTY: Lengths = Lengths {
    work: usize::MAX,
    rows: usize::MAX,
    sums: usize::MAX,
    out: usize::MAX,
};

// Recipes.

/// How many samples a window has.
fn area(r: u8, s: u8) -> u16 {
    (2 * r as u16 + 1) * (2 * s as u16 + 1)
}

/// A rank with the nearest border, and nothing else.
fn rank(r: u8, s: u8, p: u16) -> Vec<u8> {
    [&[1, 5, 1, 0, r, s][..], &p.to_be_bytes()].concat()
}

fn median(r: u8, s: u8) -> Vec<u8> {
    rank(r, s, area(r, s) / 2 + 1)
}

/// Ratios at offsets -15 to 15 on both axes: 1 2 3 .. 16 .. 3 2 1 over 256.
fn ratios_31() -> Vec<u8> {
    let mut stage = vec![1, 1, 0, 31, 31, 1, 0, 1, 0];
    for _ in 0..2 {
        stage.extend((-15..=15).map(|i: i8| i as u8));
    }
    for _ in 0..2 {
        stage.extend((-15..=15).flat_map(|i: i16| (16 - i.abs()).to_be_bytes()));
    }
    stage
}

fn recipes() -> Vec<(&'static str, Vec<u8>)> {
    let one = |stage: &[u8]| [&[1], stage].concat();
    let eight: Vec<u8> = [
        &[8][..],
        &[3, 1, 0, 1, 1],
        &[4, 1, 0, 1, 1],
        &[5, 1, 0, 1, 1, 0, 5],
        // ratios -1 6 -1 over 4
        &[1, 1, 0, 3, 3, 0, 4, 0, 4, 255, 0, 1, 255, 0, 1],
        &[255, 255, 0, 6, 255, 255, 255, 255, 0, 6, 255, 255],
        // reals 1/4 1/2 1/4
        &[2, 1, 0, 3, 3, 255, 0, 1, 255, 0, 1],
        &[0x3E, 0x80, 0, 0, 0x3F, 0, 0, 0, 0x3E, 0x80, 0, 0],
        &[0x3E, 0x80, 0, 0, 0x3F, 0, 0, 0, 0x3E, 0x80, 0, 0],
        &[3, 1, 0, 2, 2],
        &[4, 1, 0, 7, 7],
        &[5, 1, 0, 3, 3, 0, 25],
    ]
    .concat();
    vec![
        ("binomial 3x3", one(&[3, 1, 0, 1, 1])),
        ("binomial 5x5", one(&[3, 1, 0, 2, 2])),
        ("binomial 31x31", one(&[3, 1, 0, 15, 15])),
        ("ratios 31x31", one(&ratios_31())),
        ("box 3x3", one(&[4, 1, 0, 1, 1])),
        ("box 15x15", one(&[4, 1, 0, 7, 7])),
        ("box 31x31", one(&[4, 1, 0, 15, 15])),
        ("rank 3x3", median(1, 1)),
        ("rank 7x7", median(3, 3)),
        ("rank 15x15", median(7, 7)),
        ("rank 31x31", median(15, 15)),
        ("outline", one(&[6, 1, 0])),
        ("eight stages", eight),
    ]
}

struct Table {
    peers: HashMap<String, String>,
}

impl Table {
    /// What a peer takes, or a dash where it was not tried.
    fn peer(&self, work: &str, size: &str, peer: &str) -> &str {
        let entry = self.peers.get(&format!("{work}\t{size}\t{peer}"));
        entry.map_or("-", |time| time)
    }

    fn row(&self, work: &str, size: &str, library: f64, plain: Option<f64>) {
        let (plain, ratio) = match plain {
            Some(plain) => (format!("{plain:.2}"), format!("{:.1}", plain / library)),
            None => ("-".into(), "-".into()),
        };
        println!(
            "| {work:<16} | {size:<9} | {library:>9.2} | {plain:>10} | {ratio:>6} | {:>10} | {:>10} |",
            self.peer(work, size, "opencv"),
            self.peer(work, size, "scipy")
        );
    }
}

// All stages, and a file.

fn stages(table: &Table) {
    println!("Nanoseconds a sample, border nearest, grey: the best of several runs on one core, buffers warm and not cleared.");
    println!("`=`: the same samples on this picture; `~`: not all the same.");
    println!("Plain Rust does the same arithmetic throughout, OpenCV and SciPy in boxes, ranks and outlines; in stages of weights theirs is only similar.\n");
    println!("| work             | size      |   library | plain Rust |  ratio |     OpenCV |      SciPy |");
    println!("|------------------|-----------|----------:|-----------:|-------:|-----------:|-----------:|");
    for (work, recipe) in recipes() {
        let large = work.starts_with("box").then_some(LARGE);
        for size in SIZES.into_iter().chain(large) {
            stage_row(table, work, &recipe, size);
        }
    }
    for size in SIZES {
        file_row(table, size);
    }
}

fn stage_row(table: &Table, work: &str, recipe: &[u8], size: Size) {
    let (w, h) = size;
    let plane = picture(w, h);
    let stages = reference::read_recipe(recipe).unwrap();
    let (library, out) = if stages.len() == 1 {
        on_plane(recipe, size, &plane, LONG)
    } else {
        let still = hejslopi::write_still(w, h, 1, &plane).unwrap();
        on_file(recipe, &still)
    };
    // the plain reading sorts each window of a rank and adds up each window of a box, which takes long
    let short = match work {
        "rank 31x31" => w * h < 100_000,
        "box 15x15" | "box 31x31" => size != LARGE,
        _ => true,
    };
    let plain = short.then(|| {
        let mut result = Vec::new();
        let time = best(|| result = reference::chain(&stages, w, h, &plane));
        assert!(result == out[out.len() - w * h..], "{work} {w}x{h}");
        each(time, size)
    });
    table.row(work, &named(size), each(library, size), plain);
}

fn file_row(table: &Table, size: Size) {
    let (w, h) = size;
    let recipe = [1, 3, 1, 0, 1, 1];
    let still = hejslopi::write_still(w, h, 1, &picture(w, h)).unwrap();
    let (library, out) = on_file(&recipe, &still);
    let plain = best(|| {
        let file = reference::filter_file(&recipe, &still, PLENTY).unwrap().2;
        assert!(file == out);
    });
    table.row(
        "file, bin. 3x3",
        &named(size),
        each(library, size),
        Some(each(plain, size)),
    );
}

// Ranks.

const RADII: [u8; 4] = [1, 3, 7, 15];

/// Square windows on all pictures: the smallest sample, the median and the largest.
fn ranks(table: &Table) {
    println!("\nRanks, nanoseconds a sample as above, measured for shorter whiles. noise: every sample at random; bed: shading, a few edges and a sensor's noise of at most three levels.");
    println!("OpenCV: erode for the first position, medianBlur for the median, dilate for the last. SciPy: minimum_filter, median_filter, maximum_filter, at 96x72 alone.");
    println!("`=`: all samples are those of document 01 on this picture, as peers.py counts them out; `~`: not all.\n");
    println!("| window | picture |   p | size     | library |   OpenCV |      SciPy |");
    println!("|--------|---------|----:|----------|--------:|---------:|-----------:|");
    for r in RADII {
        for (picture, make, _) in PICTURES {
            for p in [1, area(r, r) / 2 + 1, area(r, r)] {
                for (w, h) in SIZES {
                    rank_row(table, r, p, picture, (w, h), &make(w, h));
                }
            }
        }
    }
}

/// At the small size the library's samples are seen to be those of the plain reading, which takes too long for the large one.
fn rank_row(table: &Table, r: u8, p: u16, picture: &str, size: Size, plane: &[u8]) {
    let (w, h) = size;
    let window = format!("{0}x{0}", 2 * r + 1);
    let work = format!("rank {window} p {p} {picture}");
    let recipe = rank(r, r, p);
    let (library, out) = on_plane(&recipe, size, plane, SHORT);
    if size == SIZES[0] {
        let stages = reference::read_recipe(&recipe).unwrap();
        assert!(out == reference::chain(&stages, w, h, plane), "{work}");
    }
    let size_name = named(size);
    println!(
        "| {window:<6} | {picture:<7} | {p:>3} | {size_name:<8} | {:>7.2} | {:>8} | {:>10} |",
        each(library, size),
        table.peer(&work, &size_name, "opencv"),
        table.peer(&work, &size_name, "scipy")
    );
}

/// What each radius costs by itself, beside one of 7.
fn radii() {
    let size = SIZES[1];
    let plane = picture(size.0, size.1);
    let time = |r, s| each(on_plane(&median(r, s), size, &plane, SHORT).0, size);
    println!("\nThe library's medians by their radii, r across and s down, {}, the usual picture, nanoseconds a sample:\n", named(size));
    println!("| radius | as r, s = 7 | as s, r = 7 |");
    println!("|-------:|------------:|------------:|");
    for radius in RADII {
        println!(
            "| {radius:>6} | {:>11.2} | {:>11.2} |",
            time(radius, 7),
            time(7, radius)
        );
    }
}

// The movement between two stills.

const LIMIT: u64 = 8;

/// A bed, and the same seen two columns further: the second still, and what peers.py compares with.
fn moved_bed(w: usize, h: usize) -> Vec<u8> {
    let mut samples = bed(w, h);
    samples.rotate_left(2);
    samples
}

/// Two stills filtered by one recipe, in lent memory.
struct Pair<'a> {
    recipe: &'a [u8],
    stills: [Vec<u8>; 2],
    room: hejslopi::Room,
    outs: [Vec<u8>; 2],
}

impl<'a> Pair<'a> {
    fn new(recipe: &'a [u8], (w, h): Size) -> Pair<'a> {
        let rasters = [bed(w, h), moved_bed(w, h)];
        let stills = rasters.map(|raster| hejslopi::write_still(w, h, 1, &raster).unwrap());
        Pair {
            recipe,
            room: hejslopi::Room::new(hejslopi::needs(recipe, &stills[0]).unwrap()),
            outs: stills.clone(),
            stills,
        }
    }

    /// Both by the file call: what the call takes but for counting.
    fn filtered(&mut self) {
        for (still, out) in self.stills.iter().zip(&mut self.outs) {
            hejslopi::filter_file_into(self.recipe, still, self.room.lend(), out).unwrap();
        }
    }

    fn counted(&mut self) -> hejslopi::Counts {
        let (recipe, [still1, still2]) = (self.recipe, &self.stills);
        let outs = self.outs.each_mut().map(|out| &mut out[..]);
        let lent = self.room.lend();
        hejslopi::movement_into(recipe, still1, recipe, still2, LIMIT, lent, outs).unwrap()
    }

    /// The same by the plain reading.
    fn counted_plainly(&self) -> [u64; 3] {
        let [first, second] = self.stills.each_ref().map(|still| Run {
            recipe: self.recipe,
            still,
            lent: PLENTY,
        });
        let seen = reference::movement::movement(LIMIT, first, second);
        seen.unwrap().counts()
    }
}

/// The count is measured beside the cheapest stages too: it is a difference of two times, and the smaller these are, the better it is known.
fn movement(table: &Table) {
    println!("\nThe movement between two stills, a bed and the same two columns further, grey, limit {LIMIT}, nanoseconds for a sample of each still.");
    println!("Both files: by the file call, one after the other. The count: what the call takes beyond that. OpenCV: the count alone, of planes that are already filtered.\n");
    println!("| both filtered by | size     | library | both files | the count | binomial 3x3 | the count over it | plain Rust | ratio | OpenCV: the count |");
    println!("|------------------|----------|--------:|-----------:|----------:|-------------:|------------------:|-----------:|------:|------------------:|");
    for work in ["binomial 3x3", "outline"] {
        for size in SIZES {
            movement_row(table, work, size);
        }
    }
}

fn movement_row(table: &Table, work: &str, size: Size) {
    let recipes: HashMap<_, _> = recipes().into_iter().collect();
    let mut pair = Pair::new(&recipes[work], size);
    let files = each(best(|| pair.filtered()), size);
    let mut counts = None;
    let library = each(best(|| counts = Some(pair.counted())), size);
    let counts = counts.map(|seen| [seen.moved, seen.still, seen.open].map(|n| n as u64));
    let plain = each(
        best(|| assert!(Some(pair.counted_plainly()) == counts)),
        size,
    );
    let plane = bed(size.0, size.1);
    let binomial = each(
        on_plane(&recipes["binomial 3x3"], size, &plane, LONG).0,
        size,
    );
    let count = library - files;
    let (size, share, ratio) = (named(size), count / binomial, plain / library);
    println!(
        "| {work:<16} | {size:<8} | {library:>7.2} | {files:>10.2} | {count:>9.2} | {binomial:>12.2} | {share:>17.2} | {plain:>10.2} | {ratio:>5.1} | {:>17} |",
        table.peer(&format!("movement {work}"), &size, "opencv")
    );
}

// The verdict.

/// Ratios 1 2 1 over 4 on both axes.
fn ratios_3() -> Vec<u8> {
    let offsets = [255, 0, 1];
    let weights = [0, 1, 0, 2, 0, 1];
    [
        &[1, 1, 1, 0, 3, 3, 0, 4, 0, 4][..],
        &offsets,
        &offsets,
        &weights,
        &weights,
    ]
    .concat()
}

/// What the filter wrote is judged, at a distance of one level: all of it is looked at, and the answer is yes.
fn verdicts() {
    println!("\nThe verdict on what the filter wrote, distance 1, border nearest, grey, nanoseconds a sample. The filter: the file call by the same recipe.\n");
    println!("| work           | size      | verdict | the filter | verdict over it |");
    println!("|----------------|-----------|--------:|-----------:|----------------:|");
    let recipes: HashMap<_, _> = recipes().into_iter().collect();
    for work in [
        "ratios 3x3",
        "ratios 31x31",
        "box 3x3",
        "box 31x31",
        "rank 3x3",
        "rank 31x31",
    ] {
        let recipe = match work {
            "ratios 3x3" => ratios_3(),
            other => recipes[other].clone(),
        };
        for size in SIZES {
            verdict_row(work, &recipe, size);
        }
    }
}

fn verdict_row(work: &str, recipe: &[u8], size: Size) {
    let (w, h) = size;
    let raw = hejslopi::write_still(w, h, 1, &picture(w, h)).unwrap();
    let (filter, received) = on_file(recipe, &raw);
    let mut room = vec![0; w * h];
    let verdict = best(|| {
        assert!(hejslopi::verdict_into(recipe, &raw, &received, 1, &mut room).unwrap());
    });
    let (verdict, filter) = (each(verdict, size), each(filter, size));
    println!(
        "| {work:<14} | {:<9} | {verdict:>7.2} | {filter:>10.2} | {:>15.2} |",
        named(size),
        verdict / filter
    );
}

// A background of a hundred stills.

const KEPT: usize = 100;

/// The stills, and memory that holds them all.
struct Kept {
    stills: Vec<Vec<u8>>,
    rasters: Vec<u8>,
    labels: Vec<u32>,
    held: Held,
    plain: Stills,
}

impl Kept {
    fn new((w, h): Size) -> Kept {
        let samples = picture(w, KEPT * h);
        let still = |raster: &[u8]| hejslopi::write_still(w, h, 1, raster).unwrap();
        let needs = hejslopi::background_needs(w, h, 1, KEPT).unwrap();
        let mut kept = Kept {
            stills: samples.chunks(w * h).map(still).collect(),
            rasters: vec![0; needs.rasters],
            labels: vec![0; needs.labels],
            held: Held::default(),
            plain: Stills::default(),
        };
        for number in 0..KEPT {
            kept.add(number);
            let still = &kept.stills[number];
            kept.plain.add(still, number as u32, 0).unwrap();
        }
        kept
    }

    fn add(&mut self, number: usize) {
        let (still, number) = (&self.stills[number], number as u32);
        let (rasters, labels) = (&mut self.rasters, &mut self.labels);
        hejslopi::add_still_into(still, number, 0, rasters, labels, &mut self.held).unwrap();
    }

    /// The last still added to the others, by the library and by the plain reading.
    fn addition(&mut self) -> [Duration; 2] {
        let last = KEPT - 1;
        let library = best(|| {
            self.held.stills = last;
            self.add(last);
        });
        let mut others = self.plain.clone();
        others.remove(last as u32).unwrap();
        let still = &self.stills[last];
        let add = |stills: &mut Stills| stills.add(still, last as u32, 0).unwrap();
        [library, best_after(LONG, || others.clone(), add)]
    }

    /// One from the middle. The last takes its place, which is as long a copy wherever that is.
    fn removal(&mut self) -> [Duration; 2] {
        let middle = KEPT / 2;
        let library = best(|| {
            self.held.stills = KEPT;
            self.labels[2 * middle] = middle as u32;
            let (rasters, labels) = (&mut self.rasters, &mut self.labels);
            hejslopi::remove_still_from(middle as u32, rasters, labels, &mut self.held).unwrap();
        });
        let remove = |stills: &mut Stills| stills.remove(middle as u32).unwrap();
        [library, best_after(LONG, || self.plain.clone(), remove)]
    }

    fn mean(&self) -> [Duration; 2] {
        let mut out = vec![0; self.held.width * self.held.height];
        let (rasters, labels) = (&self.rasters, &self.labels);
        let library = best(|| {
            hejslopi::mean_still_into(rasters, labels, &self.held, &mut out).unwrap();
        });
        let plain = best(|| assert!(self.plain.mean().unwrap().1 == out));
        [library, plain]
    }
}

fn background(table: &Table) {
    let (w, h) = SIZES[0];
    let mut kept = Kept::new((w, h));
    println!("\nA background of {KEPT} stills of {w}x{h}, grey, in lent memory. The mean goes through all their samples; an addition and a removal copy one still.\n");
    println!("| work     | samples | library: a call | a sample | plain Rust: a call | ratio | NumPy: a sample |");
    println!("|----------|--------:|----------------:|---------:|-------------------:|------:|----------------:|");
    // the removal comes last: it leaves other stills than it found
    let rows = [
        ("mean", KEPT * w * h, kept.mean()),
        ("addition", w * h, kept.addition()),
        ("removal", w * h, kept.removal()),
    ];
    for (work, samples, times) in rows {
        let [library, plain] = times.map(|time| time.as_nanos() as f64);
        println!(
            "| {work:<8} | {samples:>7} | {library:>15} | {:>8.2} | {plain:>18} | {:>5.1} | {:>15} |",
            library / samples as f64,
            plain / library,
            table.peer(&format!("background {work}"), &named((w, h)), "numpy")
        );
    }
}

// Recipes read.

fn reading() {
    println!("\nReading a recipe, nanoseconds a call:\n");
    println!("| recipe       | bytes | library | plain Rust | ratio |");
    println!("|--------------|------:|--------:|-----------:|------:|");
    for (work, recipe) in recipes() {
        if !matches!(work, "binomial 3x3" | "ratios 31x31" | "eight stages") {
            continue;
        }
        let library = best(|| {
            let _ = black_box(hejslopi::read_recipe(black_box(&recipe)));
        });
        let plain = best(|| {
            let stages = reference::read_recipe(black_box(&recipe)).unwrap();
            black_box(reference::tolerance(&stages));
        });
        let (library, plain) = (library.as_nanos(), plain.as_nanos());
        println!(
            "| {work:<12} | {:>5} | {library:>7} | {plain:>10} | {:>5.1} |",
            recipe.len(),
            plain as f64 / library as f64
        );
    }
}

/// Lines of work, size, peer, nanoseconds and `=` or `~`, with tabs between.
fn peers(path: &str) -> HashMap<String, String> {
    let text = std::fs::read_to_string(path).expect("the file of peers can be read");
    let entry = |line: &str| {
        let fields: Vec<&str> = line.split('\t').collect();
        (
            fields[..3].join("\t"),
            format!("{} {}", fields[4], fields[3]),
        )
    };
    text.lines()
        .filter(|line| !line.starts_with('#'))
        .map(entry)
        .collect()
}

fn main() {
    for (name, make, sum) in PICTURES {
        assert!(checksum(make) == sum, "{name}: not the picture of peers.py");
    }
    let peers = std::env::args()
        .nth(1)
        .map(|path| peers(&path))
        .unwrap_or_default();
    let table = Table { peers };
    stages(&table);
    ranks(&table);
    radii();
    movement(&table);
    verdicts();
    background(&table);
    reading();
}
