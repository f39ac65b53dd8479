//! Random stills and recipes, whole and damaged.
use super::Rng;
use crate::reference::{self, Lengths, Stage, Work};

/// A recipe and a still, each whole or damaged, and what must be lent for them: with some lengths where the still cannot be read.
pub fn file(rng: &mut Rng, nanoseconds: usize) -> (Vec<u8>, Vec<u8>, Lengths) {
    let stages = if rng.one_in(3) {
        rng.size(1, 8)
    } else {
        rng.size(1, 3)
    };
    let mut recipe = recipe(rng, stages);
    if rng.one_in(15) {
        let within = recipe.len();
        damage(rng, &mut recipe, within);
    }
    let stages = reference::read_recipe(&recipe).unwrap_or_default();
    let channels = rng.pick(&[1, 3]);
    let (w, h) = size(rng, cost(&stages) * channels, nanoseconds);
    let raster = samples(rng, w * h * channels);
    let (mut still, header) = still(rng, w, h, channels, 255, &raster);
    if rng.one_in(10) {
        damage(rng, &mut still, header + 4);
    }
    let need = match reference::read_still(&still) {
        Ok(p) => {
            let out = format!("P5\n{} {}\n255\n", p.width, p.height).len()
                + p.width * p.height * p.channels;
            reference::needs(&stages, p.width, p.height, out)
        }
        Err(_) => Lengths {
            work: 99,
            rows: 99,
            sums: 99,
            out: 99,
        },
    };
    (recipe, still, need)
}

/// Damages bytes in one to three places.
pub fn damage(rng: &mut Rng, bytes: &mut Vec<u8>, within: usize) {
    const TELLING: [u8; 25] = [
        0, 1, 2, 3, 4, 5, 6, 7, 8, 9, 10, 11, 12, 13, 15, 16, 31, 32, 35, 48, 127, 128, 240, 241,
        255,
    ];
    for _ in 0..rng.size(1, 3) {
        if bytes.is_empty() {
            bytes.push(rng.byte());
        }
        let at = rng.size(0, within.min(bytes.len()).max(1) - 1);
        match rng.size(0, 7) {
            0 => bytes[at] = rng.byte(),
            1 => bytes[at] ^= 1 << rng.size(0, 7),
            2 => bytes.truncate(at),
            3 => bytes.push(rng.byte()),
            4 => drop(bytes.remove(at)),
            5 => bytes.insert(at, rng.pick(&TELLING)),
            6 => drop(bytes.pop()),
            _ => bytes[at] = rng.pick(&TELLING),
        }
    }
}

/// Few, and now and then many.
fn count(rng: &mut Rng, low: usize, high: usize) -> usize {
    if rng.one_in(4) {
        rng.size(low, high)
    } else {
        rng.size(low, (low + 3).min(high))
    }
}

fn offsets(rng: &mut Rng, n: usize) -> Vec<i8> {
    let near = if n <= 7 && !rng.one_in(3) { 3 } else { 15 };
    let mut all: Vec<i8> = (-near..=near).collect();
    while all.len() > n {
        let k = rng.size(0, all.len() - 1);
        all.remove(k);
    }
    all
}

/// A divisor, and weights that mostly keep to the gain.
fn ratios(rng: &mut Rng, n: usize) -> (u16, Vec<i16>) {
    let divisor = match rng.size(0, 2) {
        0 => rng.range(1, 16),
        1 => 1 << rng.range(0, 15),
        _ => rng.range(1, 65535),
    };
    (divisor as u16, weights_over(rng, n, divisor))
}

/// Weights over a divisor that mostly keep to the gain.
fn weights_over(rng: &mut Rng, n: usize, divisor: i64) -> Vec<i16> {
    let mut weights = Vec::new();
    let to_one = rng.one_in(2);
    let mut left = if to_one { divisor } else { 4 * divisor };
    for k in 0..n as i64 {
        let taps = n as i64 - k;
        let size = if to_one && taps == 1 {
            left
        } else {
            rng.range(0, (2 * left / taps).min(left))
        };
        let size = size.min(32767);
        left -= size;
        weights.push(if !to_one && rng.one_in(3) {
            -size
        } else {
            size
        } as i16);
    }
    if rng.one_in(20) {
        let k = rng.size(0, n - 1);
        weights[k] = rng.pick(&[i16::MIN, i16::MAX, -1, 0, 1, weights[k].wrapping_add(1)]);
    }
    weights
}

fn reals(rng: &mut Rng, n: usize) -> Vec<u32> {
    let most = if rng.one_in(2) { 1.0 } else { 4.0 } / n as f64;
    let mut weights: Vec<u32> = (0..n)
        .map(|_| {
            let part = (rng.next() >> 11) as f64 / (1u64 << 53) as f64;
            let size = (most * part).max(1.0 / 4096.0) as f32;
            let signed = if rng.one_in(3) { -size } else { size };
            if rng.one_in(10) {
                rng.pick(&[0, 0x8000_0000])
            } else {
                signed.to_bits()
            }
        })
        .collect();
    if rng.one_in(6) {
        let k = rng.size(0, n - 1);
        weights[k] = rng.pick(&[
            0x39800000, 0x397FFFFF, 0x40800000, 0x40800001, 0xB9800000, 0xC0800000, 0x7F800000,
            0x7FC00000, 0x00000001, 0x3F800000, 0x3F000000, 0xBF800000, 0xFF800000, 0x40000000,
        ]);
    }
    weights
}

/// Rising offsets that have -o with each o, and a number for each, the same for both. Few different numbers, so that remainders are often equal.
fn symmetric_taps(rng: &mut Rng) -> Vec<(i8, i64)> {
    let reach = if rng.one_in(3) { 15 } else { 4 };
    let mut sides: Vec<(i8, i64)> = Vec::new();
    for o in 0..=reach {
        if rng.one_in(2) {
            sides.push((o, rng.pick(&[1, 1, 2, 2, 3, 5, -1, 0])));
        }
    }
    if sides.is_empty() {
        sides.push((1, 1));
    }
    let left = sides.iter().rev().map(|(o, a)| (-o, *a));
    let right = sides.iter().filter(|(o, _)| *o > 0).copied();
    left.chain(right).collect()
}

/// Weights whose taps across are symmetric, with a gain of at most 4; the taps down are any.
fn symmetric_weights(rng: &mut Rng, bytes: &mut Vec<u8>, real: bool) {
    let taps = symmetric_taps(rng);
    let factor = rng.range(1, 60);
    let magnitude: i64 = taps.iter().map(|(_, a)| factor * a.abs()).sum();
    let least = ((magnitude + 3) / 4).max(1);
    let any = rng.range(least, 60_000);
    let divisor = rng.pick(&[magnitude, 384, 3 * least, any]);
    let divisor = divisor.clamp(least, 65_535) as u16;
    let m = count(rng, 1, 31);
    let down = ratios(rng, m);
    bytes.extend([taps.len() as u8, m as u8]);
    if !real {
        bytes.extend(divisor.to_be_bytes());
        bytes.extend(down.0.to_be_bytes());
    }
    bytes.extend(taps.iter().map(|(o, _)| *o as u8));
    bytes.extend(offsets(rng, m).iter().map(|o| *o as u8));
    let across = taps.iter().map(|(_, a)| (a * factor) as i16);
    if real {
        let fractions = across.map(|a| (a as f32 / divisor as f32).to_bits());
        let weights: Vec<u32> = fractions.chain(reals(rng, m)).collect();
        bytes.extend(weights.iter().flat_map(|a| a.to_be_bytes()));
    } else {
        bytes.extend(across.chain(down.1).flat_map(|a| a.to_be_bytes()));
    }
}

/// Counts, divisors of ratios, offsets and weights.
fn weighted(rng: &mut Rng, bytes: &mut Vec<u8>, real: bool) {
    let (n, m) = (count(rng, 1, 31), count(rng, 1, 31));
    bytes.extend([n as u8, m as u8]);
    let (across, down) = (ratios(rng, n), ratios(rng, m));
    if !real {
        bytes.extend(across.0.to_be_bytes());
        bytes.extend(down.0.to_be_bytes());
    }
    for k in [n, m] {
        bytes.extend(offsets(rng, k).iter().map(|o| *o as u8));
    }
    if real {
        let weights: Vec<u32> = reals(rng, n).into_iter().chain(reals(rng, m)).collect();
        bytes.extend(weights.iter().flat_map(|a| a.to_be_bytes()));
    } else {
        bytes.extend(across.1.iter().chain(&down.1).flat_map(|a| a.to_be_bytes()));
    }
}

/// Radii, and how many samples a window has.
fn radii(rng: &mut Rng, bytes: &mut Vec<u8>) -> usize {
    let (r, s) = (count(rng, 0, 15), count(rng, 0, 15));
    bytes.extend([r as u8, s as u8]);
    (2 * r + 1) * (2 * s + 1)
}

fn position(rng: &mut Rng, bytes: &mut Vec<u8>, area: usize) {
    let any = rng.size(1, area);
    let p = rng.pick(&[1, area, (area + 1) / 2, any]);
    bytes.extend((p as u16).to_be_bytes());
}

const OUTLINE: u8 = 6;

fn stage_of(kind: u8, rng: &mut Rng, bytes: &mut Vec<u8>) {
    let border = rng.range(0, 3) as u8;
    bytes.extend([kind, border, if border == 0 { rng.byte() } else { 0 }]);
    match kind {
        1 | 2 => weighted(rng, bytes, kind == 2),
        3 | 4 => {
            radii(rng, bytes);
        }
        5 => {
            let area = radii(rng, bytes);
            position(rng, bytes, area);
        }
        OUTLINE => {}
        _ => panic!("no stage of kind {kind} is made"),
    }
}

fn stage(rng: &mut Rng, bytes: &mut Vec<u8>) {
    let kind = rng.range(1, 6) as u8;
    stage_of(kind, rng, bytes);
}

/// A recipe whose ratios and reals have symmetric taps across, the first stage always. It is mostly accepted.
pub fn symmetric_recipe(rng: &mut Rng, stages: usize) -> Vec<u8> {
    let mut bytes = vec![stages as u8];
    for k in 0..stages {
        let kinds: &[u8] = if k == 0 {
            &[1, 1, 2]
        } else {
            &[1, 2, 3, 4, 5, OUTLINE]
        };
        match rng.pick(kinds) {
            kind @ 1..=2 => {
                let border = rng.range(0, 3) as u8;
                bytes.extend([kind, border, if border == 0 { rng.byte() } else { 0 }]);
                symmetric_weights(rng, &mut bytes, kind == 2);
            }
            kind => stage_of(kind, rng, &mut bytes),
        }
    }
    bytes
}

/// A recipe that is mostly accepted.
pub fn recipe(rng: &mut Rng, stages: usize) -> Vec<u8> {
    let mut bytes = vec![stages as u8];
    for _ in 0..stages {
        stage(rng, &mut bytes);
    }
    bytes
}

/// Counts, the largest divisors there are, offsets and weights.
fn finest_ratios(rng: &mut Rng, bytes: &mut Vec<u8>) {
    let counts = [count(rng, 1, 31), count(rng, 1, 31)];
    bytes.extend(counts.map(|n| n as u8));
    bytes.extend([255; 4]);
    for n in counts {
        bytes.extend(offsets(rng, n).iter().map(|o| *o as u8));
    }
    for n in counts {
        let weights = weights_over(rng, n, 65535);
        bytes.extend(weights.iter().flat_map(|a| a.to_be_bytes()));
    }
}

/// One stage that a verdict can be given on: of ratios, a box or a rank. It is mostly accepted.
pub fn judged_recipe(rng: &mut Rng) -> Vec<u8> {
    let mut bytes = vec![1];
    let kind = rng.pick(&[1, 1, 4, 5]);
    if kind == 1 && rng.one_in(3) {
        let border = rng.range(0, 3) as u8;
        bytes.extend([kind, border, if border == 0 { rng.byte() } else { 0 }]);
        finest_ratios(rng, &mut bytes);
    } else {
        stage_of(kind, rng, &mut bytes);
    }
    bytes
}

/// One stage or two of any kind, and an outline of what they leave: so few that T still says something.
pub fn outlined_recipe(rng: &mut Rng) -> Vec<u8> {
    let before = rng.size(1, 2);
    let mut bytes = recipe(rng, before);
    bytes[0] += 1;
    stage_of(OUTLINE, rng, &mut bytes);
    bytes
}

/// About how long the reference takes for a sample, in nanoseconds.
pub fn cost(stages: &[Stage]) -> usize {
    let one = |stage: &Stage| match &stage.work {
        Work::Weighted { across, down } => 20 + 5 * (across.taps.len() + down.taps.len()),
        Work::Box { r, s } => 20 + 3 * ((2 * r + 1) * (2 * s + 1)) as usize,
        Work::Rank { r, s, .. } => 50 + 20 * ((2 * r + 1) * (2 * s + 1)) as usize,
        Work::Outline => 60,
    };
    stages.iter().map(one).sum::<usize>().max(20)
}

/// A size whose samples the reference can filter within so many nanoseconds.
pub fn size(rng: &mut Rng, cost: usize, nanoseconds: usize) -> (usize, usize) {
    let most = rng.pick(&[2, 4, 8, 8, 20, 40, 100, 400]);
    let (mut w, mut h) = (rng.size(1, most), rng.size(1, most));
    while w * h > 1 && w * h * cost > nanoseconds {
        if rng.one_in(2) {
            w = (w + 1) / 2;
        } else {
            h = (h + 1) / 2;
        }
    }
    (w, h)
}

pub fn samples(rng: &mut Rng, count: usize) -> Vec<u8> {
    match rng.size(0, 5) {
        0 => (0..count).map(|_| rng.pick(&[0, 255])).collect(),
        1 => vec![rng.byte(); count],
        2 => (0..count).map(|k| (k * 7) as u8).collect(),
        3 => {
            let mut all = vec![0; count];
            if count > 0 {
                all[rng.size(0, count - 1)] = 255;
            }
            all
        }
        _ => (0..count).map(|_| rng.byte()).collect(),
    }
}

fn separators(rng: &mut Rng) -> Vec<u8> {
    let mut bytes = Vec::new();
    for _ in 0..(if rng.one_in(4) { rng.size(1, 4) } else { 1 }) {
        if rng.one_in(6) {
            bytes.push(b'#');
            bytes.extend((0..rng.size(0, 5)).map(|_| rng.pick(&[b'#', b' ', b'7', b'P', 0, 200])));
            bytes.push(b'\n');
        } else {
            bytes.push(rng.pick(&[b' ', b'\n', b'\t', b'\r', b' ', b'\n']));
        }
    }
    bytes
}

fn number(rng: &mut Rng, n: usize) -> Vec<u8> {
    let zeros = if rng.one_in(8) { rng.size(1, 30) } else { 0 };
    let mut bytes = vec![b'0'; zeros];
    bytes.extend(n.to_string().bytes());
    bytes
}

/// A still's file, with the header written in one of many ways.
pub fn still(
    rng: &mut Rng,
    w: usize,
    h: usize,
    channels: usize,
    maximum: usize,
    raster: &[u8],
) -> (Vec<u8>, usize) {
    let mut bytes = if channels == 1 {
        b"P5".to_vec()
    } else {
        b"P6".to_vec()
    };
    for n in [w, h, maximum] {
        bytes.extend(separators(rng));
        bytes.extend(number(rng, n));
    }
    bytes.push(rng.pick(&[b' ', b'\n', b'\t', b'\r', b'\n']));
    let header = bytes.len();
    bytes.extend_from_slice(raster);
    (bytes, header)
}

/// A need as it is, with spare, one short in each place, and with nothing lent.
pub fn lengths(rng: &mut Rng, need: Lengths) -> Vec<Lengths> {
    let mut all = vec![
        need,
        Lengths {
            work: need.work + rng.size(0, 9),
            rows: need.rows + rng.size(0, 9),
            sums: need.sums + rng.size(0, 9),
            out: need.out + rng.size(0, 9),
        },
        Lengths {
            work: need.work - 1,
            ..need
        },
        Lengths {
            rows: need.rows - 1,
            ..need
        },
        Lengths {
            out: need.out - 1,
            ..need
        },
        Lengths {
            work: 0,
            rows: 0,
            sums: 0,
            out: 0,
        },
    ];
    if need.sums > 0 {
        all.push(Lengths {
            sums: need.sums - 1,
            ..need
        });
    }
    all
}
