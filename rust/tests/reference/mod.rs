//! Documents 01 and 02 read once more, plainly: whole numbers, no lent memory, no speed. It shares no code with the library.
#![allow(dead_code)]

pub mod background;
pub mod exact;
pub mod movement;
pub mod verdict;
pub mod wide;

/// The number of a refusal.
pub type Answer<T> = Result<T, u32>;

#[derive(Clone, Debug, PartialEq, Eq)]
pub struct Tap {
    pub offset: i64,
    pub numerator: i64,
}

/// Taps along one axis: each weight is its numerator over the shared divisor.
#[derive(Clone, Debug, PartialEq, Eq)]
pub struct Axis {
    pub taps: Vec<Tap>,
    pub divisor: i64,
}

#[derive(Clone, Debug, PartialEq, Eq)]
pub enum Work {
    Weighted { across: Axis, down: Axis },
    Box { r: i64, s: i64 },
    Rank { r: i64, s: i64, p: i64 },
    Outline,
}

#[derive(Clone, Debug, PartialEq, Eq)]
pub struct Stage {
    pub border: u8,
    pub border_value: u8,
    pub work: Work,
}

#[derive(Clone, Copy, Debug, PartialEq, Eq)]
pub struct Picture {
    pub width: usize,
    pub height: usize,
    pub channels: usize,
    pub start: usize,
}

fn floor_div(a: i128, b: i128) -> i128 {
    a.div_euclid(b)
}

fn ceil_div(a: i128, b: i128) -> i128 {
    -((-a).div_euclid(b))
}

// Outside the frame.

/// The index, 0 to n - 1, that stands in for index k of an axis, or none where the border value does.
pub fn supplying(border: u8, k: i64, n: i64) -> Option<i64> {
    if 0 <= k && k < n {
        return Some(k);
    }
    match border {
        0 => None,
        1 => Some(k.clamp(0, n - 1)),
        2 => {
            // reflected at the end that it lies beyond, as often as it takes: -1, -2, .. to 0, 1, .., and n, n + 1, .. to n - 1, n - 2, ..
            let mut x = k;
            while x < 0 || n <= x {
                x = if x < 0 { -x - 1 } else { n - (x - (n - 1)) };
            }
            Some(x)
        }
        _ => Some(k.rem_euclid(n)),
    }
}

/// The sample at column u, row v, by the frame rule where that is outside.
pub fn sample<T: Clone>(
    plane: &[T],
    w: usize,
    h: usize,
    border: u8,
    border_value: &T,
    u: i64,
    v: i64,
) -> T {
    match (
        supplying(border, u, w as i64),
        supplying(border, v, h as i64),
    ) {
        (Some(u), Some(v)) => plane[v as usize * w + u as usize].clone(),
        _ => border_value.clone(),
    }
}

// Weights into 65,536ths.

/// The weight of each tap in 65,536ths.
pub fn weights(axis: &Axis) -> Vec<i64> {
    let d = axis.divisor as i128;
    let scaled: Vec<i128> = axis
        .taps
        .iter()
        .map(|t| 65536 * t.numerator as i128)
        .collect();
    let mut units: Vec<i128> = scaled.iter().map(|x| floor_div(*x, d)).collect();
    let remainder = |k: usize| scaled[k] - floor_div(scaled[k], d) * d;
    let total: i128 = scaled.iter().sum();
    let wanted = floor_div(2 * total + d, 2 * d);
    let lacking = wanted - units.iter().sum::<i128>();
    let mut order: Vec<usize> = (0..units.len()).collect();
    // the largest remainder first; of equal ones the one nearest to offset 0, and of two as near the lower one
    let offset = |k: usize| axis.taps[k].offset;
    order.sort_by_key(|&k| (-remainder(k), offset(k).abs(), offset(k)));
    assert!(0 <= lacking && lacking <= order.len() as i128);
    for &k in &order[..lacking as usize] {
        units[k] += 1;
    }
    units.into_iter().map(|x| x as i64).collect()
}

/// How many taps have a weight that is no whole number of 65,536ths.
fn rounded(axis: &Axis) -> i128 {
    let whole = |t: &&Tap| 65536 * t.numerator as i128 % axis.divisor as i128 == 0;
    (axis.taps.len() - axis.taps.iter().filter(whole).count()) as i128
}

/// Whether with each tap at o there is one at -o, and their weights in 65,536ths are the same.
pub fn has_symmetric_weights(axis: &Axis) -> bool {
    let offsets = axis.taps.iter().map(|t| t.offset);
    let all: Vec<(i64, i64)> = offsets.zip(weights(axis)).collect();
    all.iter().all(|(o, a)| all.contains(&(-o, *a)))
}

/// The sum of the magnitudes of the numerators.
fn magnitude(axis: &Axis) -> i128 {
    axis.taps.iter().map(|t| (t.numerator as i128).abs()).sum()
}

fn gain_at_most_4(axis: &Axis) -> bool {
    magnitude(axis) <= 4 * axis.divisor as i128
}

/// 65,536 times the gain, rounded up.
fn gain_units(axis: &Axis) -> i128 {
    ceil_div(65536 * magnitude(axis), axis.divisor as i128)
}

// The four kinds of work.

/// Three rows of weights for the samples around a place, the top row first.
pub type Kernel = [[i64; 3]; 3];

/// What an outline weighs by: a step from left to right, one from top to bottom, and one towards each corner on the right.
pub const OUTLINE: [Kernel; 4] = [
    [[-1, 0, 1], [-1, 0, 1], [-1, 0, 1]],
    [[-1, -1, -1], [0, 0, 0], [1, 1, 1]],
    [[0, 1, 1], [-1, 0, 1], [-1, -1, 0]],
    [[-1, -1, 0], [-1, 0, 1], [0, 1, 1]],
];

/// An outline of the samples around a place, in rows as the weights are.
fn outline(samples: [[i64; 3]; 3]) -> u8 {
    let size = |kernel: &Kernel| {
        let pairs = kernel.as_flattened().iter().zip(samples.as_flattened());
        pairs.map(|(a, x)| a * x).sum::<i64>().abs()
    };
    let largest = OUTLINE.iter().map(size).fold(0, i64::max);
    largest.min(255) as u8
}

pub fn filtered(stage: &Stage, w: usize, h: usize, plane: &[u8]) -> Vec<u8> {
    let f = |u: i64, v: i64| sample(plane, w, h, stage.border, &stage.border_value, u, v) as i64;
    let (width, height) = (w as i64, h as i64);
    let places = (0..height).flat_map(|v| (0..width).map(move |u| (u, v)));
    match &stage.work {
        Work::Weighted { across, down } => {
            let (a, b) = (weights(across), weights(down));
            // the row values of rows -15 to H + 14
            let row_value = |u: i64, v: i64| {
                let sum: i64 = across
                    .taps
                    .iter()
                    .zip(&a)
                    .map(|(t, a)| a * f(u + t.offset, v))
                    .sum();
                (sum + 512).div_euclid(1024)
            };
            let values: Vec<i64> = (-15..height + 15)
                .flat_map(|v| (0..width).map(move |u| (u, v)))
                .map(|(u, v)| row_value(u, v))
                .collect();
            let level = |u: i64, v: i64| {
                let value = |j: i64| values[((v + j + 15) * width + u) as usize];
                let sum: i64 = down
                    .taps
                    .iter()
                    .zip(&b)
                    .map(|(t, b)| b * value(t.offset))
                    .sum();
                (sum + (1 << 21)).div_euclid(1 << 22).clamp(0, 255) as u8
            };
            places.map(|(u, v)| level(u, v)).collect()
        }
        Work::Box { r, s } => {
            let area = (2 * r + 1) * (2 * s + 1);
            let mean = |u: i64, v: i64| {
                let sum: i64 = (-s..=*s)
                    .map(|j| (-r..=*r).map(|i| f(u + i, v + j)).sum::<i64>())
                    .sum();
                ((2 * sum + area) / (2 * area)) as u8
            };
            places.map(|(u, v)| mean(u, v)).collect()
        }
        Work::Rank { r, s, p } => {
            let ranked = |u: i64, v: i64| {
                let mut window: Vec<i64> = (-s..=*s)
                    .flat_map(|j| (-r..=*r).map(move |i| (i, j)))
                    .map(|(i, j)| f(u + i, v + j))
                    .collect();
                window.sort_unstable();
                window[*p as usize - 1] as u8
            };
            places.map(|(u, v)| ranked(u, v)).collect()
        }
        Work::Outline => {
            let around = |u: i64, v: i64| [-1, 0, 1].map(|j| [-1, 0, 1].map(|i| f(u + i, v + j)));
            places.map(|(u, v)| outline(around(u, v))).collect()
        }
    }
}

/// A plane through all stages.
pub fn chain(stages: &[Stage], w: usize, h: usize, plane: &[u8]) -> Vec<u8> {
    stages
        .iter()
        .fold(plane.to_vec(), |plane, stage| filtered(stage, w, h, &plane))
}

// Tolerance.

pub fn tolerance(stages: &[Stage]) -> u64 {
    let mut t: i128 = 0;
    for stage in stages {
        t = match &stage.work {
            Work::Weighted { across, down } => {
                let (g1, g2) = (gain_units(across), gain_units(down));
                let (n, m) = (rounded(across), rounded(down));
                ceil_div(g1 * g2 * t, 1 << 32)
                    + ceil_div(g2 * (255 * n + 512), 65536)
                    + ceil_div(m * (255 * g1 + 255 * n + 512), 65536)
                    + 32768
            }
            Work::Box { .. } => t + 32768,
            Work::Rank { .. } => t,
            Work::Outline => 6 * t,
        };
        t = t.min(16_711_680);
    }
    t as u64
}

// Recipe bytes.

struct Fields<'a> {
    rest: &'a [u8],
}

impl Fields<'_> {
    /// The next field of so many bytes, big-endian.
    fn take(&mut self, size: usize) -> Answer<u32> {
        if self.rest.len() < size {
            return Err(11);
        }
        let (field, rest) = self.rest.split_at(size);
        self.rest = rest;
        Ok(field.iter().fold(0, |n, b| n << 8 | *b as u32))
    }

    /// A field of one byte that must lie in a range.
    fn within(&mut self, low: u32, high: u32, refusal: u32) -> Answer<i64> {
        let value = self.take(1)?;
        if value < low || high < value {
            return Err(refusal);
        }
        Ok(value as i64)
    }

    fn divisor(&mut self) -> Answer<i64> {
        match self.take(2)? {
            0 => Err(14),
            d => Ok(d as i64),
        }
    }

    /// The offsets of one axis.
    fn offsets(&mut self, count: i64) -> Answer<Vec<i64>> {
        let mut offsets = Vec::new();
        for _ in 0..count {
            let offset = self.take(1)? as u8 as i8 as i64;
            if offset.abs() > 15 || offsets.last().is_some_and(|last| offset <= *last) {
                return Err(15);
            }
            offsets.push(offset);
        }
        Ok(offsets)
    }

    fn ratio(&mut self) -> Answer<i64> {
        Ok(self.take(2)? as u16 as i16 as i64)
    }

    /// The numerator over 2^35 of a weight in binary32.
    fn real(&mut self) -> Answer<i64> {
        let bits = self.take(4)?;
        let (negative, exponent, fraction) = (
            bits >> 31 == 1,
            (bits >> 23 & 0xFF) as i64,
            (bits & 0x7F_FFFF) as i64,
        );
        if exponent == 0 && fraction == 0 {
            return Ok(0);
        }
        // The exponents of 2^-12 and of 4 are 115 and 129. Below are smaller numbers and subnormals, above larger ones, infinities and NaN.
        if exponent < 115 || exponent > 129 || (exponent == 129 && fraction > 0) {
            return Err(16);
        }
        // (2^23 + fraction) 2^(exponent - 150), times 2^35
        let numerator = (0x80_0000 + fraction) << (exponent - 115);
        Ok(if negative { -numerator } else { numerator })
    }

    fn axis(
        &mut self,
        offsets: Vec<i64>,
        divisor: i64,
        weight: fn(&mut Self) -> Answer<i64>,
    ) -> Answer<Axis> {
        let mut taps = Vec::new();
        for offset in offsets {
            taps.push(Tap {
                offset,
                numerator: weight(self)?,
            });
        }
        Ok(Axis { taps, divisor })
    }

    fn stage(&mut self) -> Answer<Stage> {
        let kind = self.within(1, 6, 13)?;
        let border = self.within(0, 3, 13)? as u8;
        let border_value = self.within(0, if border == 0 { 255 } else { 0 }, 13)? as u8;
        let work = match kind {
            1 | 2 => {
                let n = self.within(1, 31, 14)?;
                let m = self.within(1, 31, 14)?;
                let (d1, d2) = if kind == 1 {
                    (self.divisor()?, self.divisor()?)
                } else {
                    (1 << 35, 1 << 35)
                };
                let weight = if kind == 1 { Self::ratio } else { Self::real };
                let (i, j) = (self.offsets(n)?, self.offsets(m)?);
                let across = self.axis(i, d1, weight)?;
                let down = self.axis(j, d2, weight)?;
                if !gain_at_most_4(&across) || !gain_at_most_4(&down) {
                    return Err(17);
                }
                Work::Weighted { across, down }
            }
            3 => {
                let (r, s) = (self.within(0, 15, 14)?, self.within(0, 15, 14)?);
                Work::Weighted {
                    across: binomial(r),
                    down: binomial(s),
                }
            }
            4 => Work::Box {
                r: self.within(0, 15, 14)?,
                s: self.within(0, 15, 14)?,
            },
            5 => {
                let (r, s) = (self.within(0, 15, 14)?, self.within(0, 15, 14)?);
                let p = self.take(2)? as i64;
                if p < 1 || (2 * r + 1) * (2 * s + 1) < p {
                    return Err(18);
                }
                Work::Rank { r, s, p }
            }
            6 => Work::Outline,
            _ => panic!("stages of kind {kind} pass the test of the kind and are not read"),
        };
        Ok(Stage {
            border,
            border_value,
            work,
        })
    }
}

/// C(2r, k) over 2^(2r) at offset k - r.
fn binomial(r: i64) -> Axis {
    let mut row: Vec<i64> = vec![1];
    for _ in 0..2 * r {
        let padded: Vec<i64> = std::iter::once(0).chain(row).chain([0]).collect();
        row = padded.windows(2).map(|two| two[0] + two[1]).collect();
    }
    let taps = row
        .into_iter()
        .enumerate()
        .map(|(k, c)| Tap {
            offset: k as i64 - r,
            numerator: c,
        })
        .collect();
    Axis {
        taps,
        divisor: 1 << (2 * r),
    }
}

pub fn read_recipe(bytes: &[u8]) -> Answer<Vec<Stage>> {
    let mut fields = Fields { rest: bytes };
    let count = fields.within(1, 8, 10)?;
    let mut stages = Vec::new();
    for _ in 0..count {
        stages.push(fields.stage()?);
    }
    if !fields.rest.is_empty() {
        return Err(12);
    }
    Ok(stages)
}

// P5 and P6.

fn is_white(b: u8) -> bool {
    matches!(b, b' ' | b'\t' | b'\r' | b'\n')
}

/// The place behind the separators at `at`; none where there is no whitespace byte or comment, or a comment without its end.
fn past_separators(bytes: &[u8], mut at: usize) -> Option<usize> {
    let start = at;
    while let Some(&b) = bytes.get(at) {
        if is_white(b) {
            at += 1;
        } else if b == b'#' {
            at += bytes[at..].iter().position(|&b| b == b'\n')? + 1;
        } else {
            break;
        }
    }
    (start < at).then_some(at)
}

/// A number of any length, and the place after it. Values over a million are all alike.
fn number(bytes: &[u8], at: usize) -> Option<(u64, usize)> {
    let digits = bytes[at..]
        .iter()
        .take_while(|b| b.is_ascii_digit())
        .count();
    let value = bytes[at..at + digits]
        .iter()
        .fold(0, |n, b| (n * 10 + (b - b'0') as u64).min(1_000_000));
    (digits > 0).then_some((value, at + digits))
}

/// Width, height, maximum, and the place of the raster.
fn header(bytes: &[u8]) -> Option<(u64, u64, u64, usize)> {
    let (width, at) = number(bytes, past_separators(bytes, 2)?)?;
    let (height, at) = number(bytes, past_separators(bytes, at)?)?;
    let (maximum, at) = number(bytes, past_separators(bytes, at)?)?;
    is_white(*bytes.get(at)?).then_some((width, height, maximum, at + 1))
}

fn is_side(n: u64) -> bool {
    (1..=8192).contains(&n)
}

/// What the header says, whatever follows it.
pub fn read_head(bytes: &[u8]) -> Answer<Picture> {
    let channels = match bytes.get(..2) {
        Some(b"P5") => 1,
        Some(b"P6") => 3,
        _ => return Err(1),
    };
    let (width, height, maximum, start) = header(bytes).ok_or(2u32)?;
    if !is_side(width) || !is_side(height) {
        return Err(3);
    }
    if maximum != 255 {
        return Err(4);
    }
    Ok(Picture {
        width: width as usize,
        height: height as usize,
        channels,
        start,
    })
}

pub fn read_still(bytes: &[u8]) -> Answer<Picture> {
    let picture = read_head(bytes)?;
    let size = picture.width * picture.height * picture.channels;
    match bytes.len() - picture.start {
        n if n < size => Err(5),
        n if n > size => Err(6),
        _ => Ok(picture),
    }
}

fn file(width: usize, height: usize, channels: usize, raster: &[u8]) -> Vec<u8> {
    let magic = if channels == 1 { "P5" } else { "P6" };
    let mut file = format!("{magic}\n{width} {height}\n255\n").into_bytes();
    file.extend_from_slice(raster);
    file
}

/// What is written into an output of `room` bytes.
pub fn write_still(
    width: usize,
    height: usize,
    channels: usize,
    raster: &[u8],
    room: usize,
) -> Answer<Vec<u8>> {
    if channels != 1 && channels != 3 {
        return Err(19);
    }
    sized(width, height, channels, raster)?;
    let file = file(width, height, channels, raster);
    if room < file.len() {
        return Err(20);
    }
    Ok(file)
}

fn sized(width: usize, height: usize, channels: usize, raster: &[u8]) -> Answer<()> {
    if !is_side(width as u64) || !is_side(height as u64) {
        return Err(3);
    }
    let size = width * height * channels;
    if raster.len() < size {
        return Err(5);
    }
    if raster.len() > size {
        return Err(6);
    }
    Ok(())
}

// The filtering calls.

/// How many elements are lent: work bytes, row values, sums, output.
#[derive(Clone, Copy, Debug, PartialEq, Eq)]
pub struct Lengths {
    pub work: usize,
    pub rows: usize,
    pub sums: usize,
    pub out: usize,
}

/// What a picture of this size and an output of `out` bytes need.
pub fn needs(stages: &[Stage], w: usize, h: usize, out: usize) -> Lengths {
    let held = |stage: &Stage| match stage.work {
        Work::Box { r, s } => (w + 2 * r as usize + 1) * (2 * s as usize + 2),
        _ => 0,
    };
    Lengths {
        work: 2 * w * h,
        rows: w * (h + 30),
        sums: stages.iter().map(held).max().unwrap_or(0),
        out,
    }
}

/// What a still's header and a recipe need, and T.
pub fn needed(recipe: &[u8], still: &[u8]) -> Answer<(Lengths, u64)> {
    let stages = read_recipe(recipe)?;
    let Picture {
        width: w,
        height: h,
        channels,
        ..
    } = read_head(still)?;
    let size = file(w, h, channels, &[]).len() + w * h * channels;
    Ok((needs(&stages, w, h, size), tolerance(&stages)))
}

fn suffices(lent: Lengths, need: Lengths) -> bool {
    lent.work >= need.work
        && lent.rows >= need.rows
        && lent.sums >= need.sums
        && lent.out >= need.out
}

/// T, and what is written.
pub fn filter_plane(
    recipe: &[u8],
    w: usize,
    h: usize,
    plane: &[u8],
    lent: Lengths,
) -> Answer<(u64, Vec<u8>)> {
    let stages = read_recipe(recipe)?;
    if stages.len() != 1 {
        return Err(14);
    }
    sized(w, h, 1, plane)?;
    if !suffices(lent, needs(&stages, w, h, w * h)) {
        return Err(20);
    }
    Ok((tolerance(&stages), chain(&stages, w, h, plane)))
}

/// One channel of a raster.
pub fn channel(raster: &[u8], channels: usize, k: usize) -> Vec<u8> {
    raster.iter().skip(k).step_by(channels).copied().collect()
}

/// The still's facts, T, and what is written.
pub fn filter_file(recipe: &[u8], still: &[u8], lent: Lengths) -> Answer<(Picture, u64, Vec<u8>)> {
    let stages = read_recipe(recipe)?;
    let picture = read_still(still)?;
    let Picture {
        width: w,
        height: h,
        channels,
        start,
    } = picture;
    let size = file(w, h, channels, &still[start..]).len();
    if !suffices(lent, needs(&stages, w, h, size)) {
        return Err(20);
    }
    let planes: Vec<Vec<u8>> = (0..channels)
        .map(|k| chain(&stages, w, h, &channel(&still[start..], channels, k)))
        .collect();
    let raster: Vec<u8> = (0..w * h)
        .flat_map(|i| planes.iter().map(move |plane| plane[i]))
        .collect();
    Ok((picture, tolerance(&stages), file(w, h, channels, &raster)))
}

/// The same for a caller who takes so many stages and so many samples a plane.
pub fn filter_file_limited(
    recipe: &[u8],
    still: &[u8],
    [stages, samples]: [usize; 2],
    lent: Lengths,
) -> Answer<(Picture, u64, Vec<u8>)> {
    if read_recipe(recipe)?.len() > stages {
        return Err(28);
    }
    let picture = read_still(still)?;
    if picture.width * picture.height > samples {
        return Err(29);
    }
    filter_file(recipe, still, lent)
}
