//! The verdict on a still that was filtered elsewhere (request 2026-11) read plainly: the exact result of every sample, and how far from it the received one is.
use super::{channel, exact, read_recipe, read_still, Answer, Picture, Stage};
use std::cmp::Ordering;

/// The exact results of one stage on every sample, in the order of the raster: whole numerators over one denominator.
pub struct Results {
    pub numerators: Vec<i128>,
    pub denominator: i128,
}

impl Results {
    pub fn of(stage: &Stage, picture: Picture, raster: &[u8]) -> Results {
        let (w, h, channels) = (picture.width, picture.height, picture.channels);
        let plane = |k| exact::chain(&[stage.clone()], w, h, &channel(raster, channels, k));
        let planes: Vec<exact::Exact> = (0..channels).map(plane).collect();
        let places = (0..w * h).flat_map(|place| planes.iter().map(move |p| p.numerators[place]));
        Results {
            numerators: places.map(|x| x.narrow() as i128).collect(),
            denominator: planes[0].denominator.narrow() as i128,
        }
    }

    /// |N y - x| beside c N.
    pub fn beside(&self, place: usize, y: u8, distance: u64) -> Ordering {
        let n = self.denominator;
        let apart = (n * y as i128 - self.numerators[place]).abs();
        apart.cmp(&(n * distance as i128))
    }

    /// The sample next to an exact result, halves up.
    pub fn rounded(&self, place: usize) -> u8 {
        let n = self.denominator;
        ((2 * self.numerators[place] + n) / (2 * n)) as u8
    }

    /// The lowest and the highest sample that are near enough.
    pub fn ends(&self, place: usize, distance: u64) -> [u8; 2] {
        let (x, n) = (self.numerators[place], self.denominator);
        let far = n * distance as i128;
        let ends = [-((far - x).div_euclid(n)), (x + far).div_euclid(n)];
        ends.map(|y| y.clamp(0, 255) as u8)
    }
}

fn size(picture: Picture) -> [usize; 3] {
    [picture.width, picture.height, picture.channels]
}

pub fn verdict([recipe, raw, received]: [&[u8]; 3], distance: u64, work: usize) -> Answer<bool> {
    if distance > 255 {
        return Err(32);
    }
    let stages = read_recipe(recipe)?;
    if stages.len() != 1 || ![1, 4, 5].contains(&recipe[1]) {
        return Err(30);
    }
    let (picture, other) = (read_still(raw)?, read_still(received)?);
    if size(picture) != size(other) {
        return Err(31);
    }
    if work < picture.width * picture.height {
        return Err(20);
    }
    let results = Results::of(&stages[0], picture, &raw[picture.start..]);
    let mut samples = received[other.start..].iter().enumerate();
    Ok(samples.all(|(place, y)| results.beside(place, *y, distance).is_le()))
}
