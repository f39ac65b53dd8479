//! Netpbm stills (P5, P6) filtered by a recipe, the movement between two of them, a verdict on one that was filtered elsewhere, and the mean of many.
//!
//! Eleven calls: [`read_still`], [`write_still`], [`read_recipe`], [`needs`], [`filter_plane`], [`filter_file`], [`movement`], [`verdict`], and three on a
//! [`Background`], which keeps stills and gives their mean. [`filter_file_limited`] filters a file for a caller with [`Limits`]. Those that write have a form `.._into` that takes lent buffers and
//! allocates nothing ([`remove_still_from`] is that of a removal), and so has [`verdict`], whose work bytes it takes. A [`Refusal`] says why a call did nothing, and [`faulty_stage`]
//! which stage of a recipe is to blame.
//!
//! ```
//! let still = b"P5\n3 1\n255\n\x0A\x14\x28";
//! let recipe = [1, 3, 1, 0, 1, 0]; // one stage: binomial, nearest, radius 1 across and 0 down
//! let file = hejslopi::filter_file(&recipe, still)?;
//! assert_eq!(file.bytes, b"P5\n3 1\n255\n\x0D\x17\x23");
//! assert_eq!((file.width, file.height, file.channels, file.tolerance), (3, 1, 1, 33280));
//! # Ok::<(), hejslopi::Refusal>(())
//! ```

mod background;
mod fault;
mod limits;
mod movement;
mod needs;
pub mod raw;
mod refusal;
mod room;
mod verdict;

pub use background::{add_still_into, mean_still_into, remove_still_from};
pub use background::{Background, Held, Mean, MeanPicture, MOST_STILLS};
pub use fault::faulty_stage;
pub use limits::{filter_file_limited, filter_file_limited_into, Limits};
pub use movement::{movement, movement_into, Counts, Movement};
pub use needs::{needs, plane_needs, Needs};
pub use refusal::Refusal;
use room::zeros;
pub use room::{background_needs, file_need, BackgroundNeeds, Lent, Room};
pub use verdict::{verdict, verdict_into};

/// What a still's header says, and at which byte its raster begins.
#[derive(Clone, Copy, Debug, PartialEq, Eq)]
pub struct Still {
    pub width: usize,
    pub height: usize,
    pub channels: usize,
    pub raster_start: usize,
}

/// A recipe's stages and its tolerance T, counted in 65,536ths of a grey level.
#[derive(Clone, Copy, Debug, PartialEq, Eq)]
pub struct Recipe {
    pub stages: usize,
    pub tolerance: u64,
}

/// A filtered file in a lent output: its first `length` bytes.
#[derive(Clone, Copy, Debug, PartialEq, Eq)]
pub struct Picture {
    pub width: usize,
    pub height: usize,
    pub channels: usize,
    pub tolerance: u64,
    pub length: usize,
}

impl Picture {
    /// Of the numbers that a call gives.
    fn of([width, height, channels, tolerance, length]: [u64; 5]) -> Picture {
        Picture {
            width: width as usize,
            height: height as usize,
            channels: channels as usize,
            tolerance,
            length: length as usize,
        }
    }
}

/// A filtered file.
#[derive(Clone, Debug, PartialEq, Eq)]
pub struct File {
    pub width: usize,
    pub height: usize,
    pub channels: usize,
    pub tolerance: u64,
    pub bytes: Vec<u8>,
}

/// A filtered plane.
#[derive(Clone, Debug, PartialEq, Eq)]
pub struct Plane {
    pub tolerance: u64,
    pub samples: Vec<u8>,
}

fn answer<T>(number: u32, values: T) -> Result<T, Refusal> {
    match number {
        0 => Ok(values),
        n => Err(Refusal::from_number(n).expect("a call returns 0 or a refusal's number")),
    }
}

/// Whether a call that was lent nothing lacks room, and nothing else.
fn ready<T>(answer: Result<T, Refusal>) -> Result<(), Refusal> {
    match answer {
        Ok(_) | Err(Refusal::Room) => Ok(()),
        Err(refusal) => Err(refusal),
    }
}

/// Read a whole P5 or P6 file.
pub fn read_still(bytes: &[u8]) -> Result<Still, Refusal> {
    let mut result = [0; 4];
    let number = raw::read_still(bytes, &mut result);
    let [width, height, channels, raster_start] = answer(number, result)?.map(|n| n as usize);
    Ok(Still {
        width,
        height,
        channels,
        raster_start,
    })
}

/// Write header and raster into `out`, giving their length.
pub fn write_still_into(
    width: usize,
    height: usize,
    channels: usize,
    raster: &[u8],
    out: &mut [u8],
) -> Result<usize, Refusal> {
    let mut result = [0; 1];
    let number = raw::write_still([width, height, channels], raster, out, &mut result);
    Ok(answer(number, result)?[0] as usize)
}

/// Write header and raster.
pub fn write_still(
    width: usize,
    height: usize,
    channels: usize,
    raster: &[u8],
) -> Result<Vec<u8>, Refusal> {
    let mut out = zeros(file_need(width, height, channels).unwrap_or(0));
    let length = write_still_into(width, height, channels, raster, &mut out)?;
    out.truncate(length);
    Ok(out)
}

/// Read a recipe.
pub fn read_recipe(bytes: &[u8]) -> Result<Recipe, Refusal> {
    let mut result = [0; 2];
    let number = raw::read_recipe(bytes, &mut result);
    let [stages, tolerance] = answer(number, result)?;
    Ok(Recipe {
        stages: stages as usize,
        tolerance,
    })
}

/// Filter a plane, with a single stage, into the first `width * height` bytes of `out`: T.
/// [`plane_needs`] says how much must be lent.
pub fn filter_plane_into(
    recipe: &[u8],
    width: usize,
    height: usize,
    plane: &[u8],
    lent: Lent<'_>,
    out: &mut [u8],
) -> Result<u64, Refusal> {
    let mut result = [0; 1];
    let number = raw::filter_plane(recipe, [width, height], plane, lent, out, &mut result);
    Ok(answer(number, result)?[0])
}

/// Filter a plane, with a single stage.
pub fn filter_plane(
    recipe: &[u8],
    width: usize,
    height: usize,
    plane: &[u8],
) -> Result<Plane, Refusal> {
    let run = |lent, out: &mut [u8]| filter_plane_into(recipe, width, height, plane, lent, out);
    ready(run(Lent::nothing(), &mut []))?;
    let needs = plane_needs(recipe, width, height)?;
    let (mut room, mut samples) = (Room::new(needs), zeros(needs.out));
    let tolerance = run(room.lend(), &mut samples)?;
    Ok(Plane { tolerance, samples })
}

/// Filter a whole P5 or P6 file into the front of `out`. [`needs`] says how much must be lent.
pub fn filter_file_into(
    recipe: &[u8],
    still: &[u8],
    lent: Lent<'_>,
    out: &mut [u8],
) -> Result<Picture, Refusal> {
    let mut result = [0; 5];
    let number = raw::filter_file(recipe, still, lent, out, &mut result);
    answer(number, result).map(Picture::of)
}

/// Filter a whole P5 or P6 file.
pub fn filter_file(recipe: &[u8], still: &[u8]) -> Result<File, Refusal> {
    filter_file_limited(recipe, still, Limits::ARCHIVE)
}
