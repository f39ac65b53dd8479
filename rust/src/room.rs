use crate::{Needs, Refusal, MOST_STILLS};

/// Buffers lent to a call. Nothing is promised of them once it has filtered.
pub struct Lent<'a> {
    pub work: &'a mut [u8],
    pub rows: &'a mut [i32],
    pub sums: &'a mut [u32],
}

impl Lent<'_> {
    /// Nothing at all. Room is tested last, so a call that is lent nothing gives any other refusal there is.
    pub fn nothing() -> Lent<'static> {
        Lent {
            work: &mut [],
            rows: &mut [],
            sums: &mut [],
        }
    }
}

/// How many elements must be lent to a background: bytes of rasters, and labels.
#[derive(Clone, Copy, Debug, PartialEq, Eq)]
pub struct BackgroundNeeds {
    pub rasters: usize,
    pub labels: usize,
}

/// Allocated buffers, to be lent to any number of calls. One that there was no memory for is empty: a call that needs it refuses with
/// [`Refusal::Room`].
#[derive(Clone, Debug)]
pub struct Room {
    work: Vec<u8>,
    rows: Vec<i32>,
    sums: Vec<u32>,
}

impl Room {
    pub fn new(needs: Needs) -> Room {
        Room {
            work: zeros(needs.work),
            rows: zeros(needs.rows),
            sums: zeros(needs.sums),
        }
    }

    pub fn lend(&mut self) -> Lent<'_> {
        Lent {
            work: &mut self.work,
            rows: &mut self.rows,
            sums: &mut self.sums,
        }
    }
}

/// So many zeros, or none if there is no memory for them.
pub(crate) fn zeros<T: Clone + Default>(count: usize) -> Vec<T> {
    let mut all = Vec::new();
    if all.try_reserve_exact(count).is_ok() {
        all.resize(count, T::default());
    }
    all
}

fn picture(width: usize, height: usize, channels: usize) -> Result<(), Refusal> {
    if channels != 1 && channels != 3 {
        return Err(Refusal::Channels);
    }
    let fits = |n: usize| (1..=8192).contains(&n);
    if fits(width) && fits(height) {
        Ok(())
    } else {
        Err(Refusal::Side)
    }
}

/// How many bytes a file of this size has: header and raster.
pub fn file_need(width: usize, height: usize, channels: usize) -> Result<usize, Refusal> {
    picture(width, height, channels)?;
    let digits = |n: usize| n.ilog10() as usize + 1;
    Ok(9 + digits(width) + digits(height) + width * height * channels)
}

/// What must be lent to a background of so many stills of this size, at most [`MOST_STILLS`]: `W H channels` bytes for each, and two labels.
pub fn background_needs(
    width: usize,
    height: usize,
    channels: usize,
    stills: usize,
) -> Result<BackgroundNeeds, Refusal> {
    picture(width, height, channels)?;
    if stills > MOST_STILLS {
        return Err(Refusal::BackgroundFull);
    }
    Ok(BackgroundNeeds {
        rasters: width * height * channels * stills,
        labels: 2 * stills,
    })
}
