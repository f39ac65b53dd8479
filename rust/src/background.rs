//! A background: up to a thousand stills of one size, and their mean.
use crate::room::zeros;
use crate::{answer, background_needs, raw, read_still, Refusal};

/// How many stills a background holds at most.
pub const MOST_STILLS: usize = 1000;

/// What lent memory holds: how many stills, and of which size. The default is none.
#[derive(Clone, Copy, Debug, Default, PartialEq, Eq)]
pub struct Held {
    pub stills: usize,
    pub width: usize,
    pub height: usize,
    pub channels: usize,
}

impl Held {
    fn numbers(self) -> [u64; 4] {
        [self.stills, self.width, self.height, self.channels].map(|n| n as u64)
    }

    fn from_numbers(numbers: [u64; 4]) -> Held {
        let [stills, width, height, channels] = numbers.map(|n| n as usize);
        Held {
            stills,
            width,
            height,
            channels,
        }
    }
}

/// A mean in a lent output: its first `length` bytes.
#[derive(Clone, Copy, Debug, PartialEq, Eq)]
pub struct MeanPicture {
    pub stills: usize,
    pub tolerance: u64,
    pub length: usize,
}

/// The mean of a background: a raster, and its tolerance T in 65,536ths of a grey level.
#[derive(Clone, Debug, PartialEq, Eq)]
pub struct Mean {
    pub width: usize,
    pub height: usize,
    pub channels: usize,
    pub tolerance: u64,
    pub raster: Vec<u8>,
}

/// Add a whole P5 or P6 file, with its number and its T, behind the stills that the lent memory holds. [`background_needs`] says how
/// much must be lent: `rasters` has one raster behind the other, `labels` the number and the T of each.
pub fn add_still_into(
    still: &[u8],
    number: u32,
    tolerance: u32,
    rasters: &mut [u8],
    labels: &mut [u32],
    held: &mut Held,
) -> Result<(), Refusal> {
    let mut numbers = held.numbers();
    let refusal = raw::background_add(still, [number, tolerance], rasters, labels, &mut numbers);
    *held = Held::from_numbers(answer(refusal, numbers)?);
    Ok(())
}

/// Remove the still of a number from those that the lent memory holds. The last one takes its place.
pub fn remove_still_from(
    number: u32,
    rasters: &mut [u8],
    labels: &mut [u32],
    held: &mut Held,
) -> Result<(), Refusal> {
    let mut numbers = held.numbers();
    let refusal = raw::background_remove(number, rasters, labels, &mut numbers);
    *held = Held::from_numbers(answer(refusal, numbers)?);
    Ok(())
}

/// The mean of the stills that the lent memory holds, into the front of `out`, which needs one raster. `None` if it holds none.
pub fn mean_still_into(
    rasters: &[u8],
    labels: &[u32],
    held: &Held,
    out: &mut [u8],
) -> Result<Option<MeanPicture>, Refusal> {
    let mut result = [0; 3];
    let refusal = raw::background_mean(rasters, labels, &held.numbers(), out, &mut result);
    let [stills, tolerance, length] = answer(refusal, result)?;
    Ok((stills > 0).then_some(MeanPicture {
        stills: stills as usize,
        tolerance,
        length: length as usize,
    }))
}

/// Up to [`MOST_STILLS`] stills of one size, in memory of its own that grows with them. A refusal leaves it as it was.
///
/// ```
/// let mut background = hejslopi::Background::new();
/// background.add(b"P5\n2 1\n255\n\x0A\xFA", 7, 100)?;
/// background.add(b"P5\n2 1\n255\n\x0B\xFF", 8, 300)?;
/// let mean = background.mean()?.expect("two stills are held");
/// assert_eq!((mean.raster, mean.tolerance), (vec![11, 253], 33068));
/// assert_eq!(background.remove(9), Err(hejslopi::Refusal::StillNumber));
/// # Ok::<(), hejslopi::Refusal>(())
/// ```
#[derive(Clone, Debug, Default)]
pub struct Background {
    rasters: Vec<u8>,
    labels: Vec<u32>,
    held: Held,
}

impl Background {
    pub fn new() -> Background {
        Background::default()
    }

    /// How many stills are held.
    pub fn len(&self) -> usize {
        self.held.stills
    }

    pub fn is_empty(&self) -> bool {
        self.len() == 0
    }

    /// Add a whole P5 or P6 file, with its number and its T. Beside none, it may have any size.
    /// [`Refusal::Room`] says that there is no memory for it.
    pub fn add(&mut self, still: &[u8], number: u32, tolerance: u32) -> Result<(), Refusal> {
        match self.add_into(still, number, tolerance) {
            // The stills held have their room, so only the last test gives this: all others have passed.
            Err(Refusal::Room) => {
                self.grow(still)?;
                self.add_into(still, number, tolerance)
            }
            done => done,
        }
    }

    /// Remove the still of a number. Memory is given back with the last one: the next may have another size.
    pub fn remove(&mut self, number: u32) -> Result<(), Refusal> {
        remove_still_from(number, &mut self.rasters, &mut self.labels, &mut self.held)?;
        if self.is_empty() {
            *self = Background::new();
        }
        Ok(())
    }

    /// The mean of the stills held, or `None` where there are none. [`Refusal::Room`] says that there is no memory for it.
    pub fn mean(&self) -> Result<Option<Mean>, Refusal> {
        let held = self.held;
        let mut raster = zeros(held.width * held.height * held.channels);
        let done = mean_still_into(&self.rasters, &self.labels, &held, &mut raster)?;
        Ok(done.map(|done| Mean {
            width: held.width,
            height: held.height,
            channels: held.channels,
            tolerance: done.tolerance,
            raster,
        }))
    }

    fn add_into(&mut self, still: &[u8], number: u32, tolerance: u32) -> Result<(), Refusal> {
        let (rasters, labels) = (&mut self.rasters, &mut self.labels);
        add_still_into(still, number, tolerance, rasters, labels, &mut self.held)
    }

    /// Room for this still too: for twice as many as are held, so that stills are seldom copied, or else for just one more.
    fn grow(&mut self, still: &[u8]) -> Result<(), Refusal> {
        let more = self.len() + 1;
        let twice = (2 * self.len()).min(MOST_STILLS).max(more);
        self.make_room(still, twice)
            .or_else(|_| self.make_room(still, more))
    }

    fn make_room(&mut self, still: &[u8], stills: usize) -> Result<(), Refusal> {
        let size = read_still(still)?;
        let needs = background_needs(size.width, size.height, size.channels, stills)?;
        lengthen(&mut self.rasters, needs.rasters)?;
        lengthen(&mut self.labels, needs.labels)
    }
}

/// Zeros behind what is there, up to a length; or what is there alone, if there is no memory for them.
fn lengthen<T: Clone + Default>(all: &mut Vec<T>, length: usize) -> Result<(), Refusal> {
    all.try_reserve_exact(length.saturating_sub(all.len()))
        .map_err(|_| Refusal::Room)?;
    all.resize(length.max(all.len()), T::default());
    Ok(())
}

#[cfg(test)]
mod tests {
    use super::*;

    /// How many stills of one sample there is room for, and that both buffers agree on it.
    fn room(background: &Background) -> usize {
        assert_eq!(background.labels.len(), 2 * background.rasters.len());
        background.rasters.len()
    }

    #[test]
    fn memory_grows_by_doubling_up_to_a_thousand_stills() {
        let mut background = Background::new();
        let mut rooms = vec![];
        for number in 0..1000 {
            background.add(b"P5\n1 1\n255\nx", number, 0).unwrap();
            if rooms.last() != Some(&room(&background)) {
                rooms.push(room(&background));
            }
        }
        assert_eq!(rooms, [1, 2, 4, 8, 16, 32, 64, 128, 256, 512, 1000]);
        assert_eq!(
            background.add(b"P5\n1 1\n255\nx", 1000, 0),
            Err(Refusal::BackgroundFull)
        );
        assert_eq!(room(&background), 1000);
    }

    #[test]
    fn a_refused_still_takes_no_memory() {
        let mut background = Background::new();
        background.add(b"P5\n1 1\n255\nx", 1, 0).unwrap();
        for (still, number, refusal) in [
            (&b"P5\n1 1\n255\nx"[..], 1, Refusal::StillNumber),
            (b"P5\n2 1\n255\nxy", 2, Refusal::StillSize),
            (b"P5\n2 1\n255\nx", 2, Refusal::RasterShort),
        ] {
            assert_eq!(background.add(still, number, 0), Err(refusal));
            assert_eq!(room(&background), 1);
        }
    }

    #[test]
    fn an_emptied_background_keeps_no_memory() {
        let mut background = Background::new();
        background.add(b"P6\n2 2\n255\nabcdefghijkl", 1, 0).unwrap();
        background.remove(1).unwrap();
        assert_eq!((background.held, room(&background)), (Held::default(), 0));
    }
}
