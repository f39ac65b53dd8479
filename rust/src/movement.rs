//! The movement between two stills.
use crate::room::zeros;
use crate::{answer, needs, raw, ready, Lent, Refusal, Room};

/// How many samples have surely moved, are surely still, and are open; and the tolerance of each still's written samples, in
/// 65,536ths of a grey level. Both filtered files have `length` bytes.
#[derive(Clone, Copy, Debug, PartialEq, Eq)]
pub struct Counts {
    pub moved: usize,
    pub still: usize,
    pub open: usize,
    pub tolerance1: u64,
    pub tolerance2: u64,
    pub length: usize,
}

/// The movement between two stills, and both filtered files.
#[derive(Clone, Debug, PartialEq, Eq)]
pub struct Movement {
    pub moved: usize,
    pub still: usize,
    pub open: usize,
    pub tolerance1: u64,
    pub tolerance2: u64,
    pub picture1: Vec<u8>,
    pub picture2: Vec<u8>,
}

/// Filter two whole P5 or P6 files of one size into the front of an output each, and count the movement between them: see
/// [`movement`]. [`needs`] says how much must be lent to each, [`crate::Needs::max`] what is enough for both.
pub fn movement_into(
    recipe1: &[u8],
    still1: &[u8],
    recipe2: &[u8],
    still2: &[u8],
    limit: u64,
    lent: Lent<'_>,
    outs: [&mut [u8]; 2],
) -> Result<Counts, Refusal> {
    let mut result = [0; 6];
    let (first, second) = ([recipe1, still1], [recipe2, still2]);
    let number = raw::movement(first, second, limit, lent, outs, &mut result);
    let [moved, still, open, tolerance1, tolerance2, length] = answer(number, result)?;
    Ok(Counts {
        moved: moved as usize,
        still: still as usize,
        open: open as usize,
        tolerance1,
        tolerance2,
        length: length as usize,
    })
}

/// Filter two whole P5 or P6 files of one size, each by its own recipe, and count the movement between them, over all samples of
/// all channels, under a limit of 0 to 255 grey levels.
///
/// The exact results of a sample that has moved differ by more than the limit, those of one that is still do not. Of the open ones
/// nothing is known: their written samples are so near to the limit that rounding may have decided.
///
/// ```
/// let recipe = [1, 3, 1, 0, 1, 0]; // one stage: binomial, nearest, radius 1 across and 0 down
/// let (before, after) = (b"P5\n3 1\n255\n\x0A\x14\x28", b"P5\n3 1\n255\n\x0A\x14\x78");
/// let seen = hejslopi::movement(&recipe, before, &recipe, after, 19)?;
/// assert_eq!((seen.moved, seen.still, seen.open), (1, 1, 1));
/// assert_eq!(seen.picture2, b"P5\n3 1\n255\n\x0D\x2B\x5F"); // and the first is 0D 17 23: 0, 20 and 60 levels from it
/// assert_eq!(hejslopi::movement(&recipe, before, &recipe, after, 256), Err(hejslopi::Refusal::MovementLimit));
/// # Ok::<(), hejslopi::Refusal>(())
/// ```
pub fn movement(
    recipe1: &[u8],
    still1: &[u8],
    recipe2: &[u8],
    still2: &[u8],
    limit: u64,
) -> Result<Movement, Refusal> {
    let count = |lent, outs| movement_into(recipe1, still1, recipe2, still2, limit, lent, outs);
    ready(count(Lent::nothing(), [&mut [], &mut []]))?;
    let (first, second) = (needs(recipe1, still1)?, needs(recipe2, still2)?);
    let mut room = Room::new(first.max(second));
    let (mut picture1, mut picture2) = (zeros(first.out), zeros(second.out));
    let counts = count(room.lend(), [&mut picture1, &mut picture2])?;
    Ok(Movement {
        moved: counts.moved,
        still: counts.still,
        open: counts.open,
        tolerance1: counts.tolerance1,
        tolerance2: counts.tolerance2,
        picture1,
        picture2,
    })
}
