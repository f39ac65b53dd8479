use crate::room::zeros;
use crate::{answer, raw, read_still, ready, Refusal};

/// [`verdict`] with lent work bytes: `width * height` of them are enough.
pub fn verdict_into(
    recipe: &[u8],
    raw: &[u8],
    received: &[u8],
    distance: u64,
    work: &mut [u8],
) -> Result<bool, Refusal> {
    let mut result = [0; 1];
    let number = raw::verdict([recipe, raw, received], distance, work, &mut result);
    Ok(answer(number, result)? == [1])
}

/// Whether each sample of a still that was filtered elsewhere, in every channel, lies within a distance of 0 to 255 grey levels of the exact result on the raw
/// still at its place. Both are whole P5 or P6 files.
///
/// The exact result is what the recipe's one stage, of ratios, a box or a rank, gives in fractions, kept to 0..255, with nothing rounded. At just that distance
/// the answer is still yes.
///
/// ```
/// let recipe = [1, 4, 1, 0, 1, 0]; // one stage: box, nearest, radius 1 across and 0 down
/// let raw = b"P5\n3 1\n255\n\x0A\x14\x28"; // the exact results are 40/3, 70/3 and 100/3
/// let received = b"P5\n3 1\n255\n\x0D\x19\x21"; // 1/3, 5/3 and 1/3 from them
/// assert_eq!(hejslopi::verdict(&recipe, raw, received, 2), Ok(true));
/// assert_eq!(hejslopi::verdict(&recipe, raw, received, 1), Ok(false));
/// assert_eq!(hejslopi::verdict(&recipe, raw, received, 256), Err(hejslopi::Refusal::DistanceLimit));
/// ```
pub fn verdict(recipe: &[u8], raw: &[u8], received: &[u8], distance: u64) -> Result<bool, Refusal> {
    let judge = |work: &mut [u8]| verdict_into(recipe, raw, received, distance, work);
    ready(judge(&mut []))?;
    let still = read_still(raw)?;
    judge(&mut zeros(still.width * still.height))
}
