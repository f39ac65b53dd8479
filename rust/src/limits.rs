use crate::room::zeros;
use crate::{answer, needs, raw, ready, File, Lent, Picture, Refusal, Room};

/// How much a caller takes: how many stages a recipe may have, and how many samples a plane of a still (`width * height`, however many channels there are).
#[derive(Clone, Copy, Debug, PartialEq, Eq)]
pub struct Limits {
    pub stages: usize,
    pub samples: usize,
}

impl Limits {
    /// The archive's, and those of every call that takes none: no recipe that is accepted has more stages, and no still more samples.
    pub const ARCHIVE: Limits = Limits {
        stages: 8,
        samples: 67_108_864,
    };

    /// The bedside panel's.
    pub const PANEL: Limits = Limits {
        stages: 4,
        samples: 8192,
    };
}

/// [`filter_file_into`](crate::filter_file_into) for a caller with limits: what is accepted gives the same picture and the same output. More stages are
/// refused with [`Refusal::StageLimit`], more samples with [`Refusal::SampleLimit`].
pub fn filter_file_limited_into(
    recipe: &[u8],
    still: &[u8],
    limits: Limits,
    lent: Lent<'_>,
    out: &mut [u8],
) -> Result<Picture, Refusal> {
    let mut result = [0; 5];
    let most = [limits.stages, limits.samples];
    let number = raw::filter_file_limited(recipe, still, most, lent, out, &mut result);
    answer(number, result).map(Picture::of)
}

/// [`filter_file`](crate::filter_file) for a caller with limits: what is accepted gives the same file. More stages are refused with
/// [`Refusal::StageLimit`], more samples with [`Refusal::SampleLimit`].
pub fn filter_file_limited(recipe: &[u8], still: &[u8], limits: Limits) -> Result<File, Refusal> {
    let run = |lent, out: &mut [u8]| filter_file_limited_into(recipe, still, limits, lent, out);
    ready(run(Lent::nothing(), &mut []))?;
    let needs = needs(recipe, still)?;
    let (mut room, mut bytes) = (Room::new(needs), zeros(needs.out));
    let done = run(room.lend(), &mut bytes)?;
    bytes.truncate(done.length);
    Ok(File {
        width: done.width,
        height: done.height,
        channels: done.channels,
        tolerance: done.tolerance,
        bytes,
    })
}
