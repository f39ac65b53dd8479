//! The movement between two stills (document 02, 2026-05) read plainly: two filtered files, and what their samples tell place by place.
use super::{filter_file, read_recipe, read_still, Answer, Lengths};

/// A still, the recipe that it is filtered by, and what is lent for that.
#[derive(Clone, Copy, Debug)]
pub struct Run<'a> {
    pub recipe: &'a [u8],
    pub still: &'a [u8],
    pub lent: Lengths,
}

#[derive(Clone, Copy, Debug, PartialEq, Eq)]
pub enum Motion {
    Moved,
    Still,
    Open,
}

/// What two written samples tell, whose tolerances add up to `both`.
pub fn motion(limit: u64, both: u64, y1: u8, y2: u8) -> Motion {
    let magnitude = 65536 * (y1 as i64 - y2 as i64).unsigned_abs();
    if magnitude > 65536 * limit + both {
        Motion::Moved
    } else if magnitude + both <= 65536 * limit {
        Motion::Still
    } else {
        Motion::Open
    }
}

/// The motions of all samples in the order of the raster, both T, and both files.
#[derive(Clone, Debug, PartialEq, Eq)]
pub struct Seen {
    pub motions: Vec<Motion>,
    pub tolerances: [u64; 2],
    pub files: [Vec<u8>; 2],
}

impl Seen {
    /// How many moved, are still and are open.
    pub fn counts(&self) -> [u64; 3] {
        let count = |which| self.motions.iter().filter(|m| **m == which).count() as u64;
        [Motion::Moved, Motion::Still, Motion::Open].map(count)
    }
}

fn size(run: Run<'_>) -> Answer<[usize; 3]> {
    read_recipe(run.recipe)?;
    let picture = read_still(run.still)?;
    Ok([picture.width, picture.height, picture.channels])
}

pub fn movement(limit: u64, first: Run<'_>, second: Run<'_>) -> Answer<Seen> {
    if limit > 255 {
        return Err(27);
    }
    let size1 = size(first)?;
    if size1 != size(second)? {
        return Err(26);
    }
    let (_, t1, file1) = filter_file(first.recipe, first.still, first.lent)?;
    let (_, t2, file2) = filter_file(second.recipe, second.still, second.lent)?;
    let start = file1.len() - size1.iter().product::<usize>();
    let pairs = file1[start..].iter().zip(&file2[start..]);
    let motions = pairs.map(|(y1, y2)| motion(limit, t1 + t2, *y1, *y2));
    Ok(Seen {
        motions: motions.collect(),
        tolerances: [t1, t2],
        files: [file1, file2],
    })
}
