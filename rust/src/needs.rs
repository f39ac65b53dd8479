//! What must be lent, as the library itself says.
use crate::{answer, raw, Refusal};

/// How many elements must be lent to filter a still by a recipe (work bytes, row values, sums), how many bytes are written, and the tolerance T, in 65,536ths
/// of a grey level.
#[derive(Clone, Copy, Debug, PartialEq, Eq)]
pub struct Needs {
    pub work: usize,
    pub rows: usize,
    pub sums: usize,
    pub out: usize,
    pub tolerance: u64,
}

impl Needs {
    /// The larger of each: enough for both.
    pub fn max(self, other: Needs) -> Needs {
        Needs {
            work: self.work.max(other.work),
            rows: self.rows.max(other.rows),
            sums: self.sums.max(other.sums),
            out: self.out.max(other.out),
            tolerance: self.tolerance.max(other.tolerance),
        }
    }
}

/// What a run of [`filter_file_into`](crate::filter_file_into) needs, without filtering. Of the still the header decides alone: behind it there may be
/// too few samples, too many or none.
///
/// ```
/// let recipe = [1, 4, 1, 0, 1, 2]; // one stage: box, nearest, radius 1 across and 2 down
/// let needs = hejslopi::needs(&recipe, b"P5\n5 4\n255\n")?;
/// assert_eq!((needs.work, needs.rows, needs.sums), (40, 170, 48));
/// assert_eq!((needs.out, needs.tolerance), (31, 32768));
/// # Ok::<(), hejslopi::Refusal>(())
/// ```
pub fn needs(recipe: &[u8], still: &[u8]) -> Result<Needs, Refusal> {
    let mut result = [0; 5];
    let number = raw::needs(recipe, still, &mut result);
    let [work, rows, sums, out, tolerance] = answer(number, result)?;
    Ok(Needs {
        work: work as usize,
        rows: rows as usize,
        sums: sums as usize,
        out: out as usize,
        tolerance,
    })
}

/// What a run of [`filter_plane_into`](crate::filter_plane_into) needs: what a still of this size does, and no room for a header. A recipe of several stages, which that
/// call refuses, is not refused here.
pub fn plane_needs(recipe: &[u8], width: usize, height: usize) -> Result<Needs, Refusal> {
    let of_still = needs(recipe, format!("P5\n{width} {height}\n255\n").as_bytes())?;
    Ok(Needs {
        out: width * height,
        ..of_still
    })
}
