//! The functions of `include/hejslopi.h` as they are, and each with slices in place of pointers and lengths. That header says what each argument is.
use crate::Lent;

extern "C" {
    pub fn hejslopi_read_still(bytes: *const u8, bytes_len: usize, result: *mut [u64; 4]) -> u32;

    pub fn hejslopi_write_still(
        width: usize,
        height: usize,
        channels: usize,
        raster: *const u8,
        raster_len: usize,
        out: *mut u8,
        out_len: usize,
        result: *mut [u64; 1],
    ) -> u32;

    pub fn hejslopi_read_recipe(bytes: *const u8, bytes_len: usize, result: *mut [u64; 2]) -> u32;

    pub fn hejslopi_needs(
        recipe: *const u8,
        recipe_len: usize,
        still: *const u8,
        still_len: usize,
        result: *mut [u64; 5],
    ) -> u32;

    pub fn hejslopi_filter_plane(
        recipe: *const u8,
        recipe_len: usize,
        width: usize,
        height: usize,
        plane: *const u8,
        plane_len: usize,
        work: *mut u8,
        work_len: usize,
        rows: *mut i32,
        rows_len: usize,
        sums: *mut u32,
        sums_len: usize,
        out: *mut u8,
        out_len: usize,
        result: *mut [u64; 1],
    ) -> u32;

    pub fn hejslopi_filter_file(
        recipe: *const u8,
        recipe_len: usize,
        still: *const u8,
        still_len: usize,
        work: *mut u8,
        work_len: usize,
        rows: *mut i32,
        rows_len: usize,
        sums: *mut u32,
        sums_len: usize,
        out: *mut u8,
        out_len: usize,
        result: *mut [u64; 5],
    ) -> u32;

    pub fn hejslopi_filter_file_limited(
        recipe: *const u8,
        recipe_len: usize,
        still: *const u8,
        still_len: usize,
        stages: usize,
        samples: usize,
        work: *mut u8,
        work_len: usize,
        rows: *mut i32,
        rows_len: usize,
        sums: *mut u32,
        sums_len: usize,
        out: *mut u8,
        out_len: usize,
        result: *mut [u64; 5],
    ) -> u32;

    pub fn hejslopi_movement(
        recipe1: *const u8,
        recipe1_len: usize,
        still1: *const u8,
        still1_len: usize,
        recipe2: *const u8,
        recipe2_len: usize,
        still2: *const u8,
        still2_len: usize,
        limit: u64,
        work: *mut u8,
        work_len: usize,
        rows: *mut i32,
        rows_len: usize,
        sums: *mut u32,
        sums_len: usize,
        out1: *mut u8,
        out1_len: usize,
        out2: *mut u8,
        out2_len: usize,
        result: *mut [u64; 6],
    ) -> u32;

    pub fn hejslopi_verdict(
        recipe: *const u8,
        recipe_len: usize,
        raw: *const u8,
        raw_len: usize,
        received: *const u8,
        received_len: usize,
        distance: u64,
        work: *mut u8,
        work_len: usize,
        result: *mut [u64; 1],
    ) -> u32;

    pub fn hejslopi_background_add(
        still: *const u8,
        still_len: usize,
        number: u32,
        tolerance: u32,
        rasters: *mut u8,
        rasters_len: usize,
        labels: *mut u32,
        labels_len: usize,
        held: *mut [u64; 4],
    ) -> u32;

    pub fn hejslopi_background_remove(
        number: u32,
        rasters: *mut u8,
        rasters_len: usize,
        labels: *mut u32,
        labels_len: usize,
        held: *mut [u64; 4],
    ) -> u32;

    pub fn hejslopi_background_mean(
        rasters: *const u8,
        rasters_len: usize,
        labels: *const u32,
        labels_len: usize,
        held: *const [u64; 4],
        out: *mut u8,
        out_len: usize,
        result: *mut [u64; 3],
    ) -> u32;
}

// SAFETY, of all calls below: each pointer is of a reference, with the length of its slice; `&mut` references do not overlap.

pub fn read_still(bytes: &[u8], result: &mut [u64; 4]) -> u32 {
    unsafe { hejslopi_read_still(bytes.as_ptr(), bytes.len(), result) }
}

pub fn write_still(
    [width, height, channels]: [usize; 3],
    raster: &[u8],
    out: &mut [u8],
    result: &mut [u64; 1],
) -> u32 {
    let (raster, raster_len) = (raster.as_ptr(), raster.len());
    let (out, out_len) = (out.as_mut_ptr(), out.len());
    unsafe {
        hejslopi_write_still(
            width, height, channels, raster, raster_len, out, out_len, result,
        )
    }
}

pub fn read_recipe(bytes: &[u8], result: &mut [u64; 2]) -> u32 {
    unsafe { hejslopi_read_recipe(bytes.as_ptr(), bytes.len(), result) }
}

pub fn needs(recipe: &[u8], still: &[u8], result: &mut [u64; 5]) -> u32 {
    let (r, s) = (recipe.as_ptr(), still.as_ptr());
    unsafe { hejslopi_needs(r, recipe.len(), s, still.len(), result) }
}

/// Calls a filtering function: what it reads first, then the lent buffers and the outputs.
macro_rules! filtering {
    ($function:ident($($first:expr),*), $lent:expr, [$($out:expr),*], $result:expr) => {{
        let Lent { work, rows, sums } = $lent;
        unsafe {
            $function(
                $($first,)*
                work.as_mut_ptr(),
                work.len(),
                rows.as_mut_ptr(),
                rows.len(),
                sums.as_mut_ptr(),
                sums.len(),
                $($out.as_mut_ptr(), $out.len(),)*
                $result,
            )
        }
    }};
}

pub fn filter_plane(
    recipe: &[u8],
    [width, height]: [usize; 2],
    plane: &[u8],
    lent: Lent<'_>,
    out: &mut [u8],
    result: &mut [u64; 1],
) -> u32 {
    let (r, p) = (recipe.as_ptr(), plane.as_ptr());
    filtering!(
        hejslopi_filter_plane(r, recipe.len(), width, height, p, plane.len()),
        lent,
        [out],
        result
    )
}

pub fn filter_file(
    recipe: &[u8],
    still: &[u8],
    lent: Lent<'_>,
    out: &mut [u8],
    result: &mut [u64; 5],
) -> u32 {
    let (r, s) = (recipe.as_ptr(), still.as_ptr());
    filtering!(
        hejslopi_filter_file(r, recipe.len(), s, still.len()),
        lent,
        [out],
        result
    )
}

pub fn filter_file_limited(
    recipe: &[u8],
    still: &[u8],
    [stages, samples]: [usize; 2],
    lent: Lent<'_>,
    out: &mut [u8],
    result: &mut [u64; 5],
) -> u32 {
    let (r, s) = (recipe.as_ptr(), still.as_ptr());
    filtering!(
        hejslopi_filter_file_limited(r, recipe.len(), s, still.len(), stages, samples),
        lent,
        [out],
        result
    )
}

/// A recipe and the still that it filters, twice.
pub fn movement(
    [recipe1, still1]: [&[u8]; 2],
    [recipe2, still2]: [&[u8]; 2],
    limit: u64,
    lent: Lent<'_>,
    [out1, out2]: [&mut [u8]; 2],
    result: &mut [u64; 6],
) -> u32 {
    let (r1, s1) = (recipe1.as_ptr(), still1.as_ptr());
    let (r2, s2) = (recipe2.as_ptr(), still2.as_ptr());
    filtering!(
        hejslopi_movement(
            r1,
            recipe1.len(),
            s1,
            still1.len(),
            r2,
            recipe2.len(),
            s2,
            still2.len(),
            limit
        ),
        lent,
        [out1, out2],
        result
    )
}

/// A recipe, the raw still and the received one.
pub fn verdict(
    [recipe, raw, received]: [&[u8]; 3],
    distance: u64,
    work: &mut [u8],
    result: &mut [u64; 1],
) -> u32 {
    let [(r, r_len), (s, s_len), (t, t_len)] =
        [recipe, raw, received].map(|bytes| (bytes.as_ptr(), bytes.len()));
    let (work, work_len) = (work.as_mut_ptr(), work.len());
    unsafe {
        hejslopi_verdict(
            r, r_len, s, s_len, t, t_len, distance, work, work_len, result,
        )
    }
}

pub fn background_add(
    still: &[u8],
    [number, tolerance]: [u32; 2],
    rasters: &mut [u8],
    labels: &mut [u32],
    held: &mut [u64; 4],
) -> u32 {
    let (s, s_len) = (still.as_ptr(), still.len());
    let (r, r_len) = (rasters.as_mut_ptr(), rasters.len());
    let (l, l_len) = (labels.as_mut_ptr(), labels.len());
    unsafe { hejslopi_background_add(s, s_len, number, tolerance, r, r_len, l, l_len, held) }
}

pub fn background_remove(
    number: u32,
    rasters: &mut [u8],
    labels: &mut [u32],
    held: &mut [u64; 4],
) -> u32 {
    let (r, r_len) = (rasters.as_mut_ptr(), rasters.len());
    let (l, l_len) = (labels.as_mut_ptr(), labels.len());
    unsafe { hejslopi_background_remove(number, r, r_len, l, l_len, held) }
}

pub fn background_mean(
    rasters: &[u8],
    labels: &[u32],
    held: &[u64; 4],
    out: &mut [u8],
    result: &mut [u64; 3],
) -> u32 {
    let (r, r_len) = (rasters.as_ptr(), rasters.len());
    let (l, l_len) = (labels.as_ptr(), labels.len());
    let (out, out_len) = (out.as_mut_ptr(), out.len());
    unsafe { hejslopi_background_mean(r, r_len, l, l_len, held, out, out_len, result) }
}
