//! Each call as C makes it, with guards around every buffer, held to the reference's answer.
use super::{hex, Guarded, Rng};
use crate::reference::{self, Lengths};
use hejslopi::raw;

pub(super) fn result<const N: usize>(rng: &mut Rng) -> Guarded<u64> {
    Guarded::new(N, || rng.next())
}

pub(super) fn array<const N: usize>(guarded: &mut Guarded<u64>) -> &mut [u64; N] {
    guarded.lend().try_into().expect("N numbers were made")
}

/// What was returned and what stands in the array, held to an answer.
pub(super) fn told(
    number: u32,
    result: &Guarded<u64>,
    expected: &Result<Vec<u64>, u32>,
) -> Result<(), String> {
    if !result.guards_kept() {
        return Err("around the result array".into());
    }
    match expected {
        Ok(values) if number == 0 && result.held() == values => Ok(()),
        Err(refusal) if number == *refusal && result.kept() => Ok(()),
        _ => Err(format!(
            "returned {number} with {:?}, expected {expected:?}",
            result.held()
        )),
    }
}

pub(super) fn all(checks: &[(bool, &str)]) -> Result<(), String> {
    match checks.iter().find(|check| !check.0) {
        Some((_, what)) => Err(format!("altered: {what}")),
        None => Ok(()),
    }
}

pub fn read_still(rng: &mut Rng, bytes: &[u8]) -> Result<u32, String> {
    let mut result = result::<4>(rng);
    let number = raw::read_still(bytes, array(&mut result));
    let expected = reference::read_still(bytes).map(|p| {
        vec![
            p.width as u64,
            p.height as u64,
            p.channels as u64,
            p.start as u64,
        ]
    });
    told(number, &result, &expected)
        .map(|()| number)
        .map_err(|e| format!("{e}\nstill {}\n", hex(bytes)))
}

pub fn read_recipe(rng: &mut Rng, bytes: &[u8]) -> Result<u32, String> {
    let mut result = result::<2>(rng);
    let number = raw::read_recipe(bytes, array(&mut result));
    let expected = reference::read_recipe(bytes)
        .map(|stages| vec![stages.len() as u64, reference::tolerance(&stages)]);
    told(number, &result, &expected)
        .map(|()| number)
        .map_err(|e| format!("{e}\nrecipe {}\n", hex(bytes)))
}

pub fn needs(rng: &mut Rng, recipe: &[u8], still: &[u8]) -> Result<u32, String> {
    let mut result = result::<5>(rng);
    let number = raw::needs(recipe, still, array(&mut result));
    let expected = reference::needed(recipe, still).map(|(need, tolerance)| {
        let lengths = [need.work, need.rows, need.sums, need.out];
        lengths
            .map(|n| n as u64)
            .into_iter()
            .chain([tolerance])
            .collect()
    });
    told(number, &result, &expected)
        .map(|()| number)
        .map_err(|e| format!("{e}\nrecipe {}\nstill {}\n", hex(recipe), hex(still)))
}

pub fn write_still(
    rng: &mut Rng,
    width: usize,
    height: usize,
    channels: usize,
    raster: &[u8],
    room: usize,
) -> Result<u32, String> {
    let mut result = result::<1>(rng);
    let mut out = Guarded::new(room, || rng.byte());
    let sizes = [width, height, channels];
    let number = raw::write_still(sizes, raster, out.lend(), array(&mut result));
    let expected = reference::write_still(width, height, channels, raster, room);
    let values = expected
        .as_ref()
        .map(|file| vec![file.len() as u64])
        .map_err(|n| *n);
    told(number, &result, &values)
        .and_then(|()| match &expected {
            Ok(file) => all(&[
                (out.held().starts_with(file), "file"),
                (out.kept_behind(file.len()), "output's tail"),
            ]),
            Err(_) => all(&[(out.kept(), "output")]),
        })
        .map(|()| number)
        .map_err(|e| {
            format!(
                "{e}\nwidth {width} height {height} channels {channels} room {room}\nraster {}\n",
                hex(raster)
            )
        })
}

/// The buffers of a filtering call, with N outputs.
pub(super) struct Lent<const N: usize> {
    work: Guarded<u8>,
    rows: Guarded<i32>,
    sums: Guarded<u32>,
    outs: [Guarded<u8>; N],
}

impl<const N: usize> Lent<N> {
    pub(super) fn new(rng: &mut Rng, lengths: Lengths, outs: [usize; N]) -> Lent<N> {
        Lent {
            work: Guarded::new(lengths.work, || rng.byte()),
            rows: Guarded::new(lengths.rows, || rng.next() as i32),
            sums: Guarded::new(lengths.sums, || rng.next() as u32),
            outs: outs.map(|out| Guarded::new(out, || rng.byte())),
        }
    }

    pub(super) fn lend(&mut self) -> (hejslopi::Lent<'_>, [&mut [u8]; N]) {
        let buffers = hejslopi::Lent {
            work: self.work.lend(),
            rows: self.rows.lend(),
            sums: self.sums.lend(),
        };
        (buffers, self.outs.each_mut().map(Guarded::lend))
    }

    /// What the buffers hold after a call that wrote these bytes into its outputs, or refused.
    pub(super) fn held(&self, written: Result<[&[u8]; N], u32>) -> Result<(), String> {
        let Ok(written) = written else {
            return all(&[
                (self.outs.iter().all(Guarded::kept), "output"),
                (self.work.kept(), "work bytes"),
                (self.rows.kept(), "row values"),
                (self.sums.kept(), "sums"),
            ]);
        };
        for (out, bytes) in self.outs.iter().zip(written) {
            holds(out, bytes)?;
        }
        all(&[
            (self.work.guards_kept(), "around the work bytes"),
            (self.rows.guards_kept(), "around the row values"),
            (self.sums.guards_kept(), "around the sums"),
        ])
    }
}

/// An output that these bytes were written to.
fn holds(out: &Guarded<u8>, bytes: &[u8]) -> Result<(), String> {
    if let Some(k) = (0..bytes.len()).find(|&k| bytes[k] != out.held()[k]) {
        let (found, wanted) = (out.held()[k], bytes[k]);
        return Err(format!(
            "byte {k} of the output is {found}, expected {wanted}"
        ));
    }
    all(&[(out.kept_behind(bytes.len()), "output's tail")])
}

pub fn filter_plane(
    rng: &mut Rng,
    recipe: &[u8],
    w: usize,
    h: usize,
    plane: &[u8],
    lengths: Lengths,
) -> Result<u32, String> {
    let mut result = result::<1>(rng);
    let mut lent = Lent::new(rng, lengths, [lengths.out]);
    let (buffers, [out]) = lent.lend();
    let number = raw::filter_plane(recipe, [w, h], plane, buffers, out, array(&mut result));
    let expected = reference::filter_plane(recipe, w, h, plane, lengths);
    let values = expected.as_ref().map(|e| vec![e.0]).map_err(|n| *n);
    told(number, &result, &values)
        .and_then(|()| lent.held(expected.as_ref().map(|e| [&e.1[..]]).map_err(|n| *n)))
        .map(|()| number)
        .map_err(|e| {
            let (recipe, plane) = (hex(recipe), hex(plane));
            format!("{e}\nrecipe {recipe}\nwidth {w} height {h} {lengths:?}\nplane {plane}\n")
        })
}

/// With a caller's limits, or by the call that takes none.
pub fn filter_file(
    rng: &mut Rng,
    recipe: &[u8],
    still: &[u8],
    limits: Option<[usize; 2]>,
    lengths: Lengths,
) -> Result<u32, String> {
    let mut result = result::<5>(rng);
    let mut lent = Lent::new(rng, lengths, [lengths.out]);
    let (buffers, [out]) = lent.lend();
    let values = array(&mut result);
    let (number, expected) = match limits {
        None => (
            raw::filter_file(recipe, still, buffers, out, values),
            reference::filter_file(recipe, still, lengths),
        ),
        Some(most) => (
            raw::filter_file_limited(recipe, still, most, buffers, out, values),
            reference::filter_file_limited(recipe, still, most, lengths),
        ),
    };
    let values = expected
        .as_ref()
        .map(|(p, t, file)| {
            vec![
                p.width as u64,
                p.height as u64,
                p.channels as u64,
                *t,
                file.len() as u64,
            ]
        })
        .map_err(|n| *n);
    told(number, &result, &values)
        .and_then(|()| lent.held(expected.as_ref().map(|e| [&e.2[..]]).map_err(|n| *n)))
        .map(|()| number)
        .map_err(|e| {
            format!(
                "{e}\nrecipe {}\nlimits {limits:?} {lengths:?}\nstill {}\n",
                hex(recipe),
                hex(still)
            )
        })
}
