//! The calls on a background as C makes them, with guards around every buffer, held to the reference's answer.
use super::calls::{all, array, result, told};
use super::{hex, Guarded, Rng};
use crate::reference::background::Memory;
use crate::reference::Answer;
use hejslopi::{raw, Background, Held};

/// Memory as it is lent to one call.
struct Lent {
    rasters: Guarded<u8>,
    labels: Guarded<u32>,
    held: Guarded<u64>,
}

impl Lent {
    fn new(rng: &mut Rng, memory: &Memory) -> Lent {
        Lent {
            rasters: Guarded::around(&memory.rasters, || rng.byte()),
            labels: Guarded::around(&memory.labels, || rng.next() as u32),
            held: Guarded::around(&memory.held, || rng.next()),
        }
    }

    fn add(&mut self, still: &[u8], labels: [u32; 2]) -> u32 {
        let held = array(&mut self.held);
        raw::background_add(still, labels, self.rasters.lend(), self.labels.lend(), held)
    }

    fn remove(&mut self, number: u32) -> u32 {
        let held = array(&mut self.held);
        raw::background_remove(number, self.rasters.lend(), self.labels.lend(), held)
    }

    fn mean(&self, out: &mut [u8], result: &mut [u64; 3]) -> u32 {
        let held = self.held.held().try_into().expect("four numbers were made");
        raw::background_mean(self.rasters.held(), self.labels.held(), held, out, result)
    }

    /// What it holds after a call, to the last element, and that nothing around it is altered.
    fn holds(&self, memory: &Memory) -> Result<(), String> {
        all(&[
            (self.held.held() == memory.held, "what is held"),
            (self.rasters.held() == memory.rasters, "rasters"),
            (self.labels.held() == memory.labels, "labels"),
            (self.held.guards_kept(), "around what is held"),
            (self.rasters.guards_kept(), "around the rasters"),
            (self.labels.guards_kept(), "around the labels"),
        ])
    }
}

/// What a call returned and left, held to the memory that the reference has after it. A refusal leaves the memory before it.
fn changed(
    number: u32,
    lent: &Lent,
    before: &mut Memory,
    expected: Answer<Memory>,
) -> Result<u32, String> {
    let refusal = expected.as_ref().err().copied().unwrap_or(0);
    let case = |what: String| format!("{what}\n{before:?}\n");
    if number != refusal {
        return Err(case(format!("returned {number}, expected {refusal}")));
    }
    let after = expected.unwrap_or_else(|_| before.clone());
    lent.holds(&after).map_err(case)?;
    *before = after;
    Ok(number)
}

pub fn add(
    rng: &mut Rng,
    memory: &mut Memory,
    still: &[u8],
    number: u32,
    tolerance: u32,
) -> Result<u32, String> {
    let mut lent = Lent::new(rng, memory);
    let answer = lent.add(still, [number, tolerance]);
    let expected = memory.add(still, number, tolerance);
    changed(answer, &lent, memory, expected).map_err(|e| {
        format!(
            "add: {e}number {number} T {tolerance}\nstill {}\n",
            hex(still)
        )
    })
}

pub fn remove(rng: &mut Rng, memory: &mut Memory, number: u32) -> Result<u32, String> {
    let mut lent = Lent::new(rng, memory);
    let answer = lent.remove(number);
    let expected = memory.remove(number);
    changed(answer, &lent, memory, expected).map_err(|e| format!("remove: {e}number {number}\n"))
}

pub fn mean(rng: &mut Rng, memory: &Memory, room: usize) -> Result<u32, String> {
    let lent = Lent::new(rng, memory);
    let mut result = result::<3>(rng);
    let mut out = Guarded::new(room, || rng.byte());
    let number = lent.mean(out.lend(), array(&mut result));
    let expected = memory.mean(room);
    let values = expected.as_ref().map_err(|n| *n).map(|mean| match mean {
        Some((tolerance, raster)) => vec![memory.held[0], *tolerance, raster.len() as u64],
        None => vec![0; 3],
    });
    let written = match &expected {
        Ok(Some((_, raster))) => &raster[..],
        _ => &[],
    };
    told(number, &result, &values)
        .and_then(|()| lent.holds(memory))
        .and_then(|()| {
            all(&[
                (out.held().starts_with(written), "mean"),
                (out.kept_behind(written.len()), "output's tail"),
            ])
        })
        .map(|()| number)
        .map_err(|e| format!("mean: {e}\noutput {room}\n{memory:?}\n"))
}

// What the library answers, for tests that compare it with something else.

/// T and the raster of a mean.
pub type Mean = Option<(u64, Vec<u8>)>;

pub fn grey(samples: &[u8]) -> Vec<u8> {
    let header = format!("P5\n{} 1\n255\n", samples.len());
    [header.as_bytes(), samples].concat()
}

/// What the library gives as the mean of lent memory.
pub fn library_mean(memory: &Memory) -> Mean {
    let [stills, width, height, channels] = memory.held.map(|n| n as usize);
    let held = Held {
        stills,
        width,
        height,
        channels,
    };
    let mut out = vec![0; width * height * channels];
    let done = hejslopi::mean_still_into(&memory.rasters, &memory.labels, &held, &mut out);
    done.unwrap().map(|mean| (mean.tolerance, out))
}

pub fn owned_mean(background: &Background) -> Mean {
    let mean = background.mean().unwrap();
    mean.map(|mean| (mean.tolerance, mean.raster))
}
