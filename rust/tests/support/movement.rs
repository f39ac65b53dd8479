//! The call that counts movement as C makes it, with guards around every buffer, held to the reference's answer.
use super::calls::{array, result, told, Lent};
use super::{hex, Rng};
use crate::reference::movement::{self, Run, Seen};
use crate::reference::Lengths;
use hejslopi::{raw, Movement, Refusal};

/// Two stills, a recipe for each, and a limit.
#[derive(Clone, Debug)]
pub struct Input {
    pub recipes: [Vec<u8>; 2],
    pub stills: [Vec<u8>; 2],
    pub limit: u64,
}

impl Input {
    /// The first run (0) or the second (1).
    pub fn run(&self, k: usize, lent: Lengths) -> Run<'_> {
        Run {
            recipe: &self.recipes[k],
            still: &self.stills[k],
            lent,
        }
    }

    /// What the library sees with memory of its own.
    pub fn seen(&self) -> Result<Movement, Refusal> {
        let ([recipe1, recipe2], [still1, still2]) = (&self.recipes, &self.stills);
        hejslopi::movement(recipe1, still1, recipe2, still2, self.limit)
    }

    pub fn swapped(&self) -> Input {
        let mut other = self.clone();
        other.recipes.reverse();
        other.stills.reverse();
        other
    }

    /// A failing case.
    pub fn shown(&self, what: &str) -> String {
        let lines = self.recipes.iter().chain(&self.stills);
        let lines: Vec<String> = lines.map(|bytes| hex(bytes)).collect();
        format!("{what}\nlimit {}\n{}\n", self.limit, lines.join("\n"))
    }
}

/// What is written into the array of results.
fn values(seen: &Seen) -> Vec<u64> {
    let mut values = seen.counts().to_vec();
    values.extend(seen.tolerances);
    values.push(seen.files[0].len() as u64);
    values
}

/// The call with these buffers, and a second output of `out2` bytes.
pub fn movement(rng: &mut Rng, input: &Input, lent: Lengths, out2: usize) -> Result<u32, String> {
    let mut result = result::<6>(rng);
    let mut buffers = Lent::new(rng, lent, [lent.out, out2]);
    let (work, outs) = buffers.lend();
    let (first, second) = (
        input.run(0, lent),
        input.run(1, Lengths { out: out2, ..lent }),
    );
    let [run1, run2] = [first, second].map(|run| [run.recipe, run.still]);
    let number = raw::movement(run1, run2, input.limit, work, outs, array(&mut result));
    let expected = movement::movement(input.limit, first, second);
    let expected = expected.as_ref().map_err(|n| *n);
    told(number, &result, &expected.map(values))
        .and_then(|()| {
            buffers.held(expected.map(|seen| seen.files.each_ref().map(|file| &file[..])))
        })
        .map(|()| number)
        .map_err(|e| input.shown(&format!("{e}\n{lent:?} {out2}")))
}
