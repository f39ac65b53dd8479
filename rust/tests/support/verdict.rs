//! The call that gives a verdict as C makes it, with guards around its buffers, held to the reference's answer.
use super::calls::{all, array, result, told};
use super::{hex, Guarded, Rng};
use crate::reference::verdict;
use crate::reference::Answer;
use hejslopi::{raw, Refusal};

/// A recipe, the raw still, the received one, and a distance.
#[derive(Clone, Debug)]
pub struct Input {
    pub recipe: Vec<u8>,
    pub raw: Vec<u8>,
    pub received: Vec<u8>,
    pub distance: u64,
}

impl Input {
    pub fn files(&self) -> [&[u8]; 3] {
        [&self.recipe, &self.raw, &self.received]
    }

    /// What the library answers with memory of its own.
    pub fn judged(&self) -> Result<bool, Refusal> {
        hejslopi::verdict(&self.recipe, &self.raw, &self.received, self.distance)
    }

    /// A failing case.
    pub fn shown(&self, what: &str) -> String {
        let lines = self.files().map(hex).join("\n");
        format!("{what}\ndistance {}\n{lines}\n", self.distance)
    }
}

/// The call with so many work bytes.
pub fn verdict(rng: &mut Rng, input: &Input, room: usize) -> Result<Answer<bool>, String> {
    let mut result = result::<1>(rng);
    let mut work = Guarded::new(room, || rng.byte());
    let number = raw::verdict(
        input.files(),
        input.distance,
        work.lend(),
        array(&mut result),
    );
    let expected = verdict::verdict(input.files(), input.distance, room);
    told(number, &result, &expected.map(|yes| vec![yes as u64]))
        .and_then(|()| match expected {
            Ok(_) => all(&[(work.guards_kept(), "around the work bytes")]),
            Err(_) => all(&[(work.kept(), "work bytes")]),
        })
        .map(|()| expected)
        .map_err(|e| input.shown(&format!("{e}, work bytes: {room}")))
}
