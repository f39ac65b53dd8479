use crate::{read_recipe, Refusal};

/// Which stage, counted from 1, makes the library refuse this recipe. `None` if it is accepted, or if no stage is at fault: if it
/// is empty, has a wrong number of stages, or goes on after the last.
///
/// It is found by asking the library alone: with a smaller number in its first byte a recipe is read as far as that many stages
/// go, and they are fine if it is accepted or refused for what follows them.
///
/// ```
/// let recipe = [2, 3, 1, 0, 1, 1, 4, 1, 0, 16, 1]; // the box of the second stage has a radius over 15
/// assert_eq!(hejslopi::faulty_stage(&recipe), Some(2));
/// assert_eq!(hejslopi::faulty_stage(&[1, 3, 1, 0, 1, 1]), None);
/// ```
pub fn faulty_stage(recipe: &[u8]) -> Option<usize> {
    let stages = *recipe.first()?;
    if read_recipe(recipe) == Err(Refusal::StageCount) {
        return None;
    }
    let mut front = recipe.to_vec();
    let mut fine = |count: u8| {
        front[0] = count;
        matches!(read_recipe(&front), Ok(_) | Err(Refusal::Trailing))
    };
    (1..=stages).find(|&count| !fine(count)).map(usize::from)
}
