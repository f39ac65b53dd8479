//! Which stage of a refused recipe is at fault.
use hejslopi::{faulty_stage, read_recipe, Refusal};

const BOX: &[u8] = &[4, 1, 0, 1, 1];
const OUTLINE: &[u8] = &[6, 1, 0];

/// A stage for each way to be wrong.
const WRONG: [(&[u8], Refusal); 15] = [
    (&[0, 1, 0, 1, 1], Refusal::Kind),
    (&[7, 1, 0, 1, 1], Refusal::Kind),
    (&[3, 4, 0, 1, 1], Refusal::Kind),
    (&[3, 1, 9, 1, 1], Refusal::Kind),
    (&[6, 4, 0], Refusal::Kind),
    (&[6, 2, 9], Refusal::Kind),
    (&[4, 1, 0, 1, 16], Refusal::Count),
    (&[1, 1, 0, 0, 1, 0, 1, 0, 1, 0, 0, 1], Refusal::Count),
    (&[2, 1, 0, 1, 32, 0], Refusal::Count),
    (
        &[1, 1, 0, 1, 1, 0, 1, 0, 0, 0, 0, 0, 1, 0, 1],
        Refusal::Count,
    ),
    (
        &[1, 1, 0, 2, 1, 0, 1, 0, 1, 5, 5, 0, 0, 1, 0, 1, 0, 1],
        Refusal::Offset,
    ),
    (
        &[2, 1, 0, 1, 1, 0, 0, 0x7F, 0xC0, 0, 0, 0x3F, 0x80, 0, 0],
        Refusal::RealWeight,
    ),
    (
        &[1, 1, 0, 1, 1, 0, 1, 0, 1, 0, 0, 0, 5, 0, 1],
        Refusal::Gain,
    ),
    (&[5, 1, 0, 1, 1, 0, 0], Refusal::Position),
    (&[5, 1, 0, 1, 1, 0, 10], Refusal::Position),
];

/// A recipe that says it has so many stages, and has these.
fn recipe(count: u8, stages: &[&[u8]]) -> Vec<u8> {
    [&[count], &stages.concat()[..]].concat()
}

#[test]
fn each_fault_in_each_place() {
    for (wrong, refusal) in WRONG {
        for (right, count) in [(BOX, 1), (BOX, 2), (BOX, 8), (OUTLINE, 8)] {
            for place in 1..=count {
                let mut stages = vec![right; count];
                stages[place - 1] = wrong;
                let recipe = recipe(count as u8, &stages);
                assert_eq!(read_recipe(&recipe), Err(refusal), "{recipe:?}");
                assert_eq!(faulty_stage(&recipe), Some(place), "{recipe:?}");
            }
        }
    }
}

#[test]
fn the_first_of_several_faults() {
    let stages = [BOX, &[3, 4, 0, 1, 1], &[0, 0, 0]];
    assert_eq!(faulty_stage(&recipe(3, &stages)), Some(2));
}

/// A recipe that is cut says so of the stage it is cut in, or of the first that is missing.
#[test]
fn cut() {
    let whole = recipe(4, &[BOX, &[5, 1, 0, 1, 1, 0, 5], OUTLINE, BOX]);
    assert_eq!(faulty_stage(&whole), None);
    for length in 1..whole.len() {
        let stage = match length {
            1..=5 => 1,
            6..=12 => 2,
            13..=15 => 3,
            _ => 4,
        };
        assert_eq!(read_recipe(&whole[..length]), Err(Refusal::Cut));
        assert_eq!(faulty_stage(&whole[..length]), Some(stage), "{length}");
    }
    assert_eq!(faulty_stage(&recipe(8, &[BOX; 7])), Some(8));
}

#[test]
fn no_stage_is_at_fault() {
    assert_eq!(faulty_stage(&[]), None);
    for stages in [1, 2, 8] {
        for stage in [BOX, OUTLINE] {
            let accepted = recipe(stages, &vec![stage; stages as usize]);
            assert_eq!(faulty_stage(&accepted), None);
            let trailing = [&accepted[..], &[0]].concat();
            assert_eq!(read_recipe(&trailing), Err(Refusal::Trailing));
            assert_eq!(faulty_stage(&trailing), None);
        }
    }
    // a wrong number of stages, though the first is wrong too
    for count in [0, 9, 255] {
        for stage in [BOX, &[0, 1, 0, 1, 1]] {
            assert_eq!(faulty_stage(&recipe(count, &[stage])), None);
        }
    }
}
