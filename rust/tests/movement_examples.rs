//! The movement between two stills: worked by hand, and the vectors.
mod reference;
mod support;

use hejslopi::{Lent, Refusal};
use reference::movement::Motion::{self, Moved, Open, Still};
use reference::Lengths;
use std::path::Path;
use support::movement::Input;

const EXACT: &[u8] = &[1, 5, 1, 0, 0, 0, 0, 1]; // a rank of one sample: T is 0
const HALF: &[u8] = &[1, 4, 1, 0, 0, 0]; // a box of one sample: T is 32,768, half a level

fn still(sample: u8) -> Vec<u8> {
    hejslopi::write_still(1, 1, 1, &[sample]).unwrap()
}

/// The motion of a single sample that differs by so much.
fn single(limit: u64, [first, second]: [&[u8]; 2], difference: u8) -> Motion {
    let seen = hejslopi::movement(first, &still(0), second, &still(difference), limit).unwrap();
    match [seen.moved, seen.still, seen.open] {
        [1, 0, 0] => Moved,
        [0, 1, 0] => Still,
        [0, 0, 1] => Open,
        other => panic!("one sample has the counts {other:?}"),
    }
}

#[test]
fn edges_worked_by_hand() {
    let (exact, one, two) = ([EXACT, EXACT], [EXACT, HALF], [HALF, HALF]);
    for (limit, recipes, difference, expected) in [
        (0, exact, 0, Still),
        (0, exact, 1, Moved),
        (0, one, 0, Open),
        (0, one, 1, Moved),
        (0, two, 1, Open),
        (0, two, 2, Moved),
        (255, exact, 255, Still),
        (255, one, 254, Still),
        (255, one, 255, Open),
        (255, two, 254, Still),
        (10, exact, 10, Still),
        (10, exact, 11, Moved),
        (10, one, 9, Still),
        (10, one, 10, Open),
        (10, one, 11, Moved),
        (10, two, 9, Still),
        (10, two, 10, Open),
        (10, two, 11, Open),
        (10, two, 12, Moved),
    ] {
        let found = single(limit, recipes, difference);
        assert_eq!(found, expected, "{limit} {recipes:?} {difference}");
        let [first, second] = recipes;
        let turned = single(limit, [second, first], difference);
        assert_eq!(turned, expected, "{limit} {recipes:?} {difference}, turned");
    }
}

/// Each has a cause for every refusal after its own, too.
#[test]
fn refusals_come_in_their_order() {
    let two = hejslopi::write_still(2, 1, 1, &[1, 2]).unwrap();
    let rgb = hejslopi::write_still(1, 1, 3, &[1, 2, 3]).unwrap();
    let (one, longer) = (&still(1)[..], &[&still(1)[..], b"x"].concat()[..]);
    for (first, second, limit, refusal) in [
        ([&[9], b"P7"], [&[0], b"P7"], 256, Refusal::MovementLimit),
        ([&[9], b"P7"], [&[], b"P7"], 255, Refusal::StageCount),
        ([EXACT, b"P7"], [&[9], longer], 255, Refusal::Magic),
        ([EXACT, longer], [&[9], b"P7"], 255, Refusal::RasterLong),
        ([EXACT, one], [&[9], b"P7"], 255, Refusal::StageCount),
        ([EXACT, one], [EXACT, b"P7"], 255, Refusal::Magic),
        ([EXACT, one], [EXACT, &two[..]], 255, Refusal::SizesDiffer),
        ([EXACT, one], [EXACT, &rgb[..]], 255, Refusal::SizesDiffer),
    ] as [([&[u8]; 2], [&[u8]; 2], u64, Refusal); 8]
    {
        let input = Input {
            recipes: [first[0], second[0]].map(<[u8]>::to_vec),
            stills: [first[1], second[1]].map(<[u8]>::to_vec),
            limit,
        };
        assert_eq!(input.seen(), Err(refusal));
    }
}

// Vectors.

/// A line, and both files where there are any.
type Answer = (String, Option<[Vec<u8>; 2]>);

fn done(counts: [usize; 3], tolerances: [u64; 2], files: [Vec<u8>; 2]) -> Answer {
    let ([moved, still, open], [t1, t2]) = (counts, tolerances);
    let line = format!("moved {moved} still {still} open {open} T {t1} {t2}");
    (line, Some(files))
}

fn refused(number: u32) -> Answer {
    (format!("no {number}"), None)
}

struct Vector {
    input: Input,
    lent: Lengths,
    out2: usize,
    expected: Answer,
}

impl Vector {
    fn read(folder: &Path) -> Vector {
        let file = |name: &str| std::fs::read(folder.join(name));
        let text = |name: &str| String::from_utf8(file(name).unwrap()).unwrap();
        let two = |name: &str| ["1", "2"].map(|k| file(&format!("{name}{k}")).unwrap());
        let lent = text("lent");
        let mut lent = lent.split_whitespace().map(|n| n.parse().unwrap());
        let mut next = || lent.next().unwrap();
        Vector {
            lent: Lengths {
                work: next(),
                rows: next(),
                sums: next(),
                out: next(),
            },
            out2: next(),
            input: Input {
                recipes: two("recipe"),
                stills: two("still"),
                limit: text("limit").trim().parse().unwrap(),
            },
            expected: (
                text("line").trim_end().to_string(),
                folder.join("out1").exists().then(|| two("out")),
            ),
        }
    }

    /// In lent memory: where there is plenty, in as much as is enough for all.
    fn in_lent_memory(&self) -> Answer {
        fn zeros<T: Clone + Default>(count: usize) -> Vec<T> {
            vec![T::default(); count.min(65536)]
        }
        let lent = Lent {
            work: &mut zeros(self.lent.work),
            rows: &mut zeros(self.lent.rows),
            sums: &mut zeros(self.lent.sums),
        };
        let mut files = [self.lent.out, self.out2].map(zeros);
        let ([recipe1, recipe2], [still1, still2]) = (&self.input.recipes, &self.input.stills);
        let outs = files.each_mut().map(|file| &mut file[..]);
        let limit = self.input.limit;
        match hejslopi::movement_into(recipe1, still1, recipe2, still2, limit, lent, outs) {
            Err(refusal) => refused(refusal.number()),
            Ok(seen) => {
                files.iter_mut().for_each(|file| file.truncate(seen.length));
                let counts = [seen.moved, seen.still, seen.open];
                done(counts, [seen.tolerance1, seen.tolerance2], files)
            }
        }
    }

    fn in_memory_of_its_own(&self) -> Answer {
        match self.input.seen() {
            Err(refusal) => refused(refusal.number()),
            Ok(seen) => {
                let counts = [seen.moved, seen.still, seen.open];
                let tolerances = [seen.tolerance1, seen.tolerance2];
                done(counts, tolerances, [seen.picture1, seen.picture2])
            }
        }
    }

    fn by_the_plain_reading(&self) -> Answer {
        let out = self.out2;
        let first = self.input.run(0, self.lent);
        let second = self.input.run(1, Lengths { out, ..self.lent });
        match reference::movement::movement(self.input.limit, first, second) {
            Err(number) => refused(number),
            Ok(seen) => {
                let counts = seen.counts().map(|n| n as usize);
                done(counts, seen.tolerances, seen.files)
            }
        }
    }
}

#[test]
fn vectors() {
    let folders = support::vectors_with("still1");
    assert!(folders.len() >= 84, "{} vectors", folders.len());
    for folder in folders {
        let vector = Vector::read(&folder);
        let (expected, name) = (&vector.expected, folder.display());
        assert_eq!(vector.in_lent_memory(), *expected, "{name}");
        assert_eq!(vector.by_the_plain_reading(), *expected, "{name}");
        if expected.0 != "no 20" {
            assert_eq!(vector.in_memory_of_its_own(), *expected, "{name}");
        }
    }
}
