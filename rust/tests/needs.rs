//! Request 2026-10: what must be lent.
mod reference;
mod support;

use hejslopi::{Lent, Limits, Needs, Refusal, Room};
use std::path::Path;
use support::{calls, compare, inputs};

/// The answer as a line.
fn said(answer: Result<Needs, Refusal>) -> String {
    match answer {
        Err(refusal) => format!("no {}", refusal.number()),
        Ok(n) => format!(
            "work {} rows {} sums {} out {} T {}",
            n.work, n.rows, n.sums, n.out, n.tolerance
        ),
    }
}

/// What the file call answers where just these are lent: T and the length, or the refusal.
fn run(recipe: &[u8], still: &[u8], limits: Limits, lent: Needs) -> Result<(u64, usize), Refusal> {
    let (mut room, mut out) = (Room::new(lent), vec![0; lent.out]);
    hejslopi::filter_file_limited_into(recipe, still, limits, room.lend(), &mut out)
        .map(|picture| (picture.tolerance, picture.length))
}

/// Each length that is not 0, one short in turn.
fn one_short(n: Needs) -> Vec<Needs> {
    let less = |k: usize| k.checked_sub(1);
    let work = less(n.work).map(|work| Needs { work, ..n });
    let rows = less(n.rows).map(|rows| Needs { rows, ..n });
    let sums = less(n.sums).map(|sums| Needs { sums, ..n });
    let out = less(n.out).map(|out| Needs { out, ..n });
    [work, rows, sums, out].into_iter().flatten().collect()
}

/// Just what is named is enough, and one element less of anything is not.
fn exact(recipe: &[u8], still: &[u8], limits: Limits, named: Needs) -> bool {
    let enough = run(recipe, still, limits, named) == Ok((named.tolerance, named.out));
    let short = |lent: Needs| run(recipe, still, limits, lent) == Err(Refusal::Room);
    enough && one_short(named).into_iter().all(short)
}

/// One vector, and a run of it where its raster is whole.
fn tried(folder: &Path) -> bool {
    let bytes = |name: &str| std::fs::read(folder.join(name)).unwrap();
    let (recipe, still) = (bytes("recipe"), bytes("still"));
    let line = String::from_utf8(bytes("line")).unwrap();
    let named = hejslopi::needs(&recipe, &still);
    assert_eq!(said(named), line.trim_end(), "{}", folder.display());
    let whole = named.is_ok() && reference::read_still(&still).is_ok();
    if whole {
        assert!(
            exact(&recipe, &still, Limits::ARCHIVE, named.unwrap()),
            "{}",
            folder.display()
        );
    }
    whole
}

#[test]
fn vectors() {
    let of_needs = |folder: &Path| {
        folder
            .file_name()
            .unwrap()
            .to_str()
            .unwrap()
            .starts_with("10-")
    };
    let mut folders = support::vectors_with("recipe");
    folders.retain(|folder| of_needs(folder));
    assert_eq!(folders.len(), 68);
    let whole = folders.iter().filter(|folder| tried(folder)).count();
    assert_eq!(whole, 22, "with a whole raster");
}

/// As C asks, with guards, and with whatever follows the header.
#[test]
fn needs_are_named_alike() {
    compare("needs", 100_000, |rng, tally| {
        let (recipe, mut still, _) = inputs::file(rng, 3_000);
        match rng.size(0, 3) {
            0 => still.truncate(rng.size(0, still.len())),
            1 => still.extend([rng.byte(), rng.byte()]),
            _ => {}
        }
        tally.add(calls::needs(rng, &recipe, &still)?);
        Ok(())
    });
}

/// A call that is lent nothing gives its own refusal or 20; on 20 what is named is enough, under the same limits.
#[test]
fn named_needs_are_exact() {
    compare("just what is named", 5_000, |rng, tally| {
        let (recipe, still, _) = inputs::file(rng, 30_000);
        let limits = rng.pick(&[Limits::ARCHIVE, Limits::PANEL]);
        let nothing =
            hejslopi::filter_file_limited_into(&recipe, &still, limits, Lent::nothing(), &mut []);
        let refusal = nothing.expect_err("nothing is lent");
        tally.add(refusal.number());
        let file = hejslopi::filter_file_limited(&recipe, &still, limits);
        let right = match (refusal, hejslopi::needs(&recipe, &still)) {
            (Refusal::Room, Ok(named)) => {
                file.map(|f| (f.tolerance, f.bytes.len())) == Ok((named.tolerance, named.out))
                    && exact(&recipe, &still, limits, named)
            }
            (Refusal::Room, Err(_)) => false,
            _ => file == Err(refusal),
        };
        if right {
            Ok(())
        } else {
            Err(format!("{limits:?}\n{recipe:?}\n{still:?}\n"))
        }
    });
}

/// Every kind of stage before a box, and boxes of which the first needs least and the last less than the one in the middle.
#[test]
fn the_largest_box_counts() {
    let mut recipe = vec![8, 4, 1, 0, 2, 1];
    recipe.extend([1, 1, 0, 1, 1, 0, 3, 0, 1, 0, 0, 0, 1, 0, 1]);
    recipe.extend([
        2, 1, 0, 1, 2, 0, 0, 1, 0x3F, 0x80, 0, 0, 0x3F, 0, 0, 0, 0x3F, 0, 0, 0,
    ]);
    recipe.extend([3, 2, 0, 1, 1]);
    recipe.extend([5, 3, 0, 1, 1, 0, 5]);
    recipe.extend([4, 0, 9, 3, 4]);
    recipe.extend([6, 0, 9]);
    recipe.extend([4, 0, 9, 4, 3]);
    let still = hejslopi::write_still(20, 10, 1, &[100; 200]).unwrap();
    let named = hejslopi::needs(&recipe, &still).unwrap();
    assert_eq!((named.work, named.rows, named.sums), (400, 800, 27 * 10));
    assert_eq!(named.out, still.len());
    assert!(exact(&recipe, &still, Limits::ARCHIVE, named));
    // an outline has no byte behind its header to look at, and needs no sums
    let outline = hejslopi::needs(&[1, 6, 1, 0], &still).unwrap();
    assert_eq!((outline.work, outline.rows, outline.sums), (400, 800, 0));
}

/// The recipe's refusals come first, then the header's; the raster is not looked at.
#[test]
fn refusals_in_their_order() {
    let recipe = [1, 3, 1, 0, 1, 0];
    let refused = |recipe: &[u8], still: &[u8]| said(hejslopi::needs(recipe, still));
    assert_eq!(refused(&[9], b"P7"), "no 10");
    assert_eq!(refused(&recipe[..5], b"P7"), "no 11");
    assert_eq!(refused(&recipe, b"P7"), "no 1");
    assert_eq!(refused(&recipe, b"P"), "no 1");
    assert_eq!(refused(&recipe, b"P5\n3 1\n255"), "no 2");
    assert_eq!(refused(&recipe, b"P5\n3 0\n255\n"), "no 3");
    assert_eq!(refused(&recipe, b"P5\n3 1\n254\n"), "no 4");
    let named = "work 6 rows 93 sums 0 out 14 T 33280";
    for still in [
        &b"P5\n3 1\n255\n"[..],
        b"P5 3 1 255 ab",
        b"P5\n3 1\n255\nabcd",
    ] {
        assert_eq!(refused(&recipe, still), named);
    }
}

/// A plane needs what a still of its size does, and no room for a header.
#[test]
fn planes() {
    let recipe = [1, 4, 1, 0, 1, 2];
    let named = hejslopi::plane_needs(&recipe, 5, 4).unwrap();
    assert_eq!((named.work, named.rows, named.sums), (40, 170, 48));
    assert_eq!((named.out, named.tolerance), (20, 32768));
    for (width, height) in [(0, 4), (5, 0), (8193, 4), (5, usize::MAX)] {
        let refused = hejslopi::plane_needs(&recipe, width, height);
        assert_eq!(refused, Err(Refusal::Side));
    }
}
