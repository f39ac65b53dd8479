//! Where a refused recipe or still is at fault, and what was found there. The library's number stays alone: it is only asked again.
use hejslopi::{faulty_stage, read_recipe, Refusal};

/// How many bytes it takes until the library no longer says that a recipe is cut: up to the end of the field that it refuses.
fn end_of_fault(recipe: &[u8]) -> Option<usize> {
    (1..=recipe.len()).find(|&end| read_recipe(&recipe[..end]) != Err(Refusal::Cut))
}

/// Where a stage begins: behind those before it, which are well.
fn start_of(recipe: &[u8], stage: usize) -> Option<usize> {
    match stage {
        1 => Some(1),
        _ => end_of_fault(&[&[stage as u8 - 1], &recipe[1..]].concat()),
    }
}

/// The name of a stage's field and its value, by the refusal, the place of its last byte in the stage, and the bytes up to there.
fn field(refusal: Refusal, place: usize, bytes: &[u8]) -> Option<(&'static str, String)> {
    let last = *bytes.last()?;
    let named = match (refusal, place) {
        (Refusal::Kind, 1) => ("kind", last.to_string()),
        (Refusal::Kind, 2) => ("border", last.to_string()),
        (Refusal::Kind, _) => ("border value", last.to_string()),
        (Refusal::Count, 4) => ("across", last.to_string()),
        (Refusal::Count, 5) => ("down", last.to_string()),
        (Refusal::Count, _) => ("divisor", "0".into()),
        (Refusal::Offset, _) => ("offset", (last as i8).to_string()),
        (Refusal::RealWeight, _) => {
            let weight = bytes.last_chunk().map(|&four| f32::from_be_bytes(four))?;
            ("weight", weight.to_string())
        }
        (Refusal::Position, _) => {
            let position = bytes.last_chunk().map(|&two| u16::from_be_bytes(two))?;
            ("position", position.to_string())
        }
        _ => return None,
    };
    Some(named)
}

/// The place at fault in a refused recipe, in brackets; empty where nothing more can be said.
pub fn in_recipe(recipe: &[u8], refusal: Refusal) -> String {
    let Some(stage) = faulty_stage(recipe) else {
        return match (recipe.first(), refusal) {
            (Some(stages), Refusal::StageCount) => format!(" (found {stages})"),
            (Some(_), Refusal::Trailing) => end_of_fault(recipe).map_or(String::new(), |end| {
                format!(" (its last stage ends with byte {end})")
            }),
            _ => " (it has no bytes)".into(),
        };
    };
    if refusal == Refusal::Cut {
        return format!(" (stage {stage}: it ends with byte {})", recipe.len());
    }
    let found = start_of(recipe, stage)
        .zip(end_of_fault(recipe))
        .and_then(|(start, end)| field(refusal, end - start, &recipe[..end]));
    found.map_or(format!(" (stage {stage})"), |(name, value)| {
        format!(" (stage {stage}, {name}: found {value})")
    })
}

/// A header's numbers and where the raster begins, by its grammar: width, height and maximum, each behind white bytes or comments.
fn header(still: &[u8]) -> Option<([u64; 3], usize)> {
    let (mut at, mut numbers) = (2, [0; 3]);
    for number in &mut numbers {
        while matches!(still.get(at)?, b' ' | b'\t' | b'\n' | b'\r' | b'#') {
            at += match still[at] {
                b'#' => still[at..].iter().position(|&byte| byte == b'\n')? + 1,
                _ => 1,
            };
        }
        let digits = still[at..]
            .iter()
            .take_while(|byte| byte.is_ascii_digit())
            .count();
        *number = std::str::from_utf8(&still[at..at + digits])
            .ok()?
            .parse()
            .ok()?;
        at += digits;
    }
    Some((numbers, at + 1))
}

/// What was found in a refused still, in brackets; empty where nothing more can be said.
pub fn in_still(still: &[u8], refusal: Refusal) -> String {
    if refusal == Refusal::Magic {
        return match still.get(..2) {
            Some(magic) => format!(" (it begins with {})", magic.escape_ascii()),
            None => " (it has less than two bytes)".into(),
        };
    }
    let Some(([width, height, maximum], start)) = header(still) else {
        return String::new();
    };
    match refusal {
        Refusal::Side => format!(" (found {width} by {height})"),
        Refusal::Maximum => format!(" (found {maximum})"),
        Refusal::RasterShort | Refusal::RasterLong => format!(
            " (found {} bytes for {width} by {height})",
            still.len().saturating_sub(start)
        ),
        _ => String::new(),
    }
}
