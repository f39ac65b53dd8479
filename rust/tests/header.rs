//! The header, from C and from C++ where that is there.
mod compiled;

use compiled::{compiled, Language, C, CPP};
use hejslopi::Refusal;
use std::path::Path;
use std::process::Command;

/// What a program prints that ends with 0.
fn printed(program: &Path) -> String {
    let run = Command::new(program).output().unwrap();
    assert!(run.status.success(), "{}", program.display());
    String::from_utf8(run.stdout).unwrap()
}

/// C, and C++ if its compiler is there.
fn languages() -> impl Iterator<Item = Language> {
    [C, CPP]
        .into_iter()
        .filter(|l| l.name == C.name || l.is_there())
}

#[test]
fn a_program_in_c() {
    for language in languages() {
        let program = compiled(language, "rust/tests/c/example.c", "example");
        assert_eq!(printed(&program), "ok\n", "{}", language.name);
    }
}

#[test]
fn a_program_that_uses_nothing_of_the_header() {
    for language in languages() {
        assert_eq!(
            printed(&compiled(language, "rust/tests/c/unused.c", "unused")),
            ""
        );
    }
}

#[test]
fn meanings_are_the_words_of_refusals() {
    let meaning = |number| match (number, Refusal::from_number(number)) {
        (0, _) => "done".to_string(),
        (_, Some(refusal)) => refusal.to_string(),
        (_, None) => "unknown".to_string(),
    };
    let wanted: String = (0..100)
        .map(|number| format!("{number} {}\n", meaning(number)))
        .collect();
    for language in languages() {
        let program = compiled(language, "rust/tests/c/meanings.c", "meanings");
        assert_eq!(printed(&program), wanted, "{}", language.name);
    }
}
