//! filter STILL RECIPE OUT: filters a still by a recipe into OUT and prints `ok W H channels T`, or `no N` with the reason on standard
//! error. It ends with 0 when done, with 1 when the library refuses, and with 2 when it is called wrongly or when a file or standard
//! output fails. OUT is written whole, or left as it was.
//! The lent buffers are as long as the picture needs, so it takes stills of up to 8,192 by 8,192.
mod files;
mod found;
mod process;

use hejslopi::Refusal;
use std::ffi::{OsStr, OsString};
use std::fs::File;
use std::io::{self, Write};
use std::os::fd::AsFd;
use std::os::unix::ffi::OsStrExt;
use std::process::ExitCode;

/// The largest raster, with a mebibyte for a header and its comments.
const STILL_MOST: usize = 8192 * 8192 * 3 + (1 << 20);

/// No accepted recipe is longer than 2,521 bytes, so what stands behind these cannot change the answer.
const RECIPE_MOST: usize = 65_536;

/// Why OUT was not written: the number to print, the line for standard error, and the exit status.
struct Failure {
    number: u32,
    line: Vec<u8>,
    status: u8,
}

impl Failure {
    /// The library refuses a file, for what was found there.
    fn refused(file: &OsStr, refusal: Refusal, found: &str) -> Failure {
        let number = refusal.number();
        Failure {
            number,
            line: about(file, &format!("refused with {number}: {refusal}{found}")),
            status: 1,
        }
    }

    /// There is no memory for a still.
    fn unheld(file: &OsStr) -> Failure {
        Failure {
            number: Refusal::Room.number(),
            line: about(file, "there is not enough memory"),
            status: 2,
        }
    }

    /// A file cannot be read.
    fn unread(file: &OsStr, reason: &str) -> Failure {
        Failure::of_file(file, &format!("cannot be read: {reason}"))
    }

    /// A file cannot be written.
    fn unwritten(file: &OsStr, reason: &str) -> Failure {
        Failure::of_file(file, &format!("cannot be written: {reason}"))
    }

    /// The number and the status of both.
    fn of_file(file: &OsStr, words: &str) -> Failure {
        Failure {
            number: Refusal::FileUnread.number(),
            line: about(file, words),
            status: 2,
        }
    }
}

fn main() -> ExitCode {
    if process::stdout_was_closed() {
        return stopped(b"filter: standard output is closed");
    }
    let arguments: Vec<OsString> = std::env::args_os().skip(1).collect();
    let [still, recipe, out] = &arguments[..] else {
        return stopped(b"usage: filter STILL RECIPE OUT");
    };
    if files::same(recipe.as_ref(), out.as_ref()) {
        return stopped(&about(out, "is the recipe, which would be lost"));
    }
    if files::takes_output(out.as_ref()) {
        return stopped(&about(
            out,
            "is where standard output goes, and the line with it",
        ));
    }
    let done = filtered(still, recipe, out);
    let line = match &done {
        Ok(line) => line.clone(),
        Err(failure) => format!("no {}", failure.number),
    };
    if let Err(error) = print(&line) {
        let reason = reason(&error);
        return stopped(format!("filter: standard output cannot be written: {reason}").as_bytes());
    }
    match done {
        Ok(_) => ExitCode::SUCCESS,
        Err(failure) => {
            complain(&failure.line);
            ExitCode::from(failure.status)
        }
    }
}

/// Filters STILL by RECIPE into OUT: the line to print.
fn filtered(still: &OsStr, recipe: &OsStr, out: &OsStr) -> Result<String, Failure> {
    let read = |path: &OsStr, most| {
        files::read(path.as_ref(), most).map_err(|error| Failure::unread(path, &reason(&error)))
    };
    let picture = read(still, STILL_MOST + 1)?;
    if picture.len() > STILL_MOST {
        return Err(Failure::unread(
            still,
            "it is longer than 202,375,168 bytes",
        ));
    }
    let stages = read(recipe, RECIPE_MOST)?;
    let file =
        hejslopi::filter_file(&stages, &picture).map_err(|refusal| match refusal.number() {
            10..=18 => Failure::refused(recipe, refusal, &found::in_recipe(&stages, refusal)),
            _ if refusal == Refusal::Room => Failure::unheld(still),
            _ => Failure::refused(still, refusal, &found::in_still(&picture, refusal)),
        })?;
    files::write(out.as_ref(), &file.bytes)
        .map_err(|error| Failure::unwritten(out, &reason(&error)))?;
    Ok(format!(
        "ok {} {} {} {}",
        file.width, file.height, file.channels, file.tolerance
    ))
}

/// One line about a file. Its path is shown as it was typed, but for control bytes, which could make more lines of it.
fn about(file: &OsStr, words: &str) -> Vec<u8> {
    let shown = |&byte: &u8| if byte.is_ascii_control() { b'?' } else { byte };
    let path: Vec<u8> = file.as_bytes().iter().map(shown).collect();
    [b"filter: ", &path[..], b": ", words.as_bytes()].concat()
}

/// What the system says of an error, without its number.
fn reason(error: &io::Error) -> String {
    let text = error.to_string();
    let number = format!(" (os error {})", error.raw_os_error().unwrap_or(0));
    text.strip_suffix(&number).unwrap_or(&text).to_string()
}

/// One line to standard output, by its descriptor: `Stdout` itself hides that it cannot be written to if it is open for reading only.
fn print(line: &str) -> io::Result<()> {
    let mut output = File::from(io::stdout().as_fd().try_clone_to_owned()?);
    output.write_all(format!("{line}\n").as_bytes())
}

/// One line to standard error. If that fails too, there is nobody to tell.
fn complain(line: &[u8]) {
    let _ = io::stderr().write_all(&[line, b"\n"].concat());
}

/// Ends without a line on standard output.
fn stopped(line: &[u8]) -> ExitCode {
    complain(line);
    ExitCode::from(2)
}
