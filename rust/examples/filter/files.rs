//! Files read up to a length, and written whole or not at all.
use crate::process;
use std::fs::{self, File, Metadata, OpenOptions, Permissions};
use std::io::{self, ErrorKind, Read, Write};
use std::os::unix::fs::{FileTypeExt, MetadataExt, OpenOptionsExt, PermissionsExt};
use std::path::{Path, PathBuf};

/// As many links as Linux follows.
const LINKS_MOST: u32 = 40;

/// The first `most` bytes of a file.
pub fn read(path: &Path, most: usize) -> io::Result<Vec<u8>> {
    let mut bytes = Vec::new();
    File::open(path)?
        .take(most as u64)
        .read_to_end(&mut bytes)?;
    Ok(bytes)
}

/// Whether two paths lead to one file.
pub fn same(one: &Path, other: &Path) -> bool {
    let identity = |path| fs::metadata(path).map(|file: Metadata| (file.dev(), file.ino()));
    matches!((identity(one), identity(other)), (Ok(a), Ok(b)) if a == b)
}

/// Whether a path leads to where standard output goes. A line printed there would be lost with the old file, or stand behind the samples;
/// a terminal and the like may have both.
pub fn takes_output(path: &Path) -> bool {
    let device = fs::metadata(path).is_ok_and(|file| file.file_type().is_char_device());
    !device && same(path, Path::new("/dev/stdout"))
}

/// Writes a file whole, or leaves it as it was. What is no file, such as a device or a pipe, is written to as it is.
pub fn write(path: &Path, bytes: &[u8]) -> io::Result<()> {
    match fs::metadata(path) {
        Ok(old) if old.is_file() => {
            process::unheeding(|| replace(&followed(path), Some(old.mode()), bytes))
        }
        Ok(_) => write_in_place(path, bytes),
        Err(error) if error.kind() == ErrorKind::NotFound => {
            process::unheeding(|| replace(&followed(path), None, bytes))
        }
        Err(error) => Err(error),
    }
}

/// Writes to a device or a pipe. A folder cannot be opened for it.
fn write_in_place(path: &Path, bytes: &[u8]) -> io::Result<()> {
    let mut place = OpenOptions::new().write(true).open(path)?;
    place.write_all(bytes)?;
    match place.sync_all() {
        Err(error) if error.kind() == ErrorKind::InvalidInput => {} // it keeps nothing back
        synced => synced?,
    }
    process::file_closed(place)
}

/// What a path names once links are followed, also where nothing is there yet.
fn followed(path: &Path) -> PathBuf {
    let mut place = path.to_path_buf();
    for _ in 0..LINKS_MOST {
        match fs::read_link(&place) {
            Ok(target) => place = folder(&place).join(target),
            Err(_) => break,
        }
    }
    place
}

/// Writes a new file and moves it over the old one of this mode, if there is one and it may be written to.
fn replace(place: &Path, old: Option<u32>, bytes: &[u8]) -> io::Result<()> {
    if old.is_some() {
        OpenOptions::new().write(true).open(place)?;
    }
    // one that takes the place of another is nobody else's to read before it has that one's permissions
    let (name, file) = new_beside(place, if old.is_some() { 0o600 } else { 0o666 })?;
    let done = fill(file, old, bytes).and_then(|()| fs::rename(&name, place));
    if done.is_err() {
        let _ = fs::remove_file(&name);
    }
    done
}

/// A new file in the folder of another, and its name.
fn new_beside(place: &Path, mode: u32) -> io::Result<(PathBuf, File)> {
    let mut options = OpenOptions::new();
    options.write(true).create_new(true).mode(mode);
    let mut count = 0;
    loop {
        let name = folder(place).join(format!(".hejslopi-{}-{count}", std::process::id()));
        match options.open(&name) {
            Err(error) if error.kind() == ErrorKind::AlreadyExists => count += 1,
            opened => return opened.map(|file| (name, file)),
        }
    }
}

/// Fills a new file, down to the disk, and closes it.
fn fill(mut file: File, old: Option<u32>, bytes: &[u8]) -> io::Result<()> {
    file.write_all(bytes)?;
    if let Some(mode) = old {
        file.set_permissions(Permissions::from_mode(mode & 0o777))?;
    }
    file.sync_all()?;
    process::file_closed(file)
}

/// The folder that a path's last name stands in.
fn folder(path: &Path) -> &Path {
    path.parent().unwrap_or(Path::new(""))
}
