//! Files and standard streams: read whole, written whole, and a word where that cannot be.

use crate::args::Source;
use crate::failure::Failure;
use std::fs::{self, File, Metadata, OpenOptions};
use std::io::{self, ErrorKind, IsTerminal, Read, Write};
use std::os::unix::fs::MetadataExt;
use std::path::{Path, PathBuf};
use std::sync::atomic::{AtomicBool, Ordering};

/// The most bytes that are read: far more than the text of any plan has. A plan has at most 65,536.
pub const MOST: u64 = 1 << 24;

static INPUT_CLOSED: AtomicBool = AtomicBool::new(false);
static OUTPUT_CLOSED: AtomicBool = AtomicBool::new(false);

/// Notes which standard streams are closed, before Rust's own start puts /dev/null in their place, where nothing could be told any more: what is
/// read would be an empty plan, and what is written would be lost without a word.
#[used]
#[link_section = ".init_array"]
static NOTE_CLOSED: extern "C" fn() = {
    extern "C" {
        fn fcntl(stream: i32, command: i32, ...) -> i32;
    }
    const F_GETFD: i32 = 1;
    extern "C" fn note() {
        // SAFETY: fcntl with F_GETFD takes any number and touches no memory. The C library is ready when it runs these functions.
        let closed = |stream| unsafe { fcntl(stream, F_GETFD) } < 0;
        INPUT_CLOSED.store(closed(0), Ordering::Relaxed);
        OUTPUT_CLOSED.store(closed(1), Ordering::Relaxed);
    }
    note
};

/// All bytes of a file or of standard input.
pub fn read(source: &Source) -> Result<Vec<u8>, Failure> {
    let name = source.name();
    let failed = |fault: io::Error| Failure::refused(format!("{name} cannot be read: {}", words(&fault)));
    let mut bytes = Vec::new();
    let read = match source {
        Source::File(path) => File::open(path).map_err(failed)?.take(MOST + 1).read_to_end(&mut bytes),
        Source::Input if INPUT_CLOSED.load(Ordering::Relaxed) => {
            return Err(Failure::refused("standard input is closed"))
        }
        Source::Input => io::stdin().lock().take(MOST + 1).read_to_end(&mut bytes),
    };
    read.map_err(failed)?;
    if bytes.len() as u64 > MOST {
        return Err(Failure::refused(format!("{name} is longer than {MOST} bytes: it is no plan and no text of one")));
    }
    Ok(bytes)
}

/// Whether a file to write is the one that is read: then what was read would be lost.
pub fn is_source(to: &Path, source: &Source) -> bool {
    let from = match source {
        Source::File(path) => path,
        Source::Input => Path::new("/dev/stdin"),
    };
    let file = |path| fs::metadata(path).ok().filter(Metadata::is_file).map(|file| (file.dev(), file.ino()));
    file(from).is_some() && file(from) == file(to)
}

/// Whether standard input is a terminal, where a reader would seem to hang.
pub fn input_is_terminal() -> bool {
    !INPUT_CLOSED.load(Ordering::Relaxed) && io::stdin().is_terminal()
}

/// Whether standard output is a terminal, which shows no plan.
pub fn output_is_terminal() -> bool {
    !OUTPUT_CLOSED.load(Ordering::Relaxed) && io::stdout().is_terminal()
}

/// Writes all bytes to a file, or to standard output.
pub fn write(to: Option<&Path>, bytes: &[u8]) -> Result<(), Failure> {
    match to {
        Some(path) => write_file(path, bytes),
        None if OUTPUT_CLOSED.load(Ordering::Relaxed) => Err(Failure::refused("standard output is closed")),
        None => {
            let mut output = io::stdout().lock();
            let written = output.write_all(bytes).and_then(|()| output.flush());
            written.map_err(|fault| Failure::refused(format!("standard output cannot be written: {}", words(&fault))))
        }
    }
}

/// Writes a file whole, or leaves what stood there, or none: a part of a plan may look like a plan. A link stays, and what it names is written.
fn write_file(path: &Path, bytes: &[u8]) -> Result<(), Failure> {
    let failed =
        |fault: io::Error| Failure::refused(format!("{} cannot be written: {}", path.display(), words(&fault)));
    // Opened, though it is replaced: what may not be written stays as it is.
    let standing = match OpenOptions::new().write(true).open(path) {
        Ok(file) => Some(file),
        Err(fault) if fault.kind() == ErrorKind::NotFound => None,
        Err(fault) => return Err(failed(fault)),
    };
    let named = end_of_links(path);
    match standing {
        // A device or a pipe; or a file without a name any more, which the system still shows as a link.
        Some(mut file) if !is_same(&file, &named) => file.write_all(bytes).map_err(failed),
        file => replace(&named, file.as_ref(), bytes).map_err(failed),
    }
}

/// What a path names, by its links. The last may name a file that is not there yet.
fn end_of_links(path: &Path) -> PathBuf {
    let mut path = path.to_path_buf();
    while let Ok(to) = fs::read_link(&path) {
        path = path.parent().unwrap_or(Path::new("")).join(to);
    }
    path
}

/// Whether an open file is a regular one, and the one of this name.
fn is_same(file: &File, named: &Path) -> bool {
    let id = |data: io::Result<Metadata>| data.ok().filter(Metadata::is_file).map(|data| (data.dev(), data.ino()));
    let id_of_open = id(file.metadata());
    id_of_open.is_some() && id_of_open == id(fs::metadata(named))
}

/// Writes beside a file and puts that in its place, with the rights that it had. Where this fails, only what was begun goes.
fn replace(named: &Path, standing: Option<&File>, bytes: &[u8]) -> io::Result<()> {
    let (mut file, begun) = begin(named)?;
    let rights = standing.map(|file| file.metadata().map(|data| data.permissions())).transpose();
    let done = rights
        .and_then(|rights| rights.map_or(Ok(()), |rights| file.set_permissions(rights)))
        .and_then(|()| file.write_all(bytes))
        // Some systems say only here that the disk is full.
        .and_then(|()| file.sync_all())
        .and_then(|()| fs::rename(&begun, named));
    if done.is_err() {
        // If this fails too, the words still say that nothing was written.
        let _ = fs::remove_file(&begun);
    }
    done
}

/// A new file in the same folder, under a name that is not taken.
fn begin(named: &Path) -> io::Result<(File, PathBuf)> {
    for number in 0.. {
        let begun = named.with_file_name(format!(".kartsodi-{}-{number}", std::process::id()));
        match OpenOptions::new().write(true).create_new(true).open(&begun) {
            Err(fault) if fault.kind() == ErrorKind::AlreadyExists => {}
            made => return made.map(|file| (file, begun)),
        }
    }
    unreachable!("there are more numbers than files")
}

/// What went wrong, without the system's number.
fn words(fault: &io::Error) -> String {
    let said = fault.to_string();
    said.split(" (os error").next().unwrap_or(&said).to_lowercase()
}
