//! A program of ours, run anew on each text.

use std::io::{self, Read, Write};
use std::path::{Path, PathBuf};
use std::process::{ChildStdin, Command, ExitStatus, Stdio};
use std::thread;

const CRATES: &str = "../../crates";

/// What a run came to.
pub struct Ran {
    pub printed: Vec<u8>,
    pub status: ExitStatus,
}

/// The program that the variable names, else the one that `rt run` leaves in the crate.
pub fn find(name: &str, variable: &str) -> Result<PathBuf, String> {
    let crates = PathBuf::from(env!("CARGO_MANIFEST_DIR")).join(CRATES);
    let built = crates.join(name).join("out").join(name);
    let program = std::env::var(variable).map_or(built, PathBuf::from);
    program.canonicalize().map_err(|e| {
        format!("no program {name} ({e}): `rt run` in crates/{name} builds it, or set {variable}")
    })
}

/// Hands a text over in pieces, from a thread of its own, as a program may print before it has
/// read all. After each piece `watch` gets the process's number; the input is still open then.
pub fn run<'a>(
    program: &Path,
    pieces: impl Iterator<Item = &'a [u8]> + Send,
    watch: impl Fn(u32) + Send,
) -> io::Result<Ran> {
    let mut child = Command::new(program)
        .stdin(Stdio::piped())
        .stdout(Stdio::piped())
        .spawn()?;
    let id = child.id();
    let input = child.stdin.take().expect("piped");
    let mut output = child.stdout.take().expect("piped");
    let mut printed = vec![];
    let (written, read) = thread::scope(|scope| {
        let writer = scope.spawn(move || write(input, pieces, || watch(id)));
        let read = output.read_to_end(&mut printed);
        (writer.join().expect("the writing broke off"), read)
    });
    let status = child.wait()?;
    written.and(read)?;
    Ok(Ran { printed, status })
}

/// A program that has read enough may end before all of a text is written.
fn write<'a>(
    mut input: ChildStdin,
    pieces: impl Iterator<Item = &'a [u8]>,
    watch: impl Fn(),
) -> io::Result<()> {
    for piece in pieces {
        match input.write_all(piece) {
            Err(e) if e.kind() == io::ErrorKind::BrokenPipe => return Ok(()),
            result => result?,
        }
        watch();
    }
    Ok(())
}
