//! Runs the command as a user would.

use std::ffi::OsStr;
use std::fs;
use std::io::Write;
use std::path::{Path, PathBuf};
use std::process::{Child, Command, Output, Stdio};

/// An empty folder for one test.
pub fn folder(name: &str) -> PathBuf {
    let folder = Path::new(env!("CARGO_TARGET_TMPDIR")).join(format!("sheet-{name}"));
    let _ = fs::remove_dir_all(&folder);
    fs::create_dir_all(&folder).unwrap();
    folder
}

pub fn names(folder: &Path) -> Vec<String> {
    let entries = fs::read_dir(folder).unwrap();
    let mut names: Vec<String> = entries
        .map(|entry| entry.unwrap().file_name().into_string().unwrap())
        .collect();
    names.sort();
    names
}

pub fn command<S: AsRef<OsStr>>(folder: &Path, words: impl IntoIterator<Item = S>) -> Command {
    let mut command = Command::new(env!("CARGO_BIN_EXE_sheet"));
    command.current_dir(folder).args(words).stdin(Stdio::null());
    command
}

/// The command with a pipe to its standard input, and what it prints kept.
pub fn waiting(folder: &Path, words: &str) -> Child {
    command(folder, words.split_whitespace())
        .stdin(Stdio::piped())
        .stdout(Stdio::piped())
        .stderr(Stdio::piped())
        .spawn()
        .unwrap()
}

/// Gives it its whole input and waits for its end.
pub fn fed(mut child: Child, input: &[u8]) -> Output {
    // It may end before it has read all.
    let _ = child.stdin.take().unwrap().write_all(input);
    child.wait_with_output().unwrap()
}

/// Runs with words separated by spaces and gives what was printed.
pub fn printed(folder: &Path, words: &str) -> String {
    let output = command(folder, words.split_whitespace()).output().unwrap();
    let errors = String::from_utf8(output.stderr).unwrap();
    assert!(output.status.success(), "{words}: {errors}");
    assert_eq!(errors, "", "{words}");
    String::from_utf8(output.stdout).unwrap()
}

/// What `--lists` writes of a sheet.
pub fn form(folder: &Path, words: &str) -> String {
    printed(folder, &format!("--lists lists {words}"));
    fs::read_to_string(folder.join("lists")).unwrap()
}

/// The part of it behind the costs: the blocks.
pub fn blocks(folder: &Path, words: &str) -> String {
    let form = form(folder, words);
    let (_, costs) = form.split_once("\ncosts\n").unwrap();
    costs.split_inclusive('\n').skip(43).collect()
}

/// The summary's value for a name.
pub fn value(summary: &str, name: &str) -> String {
    let found = summary
        .lines()
        .find_map(|line| line.strip_prefix(&format!("{name:16}  ")));
    found
        .unwrap_or_else(|| panic!("no {name} in\n{summary}"))
        .to_string()
}

/// A run that must fail: status 1, one line on standard error that holds `reason`, nothing else
/// printed, and the folder as it was.
pub fn refused(folder: &Path, words: &str, reason: &str) {
    let before = names(folder);
    let output = command(folder, words.split_whitespace()).output().unwrap();
    let errors = String::from_utf8(output.stderr).unwrap();
    assert_eq!(output.status.code(), Some(1), "{words}: {errors}");
    assert_eq!(errors.lines().count(), 1, "{words}: {errors}");
    assert!(errors.starts_with("sheet: "), "{words}: {errors}");
    assert!(errors.contains(reason), "{words}: {errors}");
    assert!(output.stdout.is_empty(), "{words}");
    assert_eq!(names(folder), before, "{words}");
}

pub fn pgm(
    width: usize,
    height: usize,
    maxval: u16,
    sample: impl Fn(usize, usize) -> u16,
) -> Vec<u8> {
    let mut bytes = format!("P5\n{width} {height}\n{maxval}\n").into_bytes();
    for y in 0..height {
        for x in 0..width {
            let pair = sample(x, y).to_be_bytes();
            bytes.extend(&pair[usize::from(maxval < 256)..]);
        }
    }
    bytes
}

/// Three blocks of side 16: two colours, one level, and 256 levels.
pub fn three_blocks(x: usize, y: usize) -> u16 {
    match x / 16 {
        0 => [20, 10, 10, 10, 10][(x + y) % 5],
        1 => 200,
        _ => (x % 16 + 16 * y) as u16,
    }
}

/// Bars at a slant, in six levels.
pub fn bars(x: usize, y: usize) -> u16 {
    (40 * ((x + 2 * y) / 7 % 6)) as u16
}

pub fn zero_costs(folder: &Path, count: usize) {
    fs::write(
        folder.join("costs"),
        "0 0.0\n".repeat(count / 2) + &"0\n".repeat(count % 2),
    )
    .unwrap();
}
