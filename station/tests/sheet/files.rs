//! Files are written whole or not at all.

use crate::command::{bars, blocks, command, fed, folder, names, pgm, printed, refused, waiting};
use std::fs;
use std::io::Write;
use std::path::Path;

#[test]
fn files_that_cannot_be_written() {
    let folder = folder("unwritable");
    fs::write(folder.join("a.pgm"), pgm(20, 20, 255, bars)).unwrap();
    fs::create_dir(folder.join("taken")).unwrap();
    for option in ["--lists", "--picture", "--report"] {
        for path in ["absent/file", "taken", "a.pgm/file", ".."] {
            refused(&folder, &format!("a.pgm {option} {path}"), "cannot write");
        }
    }
    refused(&folder, "--sample taken", "cannot write");
    // What could only fail at the end, with the lists already there.
    let long = "n".repeat(256);
    for path in ["", "new/", "new/.", "taken/", &long] {
        for lists in ["-", "lists"] {
            let output = command(&folder, ["a.pgm", "--lists", lists, "--picture", path]);
            let output = { output }.output().unwrap();
            assert_eq!(output.status.code(), Some(1), "{path:?}");
            assert!(output.stdout.is_empty(), "{path:?}");
            assert_eq!(names(&folder), ["a.pgm", "taken"], "{path:?}");
        }
    }
    refused(&folder, "a.pgm --lists -/", "cannot write");
    refused(
        &folder,
        "a.pgm --lists good --picture absent/p",
        "cannot write",
    );
    refused(
        &folder,
        "a.pgm --report good --picture absent/p",
        "cannot write",
    );
}

#[test]
fn a_failed_run_leaves_the_old_file() {
    let folder = folder("old-file");
    fs::write(folder.join("a.pgm"), "P5 1 1 255 ").unwrap();
    fs::write(folder.join("lists"), "old").unwrap();
    for option in ["--lists", "--report"] {
        refused(
            &folder,
            &format!("a.pgm {option} lists"),
            "cut off in row 0",
        );
        assert_eq!(fs::read(folder.join("lists")).unwrap(), b"old");
    }
    fs::write(folder.join("a.pgm"), "P5 1 1 255 x").unwrap();
    assert_eq!(blocks(&folder, "a.pgm"), "       0       8\n78\n");
    assert_eq!(names(&folder), ["a.pgm", "lists"]);
}

/// The files that a killed run of the same process number would leave are there when the run
/// comes to write.
#[test]
fn parts_that_a_killed_run_left_are_no_hindrance() {
    let folder = folder("stale-parts");
    let bytes = pgm(400, 400, 255, bars);
    let (first, rest) = bytes.split_at(150_000);
    let mut child = waiting(&folder, "- --lists lists --picture picture --report report");
    // More than a pipe holds: it is reading, and has tried its files before.
    child.stdin.as_mut().unwrap().write_all(first).unwrap();
    // As it names them, and as it did when the name was the target's.
    let (id, targets) = (child.id(), ["lists", "picture", "report"]);
    let numbered = (0..3).map(|tries| format!(".sheet.{id}.{tries}.part"));
    let named = targets.map(|target| format!(".{target}.{id}.part"));
    let mut all: Vec<String> = numbered.chain(named).collect();
    for name in &all {
        fs::write(folder.join(name), "left").unwrap();
    }
    let output = fed(child, rest);
    let errors = String::from_utf8(output.stderr).unwrap();
    assert!(output.status.success(), "{errors}");
    all.extend(targets.map(String::from));
    all.sort();
    assert_eq!(names(&folder), all);
}

#[cfg(unix)]
fn mode(path: &Path) -> u32 {
    use std::os::unix::fs::PermissionsExt;
    fs::metadata(path).unwrap().permissions().mode() & 0o7777
}

#[cfg(unix)]
#[test]
fn a_replaced_file_keeps_its_mode() {
    use std::os::unix::fs::PermissionsExt;
    let folder = folder("modes");
    fs::write(folder.join("a.pgm"), pgm(20, 20, 255, bars)).unwrap();
    printed(&folder, "a.pgm --lists new");
    fs::write(folder.join("plain"), "").unwrap();
    assert_eq!(mode(&folder.join("new")), mode(&folder.join("plain")));
    for bits in [0o600, 0o640, 0o666, 0o400] {
        let path = folder.join("lists");
        fs::write(&path, "old").unwrap();
        fs::set_permissions(&path, fs::Permissions::from_mode(bits)).unwrap();
        printed(&folder, "a.pgm --lists lists");
        assert_eq!(mode(&path), bits, "{bits:o}");
        assert_eq!(
            fs::read(&path).unwrap(),
            fs::read(folder.join("new")).unwrap()
        );
        fs::remove_file(&path).unwrap();
    }
}

/// A link that leads to a file is followed; one that leads nowhere is left as it is.
#[cfg(unix)]
#[test]
fn links_to_files() {
    use std::os::unix::fs::symlink;
    let folder = folder("links");
    fs::write(folder.join("a.pgm"), pgm(20, 20, 255, bars)).unwrap();
    fs::write(folder.join("old"), "old").unwrap();
    symlink("old", folder.join("link")).unwrap();
    symlink("nowhere", folder.join("loose")).unwrap();
    printed(&folder, "a.pgm --lists link");
    assert!(fs::symlink_metadata(folder.join("link"))
        .unwrap()
        .is_symlink());
    assert!(fs::read(folder.join("old"))
        .unwrap()
        .starts_with(b"palette-sheet"));
    refused(&folder, "a.pgm --lists loose", "not a plain file");
    symlink("a.pgm", folder.join("scan")).unwrap();
    refused(&folder, "a.pgm --lists scan", "used twice");
}

/// What standard input or output is redirected to is no place for another output.
#[cfg(target_os = "linux")]
#[test]
fn files_behind_the_standard_streams_stay() {
    let folder = folder("streams");
    let scan = pgm(20, 20, 255, bars);
    fs::write(folder.join("a.pgm"), &scan).unwrap();
    for lists in ["a.pgm", "/dev/stdin"] {
        let mut run = command(&folder, ["-", "--lists", lists]);
        run.stdin(fs::File::open(folder.join("a.pgm")).unwrap());
        assert_eq!(run.output().unwrap().status.code(), Some(1), "{lists}");
        assert_eq!(fs::read(folder.join("a.pgm")).unwrap(), scan, "{lists}");
    }
    for lists in ["log", "/dev/stdout"] {
        fs::write(folder.join("log"), "kept\n").unwrap();
        let log = fs::OpenOptions::new().append(true).open(folder.join("log"));
        let mut run = command(&folder, ["a.pgm", "--lists", lists]);
        let output = run.stdout(log.unwrap()).output().unwrap();
        assert_eq!(output.status.code(), Some(1), "{lists}");
        assert_eq!(fs::read(folder.join("log")).unwrap(), b"kept\n", "{lists}");
    }
}

#[test]
fn a_long_name_leaves_room_for_the_part() {
    let folder = folder("long-name");
    fs::write(folder.join("a.pgm"), pgm(20, 20, 255, bars)).unwrap();
    let name = "n".repeat(255);
    printed(&folder, &format!("a.pgm --lists {name}"));
    assert_eq!(names(&folder), ["a.pgm", &name]);
}

#[test]
fn lists_on_standard_output_and_the_summary_beside_it() {
    let folder = folder("lists-printed");
    let bytes = pgm(100, 70, 255, bars);
    fs::write(folder.join("a.pgm"), &bytes).unwrap();
    let summary = printed(&folder, "a.pgm --lists lists");
    let lists = fs::read(folder.join("lists")).unwrap();
    let given = command(&folder, ["a.pgm", "--lists", "-", "--picture", "p"]);
    let piped = fed(waiting(&folder, "- --lists -"), &bytes);
    for output in [{ given }.output().unwrap(), piped] {
        assert!(output.status.success());
        assert!(output.stdout == lists);
        let errors = String::from_utf8(output.stderr).unwrap();
        // All but what tells the time.
        assert_eq!(errors.lines().count(), summary.lines().count());
        let same = |(a, b): (&str, &str)| a == b;
        assert!(
            errors.lines().zip(summary.lines()).take(10).all(same),
            "{errors}"
        );
    }
    assert_eq!(names(&folder), ["a.pgm", "lists", "p"]);
}

/// Nothing takes its place where the lists or the summary cannot be printed.
#[cfg(target_os = "linux")]
#[test]
fn a_full_standard_output_leaves_no_file() {
    let folder = folder("full");
    fs::write(folder.join("a.pgm"), pgm(100, 70, 255, bars)).unwrap();
    for lists in ["-", "lists"] {
        check_full(&folder, lists);
    }
}

#[cfg(target_os = "linux")]
fn check_full(folder: &Path, lists: &str) {
    let full = fs::OpenOptions::new()
        .write(true)
        .open("/dev/full")
        .unwrap();
    let words = format!("a.pgm --lists {lists} --picture p --report r");
    let output = command(folder, words.split_whitespace())
        .stdout(full)
        .output()
        .unwrap();
    assert_eq!(output.status.code(), Some(1));
    assert!(String::from_utf8(output.stderr)
        .unwrap()
        .starts_with("sheet: cannot print"));
    assert_eq!(names(folder), ["a.pgm"]);
}
