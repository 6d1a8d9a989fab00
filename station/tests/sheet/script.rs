//! The script `sheet` at the repository's top, on a small repository with commands of its own.
#![cfg(unix)]

use crate::command::folder;
use std::fs::{self, File};
use std::os::unix::fs::{symlink, PermissionsExt};
use std::path::{Path, PathBuf};
use std::process::{Command, Output, Stdio};
use std::thread;
use std::time::Duration;

/// Says what the kit's command says, many lines a crate, keeps work in the crates' folders, and
/// writes the archive to that of its own. It reads what it can get, as no command of a build should.
const RT: &str = r#"#!/bin/sh
echo "rt $* in crates/${PWD##*/}" >>"$CALLS"
cat >/dev/null
proved() {
    echo "rt: chose --jobs 2 for $1" >&2
    echo "fn $1::one: proved"
    echo "library std: modules loaded=1 checked=0"
    echo "crate $1: modules loaded=0 checked=1"
    echo "logic=proved functions=1"
}
echo "only=0 proved=0"
for crate in lists counts; do
    proved $crate
    mkdir -p ../$crate/out
done
if [ -n "$RT_EDITS" ]; then sleep 0.02; echo edited >../lists/src/lib; sleep 0.02; fi
if [ -n "$RT_FAILS" ]; then echo "crate station: not proved"; exit 1; fi
mkdir -p out
if [ -n "$RT_DIES" ]; then echo half >out/libstation.a; kill -9 $$; fi
date +%s%N >out/libstation.a
proved station
"#;

/// Makes the command: a script that says the archive it was made of, its arguments and its input.
const CARGO: &str = r#"#!/bin/sh
echo "cargo $1" >>"$CALLS"
cat >/dev/null
mkdir -p target/release
printf '#!/bin/sh\necho "%s: $*"\ncat\n' "$(cat "$STATION_LIB/libstation.a")" >target/release/sheet
chmod +x target/release/sheet
"#;

struct Repository {
    folder: PathBuf,
}

impl Repository {
    fn new(name: &str) -> Repository {
        let folder = folder(name);
        let script = Path::new(env!("CARGO_MANIFEST_DIR")).join("../sheet");
        for part in [
            "top/crates/lists/src",
            "top/crates/station/src",
            "top/station/src",
            "bin",
        ] {
            fs::create_dir_all(folder.join(part)).unwrap();
        }
        fs::copy(script, folder.join("top/sheet")).unwrap();
        for (path, text) in [
            (
                "top/crates.txt",
                "lists:\ncounts: lists\nstation staticlib: lists counts\nworked: lists\n",
            ),
            ("top/crates/lists/src/lib", ""),
            ("top/station/src/lib.rs", ""),
            ("top/station/Cargo.toml", ""),
            ("top/station/build.rs", ""),
            ("calls", ""),
        ] {
            fs::write(folder.join(path), text).unwrap();
        }
        for (name, text) in [("rt", RT), ("cargo", CARGO)] {
            let path = folder.join("bin").join(name);
            fs::write(&path, text).unwrap();
            fs::set_permissions(&path, fs::Permissions::from_mode(0o755)).unwrap();
        }
        Repository { folder }
    }

    fn command(&self, script: &str) -> Command {
        let own = self.folder.join("bin").into_os_string();
        let mut path = own;
        path.push(":/usr/bin:/bin");
        let mut command = Command::new(self.folder.join(script));
        command
            .args(["--side", "8"])
            .env("PATH", path)
            .env("CALLS", self.folder.join("calls"))
            .stdin(Stdio::null())
            .current_dir("/");
        command
    }

    /// Runs the script and gives what it says, with the commands that it called.
    fn run(&self, script: &str) -> (String, String, Vec<String>) {
        // Files get times that differ.
        thread::sleep(Duration::from_millis(20));
        fs::write(self.folder.join("calls"), "").unwrap();
        let output = self.command(script).output().unwrap();
        assert!(output.status.success(), "{output:?}");
        let calls = fs::read_to_string(self.folder.join("calls")).unwrap();
        let calls = calls.lines().map(String::from).collect();
        (text(output.stdout), text(output.stderr), calls)
    }

    fn write(&self, path: &str) {
        thread::sleep(Duration::from_millis(20));
        fs::write(self.folder.join(path), "changed").unwrap();
    }
}

fn text(bytes: Vec<u8>) -> String {
    String::from_utf8(bytes).unwrap()
}

const BOTH: [&str; 2] = ["rt lib in crates/station", "cargo build"];

#[test]
fn the_first_build_says_one_line_a_crate() {
    let repository = Repository::new("script-first");
    let (printed, errors, calls) = repository.run("top/sheet");
    assert_eq!(calls, BOTH);
    assert!(printed.ends_with(": --side 8\n"), "{printed}");
    let lines: Vec<&str> = errors.lines().collect();
    assert!(lines[0].starts_with("sheet: proving and building the library"));
    assert_eq!(
        lines[1..],
        [
            "sheet: lists proved, 1 of 3",
            "sheet: counts proved, 2 of 3",
            "sheet: station proved, 3 of 3"
        ]
    );
}

#[test]
fn what_is_current_is_not_built_again() {
    let repository = Repository::new("script-current");
    let (first, ..) = repository.run("top/sheet");
    for _ in 0..2 {
        let (printed, errors, calls) = repository.run("top/sheet");
        assert_eq!((printed.as_str(), errors.as_str()), (first.as_str(), ""));
        assert!(calls.is_empty(), "{calls:?}");
    }
}

#[test]
fn a_change_in_a_crate_builds_the_library_again() {
    let repository = Repository::new("script-changed");
    let (mut before, ..) = repository.run("top/sheet");
    let changes: [&dyn Fn(); 4] = [
        &|| repository.write("top/crates/lists/src/lib"),
        &|| repository.write("top/crates/lists/src/new.rt"),
        &|| fs::remove_file(repository.folder.join("top/crates/lists/src/new.rt")).unwrap(),
        &|| repository.write("top/crates.txt"),
    ];
    for (place, change) in changes.into_iter().enumerate() {
        change();
        let (printed, _, calls) = repository.run("top/sheet");
        assert_eq!(calls, BOTH, "change {place}");
        assert_ne!(printed, before, "change {place}");
        before = printed;
    }
    repository.write("top/station/src/lib.rs");
    let (_, errors, calls) = repository.run("top/sheet");
    assert_eq!((errors.as_str(), calls), ("", vec![BOTH[1].to_string()]));
}

/// What is built keeps its own time, by which cargo tells that the command is to be linked again.
#[test]
fn a_change_while_it_is_built_is_not_lost() {
    let repository = Repository::new("script-meanwhile");
    let output = repository
        .command("top/sheet")
        .env("RT_EDITS", "1")
        .output();
    assert!(output.unwrap().status.success());
    let time = |path: &str| {
        let path = repository.folder.join("top").join(path);
        fs::metadata(path).unwrap().modified().unwrap()
    };
    assert!(time("target/staticlib/libstation.a") > time("crates/lists/src/lib"));
    let (.., calls) = repository.run("top/sheet");
    assert_eq!(calls, BOTH);
    let (.., calls) = repository.run("top/sheet");
    assert!(calls.is_empty(), "{calls:?}");
}

#[test]
fn standard_input_is_the_commands() {
    let repository = Repository::new("script-input");
    fs::write(repository.folder.join("scan"), "a scan\n").unwrap();
    let scan = File::open(repository.folder.join("scan")).unwrap();
    let output = repository.command("top/sheet").stdin(scan).output();
    let printed = text(output.unwrap().stdout);
    assert!(printed.ends_with(": --side 8\na scan\n"), "{printed}");
}

#[test]
fn a_symbolic_link_finds_its_folder() {
    let repository = Repository::new("script-link");
    let (first, ..) = repository.run("top/sheet");
    let at = |path: &str| repository.folder.join(path);
    fs::create_dir(at("links")).unwrap();
    symlink(at("top/sheet"), at("links/far")).unwrap();
    symlink("../top/sheet", at("links/near")).unwrap();
    symlink("near", at("links/twice")).unwrap();
    symlink("top", at("linked-folder")).unwrap();
    fs::create_dir_all(at("deep/er")).unwrap();
    symlink("../../top/sheet", at("deep/er/sheet")).unwrap();
    symlink("deep/er", at("short")).unwrap();
    for script in [
        "short/sheet",
        "links/far",
        "links/near",
        "links/twice",
        "linked-folder/sheet",
    ] {
        let (printed, errors, calls) = repository.run(script);
        assert_eq!(
            (printed.as_str(), errors.as_str()),
            (first.as_str(), ""),
            "{script}"
        );
        assert!(calls.is_empty(), "{script}: {calls:?}");
    }
}

/// A run that must fail, and what it says.
fn failed(output: Output) -> String {
    assert_eq!(output.status.code(), Some(1), "{output:?}");
    assert!(output.stdout.is_empty(), "{output:?}");
    text(output.stderr)
}

#[test]
fn a_library_that_cannot_be_built_is_not_run() {
    let repository = Repository::new("script-fails");
    repository.run("top/sheet");
    repository.write("top/crates/lists/src/lib");
    for _ in 0..2 {
        let output = repository
            .command("top/sheet")
            .env("RT_FAILS", "1")
            .output();
        let errors = failed(output.unwrap());
        assert!(errors.contains("\ncrate station: not proved\n"), "{errors}");
        assert!(
            errors.ends_with("target/staticlib.log has all of it\n"),
            "{errors}"
        );
    }
    let log = repository.folder.join("top/target/staticlib.log");
    fs::remove_file(&log).unwrap();
    fs::create_dir(&log).unwrap();
    let output = repository
        .command("top/sheet")
        .env("RT_FAILS", "1")
        .output();
    failed(output.unwrap());
    fs::remove_dir(&log).unwrap();
    fs::remove_file(repository.folder.join("bin/rt")).unwrap();
    let errors = failed(repository.command("top/sheet").output().unwrap());
    assert!(errors.contains("`rt` is not on the PATH"), "{errors}");
}

#[test]
fn a_build_that_was_broken_off_is_done_again() {
    let repository = Repository::new("script-broken-off");
    let output = repository.command("top/sheet").env("RT_DIES", "1").output();
    failed(output.unwrap());
    let (printed, _, calls) = repository.run("top/sheet");
    assert_eq!(calls, BOTH);
    assert!(!printed.contains("half"), "{printed}");
    // Nothing is newer than the build before, whose archive is gone.
    fs::remove_file(repository.folder.join("top/target/staticlib/libstation.a")).unwrap();
    let output = repository.command("top/sheet").env("RT_DIES", "1").output();
    failed(output.unwrap());
    let (printed, _, calls) = repository.run("top/sheet");
    assert_eq!(calls, BOTH);
    assert!(!printed.contains("half"), "{printed}");
    let names = fs::read_dir(repository.folder.join("top/target")).unwrap();
    assert_eq!(names.count(), 4, "log, archive and two stamps");
}
