//! A thousand files and command lines with something changed: each run ends in time, with the
//! status that is due, and says what it should.

use crate::command::{bars, command, folder, names, pgm, three_blocks};
use crate::common::{cases, Random};
use std::fs::{self, File};
use std::path::Path;
use std::process::{Command, Output, Stdio};
use std::thread;
use std::time::{Duration, Instant};

const LONGEST: Duration = Duration::from_secs(20);

fn scan(random: &mut Random) -> Vec<u8> {
    let (width, height) = (random.between(1, 50), random.between(1, 50));
    let maxval = [255, 256, 1000, 1023, 4095][random.between(0, 4)];
    match random.below(3) {
        0 => pgm(width, height, maxval, bars),
        1 => pgm(width, 16, maxval, |x, y| three_blocks(x, y).min(255)),
        _ => pgm(width, height, maxval, |x, y| {
            (x * 7919 + y * y * 31) as u16 % (maxval + 1)
        }),
    }
}

/// A change of the file, mostly near its front, where the header is.
fn mutated(random: &mut Random, mut bytes: Vec<u8>) -> Vec<u8> {
    for _ in 0..[0, 0, 1, 2][random.between(0, 3)] {
        let last = if random.below(3) == 0 {
            bytes.len()
        } else {
            bytes.len().min(16)
        };
        let place = random.between(0, last.saturating_sub(1));
        match random.below(7) {
            0 if place < bytes.len() => bytes[place] = random.below(256) as u8,
            1 if place < bytes.len() => drop(bytes.remove(place)),
            2 => bytes.insert(place, b"0123456789 \n#-P5\xff"[random.between(0, 16)]),
            3 => bytes.truncate(place),
            4 => bytes.extend_from_within(place..),
            5 => bytes.push(0),
            _ => bytes.splice(place..place, *b"# a remark\n").for_each(drop),
        }
    }
    bytes
}

/// The bytes that count in a header with the places behind them: no comments, but their ends.
fn without_remarks(bytes: &[u8]) -> Vec<(u8, usize)> {
    let mut in_remark = false;
    let mut plain = Vec::new();
    for (place, &byte) in bytes.iter().enumerate().skip(2) {
        in_remark = match byte {
            b'\n' | b'\r' => false,
            b'#' => true,
            _ => in_remark,
        };
        if !in_remark {
            plain.push((byte, place + 1));
        }
    }
    plain
}

/// Width, height and maxval, and where the samples begin.
fn header(bytes: &[u8]) -> Option<([u64; 3], usize)> {
    let plain = without_remarks(bytes);
    let is_space = |byte: u8| b" \t\n\r\x0b\x0c".contains(&byte);
    let mut rest = plain.iter().copied().peekable();
    rest.next_if(|&(byte, _)| is_space(byte))?;
    let mut numbers = [0; 3];
    let mut start = 0;
    for number in &mut numbers {
        while rest.next_if(|&(byte, _)| is_space(byte)).is_some() {}
        let mut digits = String::new();
        while let Some((digit, _)) = rest.next_if(|(byte, _)| byte.is_ascii_digit()) {
            digits.push(char::from(digit));
        }
        *number = digits.parse().ok()?;
        start = rest.next_if(|&(byte, _)| is_space(byte))?.1;
    }
    Some((numbers, start))
}

/// Whether bytes are a scan, judged by another working of the format.
fn is_scan(bytes: &[u8]) -> bool {
    let Some(([width, height, maxval], start)) = header(bytes) else {
        return false;
    };
    let raster = &bytes[start..];
    let wide = if maxval > 255 { 2 } else { 1 };
    let count = width.checked_mul(height).filter(|&count| count <= 1 << 30);
    let value = |sample: &[u8]| sample.iter().fold(0, |v, &byte| v << 8 | u64::from(byte));
    bytes.starts_with(b"P5")
        && (255..=4095).contains(&maxval)
        && count.is_some_and(|n| n > 0 && n * wide as u64 == raster.len() as u64)
        && raster.chunks(wide).all(|sample| value(sample) <= maxval)
}

/// What the options have written.
const FILES: [&str; 3] = ["l", "p", "r"];

/// Options with values that are in order, and with some that are not.
const OPTIONS: [(&str, &[&str], &[&str]); 8] = [
    (
        "--side",
        &["1", "5", "16", "64", "064", "+8"],
        &["0", "65", "-1", "8.0", "", "x"],
    ),
    (
        "--levels",
        &["2", "3", "16", "32"],
        &["1", "33", "0", "256", "two", "-"],
    ),
    (
        "--lambda",
        &["0", "60", "1048576", "1e3", "-0"],
        &["-1", "1e7", "nan", "inf", ""],
    ),
    (
        "--threads",
        &["1", "2", "256"],
        &["0", "257", "1.5", "999999999999999999999"],
    ),
    (
        "--costs",
        &["costs", "./costs"],
        &["absent", "a.pgm", ".", "few", "high"],
    ),
    ("--lists", &["l", "./l", "-"], &["absent/l", ".", "costs/l"]),
    ("--picture", &["p"], &["absent/p", "..", "-"]),
    ("--report", &["r", "./r"], &["absent/r", "few/r", "-"]),
];

/// Words for the command line, and whether they are in order.
fn options(random: &mut Random) -> (Vec<String>, bool) {
    let mut words = Vec::new();
    let mut good = true;
    for (name, right, wrong) in OPTIONS {
        let (values, known) = match random.below(40) {
            0..=19 => continue,
            20..=38 => (right, true),
            _ => (wrong, false),
        };
        words.extend([name, values[random.between(0, values.len() - 1)]].map(String::from));
        good &= known;
    }
    match random.below(40) {
        0 => words.push("--sides".to_string()),
        1 => words.push("--side".to_string()),
        2 => words.push("b.pgm".to_string()),
        3 => words.extend(["--sample", "s"].map(String::from)),
        _ => return (words, good),
    }
    (words, false)
}

/// Runs to the end, but not for ever.
fn ended(mut command: Command) -> Output {
    let mut child = command
        .stdout(Stdio::piped())
        .stderr(Stdio::piped())
        .spawn()
        .unwrap();
    let reading = [
        child
            .stdout
            .take()
            .map(|out| thread::spawn(move || std::io::read_to_string(out))),
        child
            .stderr
            .take()
            .map(|out| thread::spawn(move || std::io::read_to_string(out))),
    ];
    let start = Instant::now();
    let status = loop {
        match child.try_wait().unwrap() {
            Some(status) => break status,
            None if start.elapsed() > LONGEST => {
                child.kill().unwrap();
                panic!("no end in {LONGEST:?}: {command:?}");
            }
            None => thread::sleep(Duration::from_millis(1)),
        }
    };
    let [stdout, stderr] = reading.map(|text| text.unwrap().join().unwrap().unwrap().into_bytes());
    Output {
        status,
        stdout,
        stderr,
    }
}

/// What a run may leave and say, by its status.
fn check(folder: &Path, words: &[String], due: bool, output: &Output, before: &[String]) {
    let errors = String::from_utf8_lossy(&output.stderr);
    let status = if due { 0 } else { 1 };
    assert_eq!(output.status.code(), Some(status), "{words:?}: {errors}");
    let after = names(folder);
    if !due {
        assert!(
            errors.starts_with("sheet: ") && errors.lines().count() == 1,
            "{words:?}: {errors}"
        );
        assert!(output.stdout.is_empty() && after == before, "{words:?}");
        return;
    }
    let dashed = words.windows(2).any(|pair| pair == ["--lists", "-"]);
    let summary = if dashed {
        &output.stderr
    } else {
        &output.stdout
    };
    assert!(summary.starts_with(b"sheet   "), "{words:?}");
    assert_eq!(
        dashed,
        output.stdout.starts_with(b"palette-sheet 1\n"),
        "{words:?}"
    );
    assert!(dashed || errors.is_empty(), "{words:?}: {errors}");
    let is_asked = |name: &&str| {
        words
            .iter()
            .any(|word| word.trim_start_matches("./") == *name)
    };
    let asked = FILES.into_iter().filter(is_asked).map(String::from);
    let mut all: Vec<String> = before.iter().cloned().chain(asked).collect();
    all.sort();
    assert_eq!(after, all, "{words:?}");
}

#[test]
fn a_thousand_changed_files_and_options() {
    let mut random = Random(16);
    let folder = folder("mutations");
    fs::write(folder.join("costs"), "1 ".repeat(301)).unwrap();
    fs::write(folder.join("few"), "1 ".repeat(300)).unwrap();
    fs::write(folder.join("high"), "1 ".repeat(300) + "33").unwrap();
    let runs = cases(1000);
    let mut good_runs = 0;
    for _ in 0..runs {
        let original = scan(&mut random);
        let bytes = mutated(&mut random, original);
        let (words, in_order) = options(&mut random);
        fs::write(folder.join("a.pgm"), &bytes).unwrap();
        let before = names(&folder);
        let due = in_order && is_scan(&bytes);
        let input = ["a.pgm", "./a.pgm", "-"][random.between(0, 2)];
        let all = [vec![input.to_string()], words].concat();
        let mut run = command(&folder, &all);
        run.stdin(File::open(folder.join("a.pgm")).unwrap());
        check(&folder, &all, due, &ended(run), &before);
        good_runs += usize::from(due);
        for name in FILES {
            let _ = fs::remove_file(folder.join(name));
        }
    }
    let share = 100 * good_runs / runs;
    assert!((30..70).contains(&share), "{share} % of the runs in order");
}
