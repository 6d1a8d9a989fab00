//! The C header beside the archive: it declares every export, what it defines itself is told
//! apart, and C programs that call all of it are compiled and run.

use palette_station as station;
use std::collections::BTreeSet;
use std::fs;
use std::io::ErrorKind;
use std::path::Path;
use std::process::{Command, Output};

/// Where the build found the archive.
const ARCHIVE: &str = env!("STATION_ARCHIVE");

fn header() -> String {
    let path = Path::new(env!("CARGO_MANIFEST_DIR")).join("include/palette.h");
    fs::read_to_string(path).expect("the header is there")
}

/// The header without its comments.
fn code() -> String {
    let header = header();
    let pieces = header.split("/*");
    let behind = |piece: &str| piece.split_once("*/").map(|(_, code)| code.to_string());
    let code = pieces.map(|piece| behind(piece).unwrap_or_else(|| piece.to_string()));
    code.collect()
}

/// The output of a program; none, with a message, where there is no such program.
fn run(command: &mut Command) -> Option<Output> {
    match command.output() {
        Ok(output) => Some(output),
        Err(error) if error.kind() == ErrorKind::NotFound => {
            eprintln!("skipped: no {:?} on this machine", command.get_program());
            None
        }
        Err(error) => panic!("{command:?}: {error}"),
    }
}

/// The header's code in two parts: what it declares, and each function that it defines inline.
/// The archive holds the former only, and what the latter call is declared by that alone.
fn parts() -> (String, Vec<String>) {
    let code = code();
    let mut pieces = code.split("static inline ");
    let mut declarations = pieces.next().unwrap_or_default().to_string();
    let mut inlines = Vec::new();
    for piece in pieces {
        let (inline, rest) = piece.split_once("\n}\n").expect("it ends by such a line");
        inlines.push(inline.to_string());
        declarations.push_str(rest);
    }
    (declarations, inlines)
}

/// The functions of the header in this code, by the names that stand before a bracket.
fn functions(code: &str) -> Vec<String> {
    let before = |(place, _): (usize, &str)| {
        let name = code[..place].rsplit(|c: char| !c.is_ascii_alphanumeric() && c != '_');
        name.into_iter().next().unwrap_or_default().to_string()
    };
    let names = code.match_indices('(').map(before);
    names.filter(|name| name.starts_with("palette_")).collect()
}

/// What stands in the brackets behind a function's name, without its line breaks.
fn parameters(code: &str, name: &str) -> Option<String> {
    let (_, behind) = code.split_once(&format!("{name}("))?;
    let (within, _) = behind.split_once(')')?;
    Some(within.split_whitespace().collect::<Vec<_>>().join(" "))
}

/// Kinds and names of the archive's symbols; none, with a message, without nm.
fn symbols() -> Option<Vec<(char, String)>> {
    let output = run(Command::new("nm").arg(ARCHIVE))?;
    assert!(output.status.success(), "nm failed on {ARCHIVE}");
    let text = String::from_utf8_lossy(&output.stdout);
    let symbol = |line: &str| match line.split_whitespace().collect::<Vec<_>>()[..] {
        // Some systems put an underscore before C names.
        [.., kind, name] if kind.len() == 1 => {
            let kind = kind.chars().next()?;
            Some((kind, name.trim_start_matches('_').to_string()))
        }
        _ => None,
    };
    Some(text.lines().filter_map(symbol).collect())
}

#[test]
fn every_export_is_declared_and_nothing_else() {
    let Some(symbols) = symbols() else { return };
    let (declarations, _) = parts();
    let exports = symbols.into_iter().filter(|(kind, _)| *kind == 'T');
    let names = exports.map(|(_, name)| name);
    let exports: BTreeSet<String> = names.filter(|name| name.starts_with("palette_")).collect();
    assert!(!exports.is_empty());
    let declared = functions(&declarations).into_iter().collect();
    assert_eq!(exports, declared);
}

/// Whatever has a body is `static inline`, so that two files of a program can include the header.
#[test]
fn three_functions_are_defined_inline() {
    let (declarations, inlines) = parts();
    assert!(!declarations.replace("extern \"C\" {", "").contains('{'));
    let of = ["palette_search", "palette_estimate", "palette_strip"];
    assert_eq!(inlines.len(), of.len());
    for (name, inline) in of.into_iter().zip(&inlines) {
        let its_own = format!("{name}_default_env");
        assert_eq!(functions(inline), [&its_own, name]);
        let theirs = parameters(&declarations, name);
        assert!(theirs.is_some(), "{name}");
        assert_eq!(parameters(inline, &its_own), theirs);
        let lent = handed_over(&theirs.unwrap_or_default());
        assert_eq!(parameters(inline, &format!("= {name}")), Some(lent));
    }
}

/// The names of parameters, as a call that hands them on has them.
fn handed_over(parameters: &str) -> String {
    let name = |parameter: &str| {
        let (declared, _) = parameter.split_once('[').unwrap_or((parameter, ""));
        let last = declared.rsplit([' ', '*']).next();
        last.unwrap_or_default().to_string()
    };
    let names: Vec<String> = parameters.split(", ").map(name).collect();
    names.join(", ")
}

/// So the functions allocate nothing, and calls from several threads share nothing.
#[test]
fn the_archive_moves_memory_only_and_keeps_none() {
    let Some(symbols) = symbols() else { return };
    let moves = ["memcpy", "memmove", "memset", "memcmp", "bcmp"];
    for (kind, name) in symbols {
        match kind.to_ascii_uppercase() {
            'U' => assert!(moves.contains(&&name[..]), "the archive needs {name}"),
            'T' | 'R' => {}
            _ => panic!("{name} is of kind {kind}: neither code nor constant"),
        }
    }
}

/// So MXCSR is all of the floating environment that its functions see, and none of them changes it.
#[test]
fn the_archive_computes_by_sse_alone() {
    let Some(output) = run(Command::new("objdump").args(["-d", ARCHIVE])) else {
        return;
    };
    assert!(output.status.success(), "objdump failed on {ARCHIVE}");
    let text = String::from_utf8_lossy(&output.stdout);
    // A line has a place, the bytes and the instruction, whose first word is its name.
    let instructions = text.lines().filter_map(|line| line.split('\t').nth(2));
    let names = instructions.filter_map(|words| words.split_whitespace().next());
    let names: BTreeSet<&str> = names.collect();
    assert!(names.contains("addss"), "no instruction's name was read");
    let other = |name: &&&str| name.starts_with('f') || name.contains("mxcsr");
    assert_eq!(names.iter().find(other), None);
}

/// Compiles a program of `tests/c` without a warning, links it with the archive and runs it. It
/// says which of its checks went wrong, and how many.
fn none_wrong(compiler: &str, words: &[&str], source: &str, libraries: &[&str]) {
    let here = Path::new(env!("CARGO_MANIFEST_DIR"));
    let name = format!("{source}.{compiler}");
    let program = Path::new(env!("CARGO_TARGET_TMPDIR")).join(name);
    let mut compile = Command::new(compiler);
    compile
        .args(["-Wall", "-Wextra", "-Werror", "-pedantic", "-I"])
        .arg(here.join("include"))
        .args(words)
        .arg(here.join("tests/c").join(source))
        // The archive is in no language, whichever the words name.
        .args(["-x", "none", ARCHIVE])
        .args(libraries)
        .arg("-o")
        .arg(&program);
    let Some(compiled) = run(&mut compile) else {
        return;
    };
    let messages = String::from_utf8_lossy(&compiled.stderr);
    assert!(compiled.status.success(), "{messages}");
    let output = Command::new(&program).output().expect("it runs");
    let said = String::from_utf8_lossy(&output.stdout);
    let right = output.status.success() && said == "0 wrong\n";
    assert!(right, "{said}{}", output.status);
}

/// Without -lm, which only the inline functions need.
#[test]
fn a_c_program_calls_them_all() {
    none_wrong("cc", &["-std=c99"], "exports.c", &[]);
}

#[test]
fn a_c_program_with_fast_math() {
    let words = ["-std=c99", "-O2", "-ffast-math"];
    none_wrong("cc", &words, "fast_math.c", &["-lm"]);
}

#[test]
fn a_cpp_program_with_fast_math() {
    let words = ["-std=c++11", "-O2", "-ffast-math", "-x", "c++"];
    none_wrong("c++", &words, "fast_math.c", &["-lm"]);
}

/// The number behind a name that the header defines.
fn defined(name: &str) -> Option<usize> {
    let code = code();
    let line = |line: &str| match line.split_whitespace().collect::<Vec<_>>()[..] {
        ["#define", there, number] if there == name => number.parse().ok(),
        _ => None,
    };
    code.lines().find_map(line)
}

#[test]
fn limits_are_those_of_the_package() {
    let limits = [
        ("PALETTE_MAX_SIDE", station::MAX_SIDE),
        ("PALETTE_MAX_CELLS", station::MAX_CELLS),
        ("PALETTE_MAX_LINES", station::MAX_LINES),
        ("PALETTE_MAX_STRIP", station::MAX_STRIP),
        ("PALETTE_MAX_COLORS", station::MAX_COLORS),
        ("PALETTE_MAX_CACHE", station::MAX_CACHE),
        ("PALETTE_MAX_WORDS", station::MAX_WORDS),
        ("PALETTE_COSTS", station::COSTS),
        ("PALETTE_ADAPTED", station::ADAPTED),
    ];
    for (name, limit) in limits {
        assert_eq!(defined(name), Some(limit), "{name}");
    }
}

#[test]
fn numbers_are_those_of_the_package() {
    let numbers = [
        ("PALETTE_SIDE", station::Refusal::SIDE),
        ("PALETTE_DEPTH", station::Refusal::DEPTH),
        ("PALETTE_SAMPLE_COUNT", station::Refusal::SAMPLE_COUNT),
        ("PALETTE_LAMBDA", station::Refusal::LAMBDA),
        ("PALETTE_COST_TABLE", station::Refusal::COSTS),
        ("PALETTE_SAMPLE", station::Refusal::SAMPLE),
        ("PALETTE_ROOM", station::Refusal::ROOM),
        ("PALETTE_SMALL", station::Refusal::SMALL),
        ("PALETTE_ONE_LEVEL", station::Refusal::ONE_LEVEL),
        ("PALETTE_MANY_LEVELS", station::Refusal::MANY_LEVELS),
        ("PALETTE_BAD_COLORS", station::Refusal::COLORS),
        ("PALETTE_ORIENTATION", station::Refusal::ORIENTATION),
        ("PALETTE_LONG_CACHE", station::Refusal::CACHE),
        ("PALETTE_LENGTHS", station::Refusal::LENGTHS),
        ("PALETTE_BAD_MAP", station::Refusal::MAP),
        ("PALETTE_WORD_ROOM", station::Refusal::WORD_ROOM),
        ("PALETTE_TEXT", station::Refusal::TEXT),
        ("PALETTE_NO_CONTEXT", station::Refusal::CONTEXT),
        ("PALETTE_BLOCK_COUNT", station::Refusal::BLOCK_COUNT),
        ("PALETTE_LIST_END", station::Refusal::LIST_END),
        ("PALETTE_WORD", station::Refusal::WORD),
        ("PALETTE_WORDS_LEFT", station::Refusal::WORDS_LEFT),
        ("PALETTE_NOT_LISTED", station::Refusal::NOT_LISTED),
        ("PALETTE_ADAPTED_LENGTH", station::Refusal::ADAPTED_LENGTH),
        ("PALETTE_ADAPTED_ROWS", station::Refusal::ADAPTED_ROWS),
    ];
    for (name, refusal) in numbers {
        assert_eq!(defined(name), Some(refusal.number() as usize), "{name}");
    }
}
