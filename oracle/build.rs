//! Takes the original `palette.rs` from outside the repository and swaps its one `OnceLock`
//! import for our cell type. Nothing else of the file is changed. A second copy, for counting
//! alone, has three lines more in its map search, one where it takes the groups' centres, one in its
//! search and one at its end. Of the original `entropy.rs` it takes the functions that send raw
//! bits, with the values that their coder starts from.

use std::path::{Path, PathBuf};
use std::{env, fs, process};

const VARIABLE: &str = "PALETTE_SRC";
const DEFAULT_FOLDER: &str = "../../shared/docs/src";
const PALETTE: &str = "src/av2/palette.rs";
const ENTROPY: &str = "src/av2/entropy.rs";
const IMPORT: &str = "use std::sync::OnceLock;";
const OURS: &str = "use crate::lent::OnceLock;";

/// How the map search and the grouping of the levels begin, and the last line of each.
const MAP_SEARCH: &str = "fn build_map(";
const GROUPING: &str = "fn dp_centers(";
const END: &str = "}";

/// Lines of the map search, each with the counter's line that is added behind it: where a map
/// search begins, at the head of each turn of its line loop, and where a constant candidate asks
/// for its context.
const COUNTED: [(&str, &str); 3] = [
    (
        "    let n = colors.len();",
        "    crate::map_searches::begin(n, transposed);",
    ),
    (
        "    for l in 0..lines {",
        "        crate::map_searches::reach_line();",
    ),
    (
        "                let (ctx, order) = color_ctx(map, w, y, x, n);",
        "                crate::map_searches::ask();",
    ),
];

/// Where the first level of a chosen group is looked up, with the line that tells it.
const CHOSEN: (&str, &str) = (
    "                let i = arg[kk][j];",
    "                crate::chosen_cuts::start(i);",
);

/// Hands over the grouping, which is private, at the end of the copy.
const HANDED_OVER: &str = "pub(crate) const CENTERS: crate::chosen_cuts::Centers = dp_centers;";

/// Where a map is the best so far, with the line that tells what its estimate is made of.
const STANDING: (&str, &str) = (
    "            if best.as_ref().is_none_or(|(bj, _)| j < *bj) {",
    "                crate::map_searches::stand(head, mbits);",
);

/// The functions of the original's coder that send raw bits, tell how many were sent, and hand
/// them over as bytes.
const SENDING: [&str; 5] = [
    "encode_uniform",
    "encode_bypass",
    "normalize_bypass",
    "tell_bits",
    "finish",
];
const FUNCTION_END: &str = "    }";

/// The fields that these functions use, and the first and the last line of what `new` fills them
/// with in the original.
const FIELDS: [&str; 5] = ["low", "range", "count", "output", "sink"];
const START: &str = "        RangeEncoder {";
const START_END: &str = "        }";

fn main() {
    println!("cargo::rerun-if-changed=build.rs");
    println!("cargo::rerun-if-env-changed={VARIABLE}");
    if let Err(message) = build() {
        println!("cargo::error={message}");
        process::exit(1);
    }
}

fn build() -> Result<(), String> {
    let out = PathBuf::from(env::var("OUT_DIR").map_err(|e| e.to_string())?);
    build_palette(&out).map_err(|e| format!("{PALETTE}: {e}"))?;
    build_coder(&out).map_err(|e| format!("{ENTROPY}: {e}"))
}

fn build_palette(out: &Path) -> Result<(), String> {
    let text = read(PALETTE, "ORIGINAL_PALETTE")?;
    let (original, counted) = (out.join("palette.rs"), out.join("counted.rs"));
    let mut lines: Vec<&str> = text.lines().collect();
    swap_import(&mut lines)?;
    write(&original, &joined(&lines))?;
    add_counter(&mut lines)?;
    write(&counted, &joined(&lines))?;
    let modules = module("palette", &original) + &module("counted", &counted);
    write(&out.join("original.rs"), &modules)
}

fn build_coder(out: &Path) -> Result<(), String> {
    let text = read(ENTROPY, "ORIGINAL_ENTROPY")?;
    let lines: Vec<&str> = text.lines().collect();
    let mut coder = vec![
        "impl RangeEncoder {",
        "    pub(crate) fn new() -> Self {",
        START,
    ];
    coder.extend(start_values(&lines)?);
    coder.extend([START_END, FUNCTION_END]);
    for name in SENDING {
        coder.push("");
        coder.extend(function(&lines, name)?);
    }
    coder.push(END);
    write(&out.join("raw_coder.rs"), &joined(&coder))
}

/// The text of a file of the original. Tests find the file by the variable.
fn read(file: &str, variable: &str) -> Result<String, String> {
    let source = source_path(file)?;
    println!("cargo::rerun-if-changed={}", source.display());
    println!("cargo::rustc-env={variable}={}", source.display());
    fs::read_to_string(&source).map_err(|e| format!("cannot be read at {}: {e}", source.display()))
}

fn source_path(file: &str) -> Result<PathBuf, String> {
    let folder = env::var(VARIABLE).unwrap_or_else(|_| DEFAULT_FOLDER.to_string());
    Path::new(&folder).join(file).canonicalize().map_err(|e| {
        format!("not found in folder {folder} ({e}); set {VARIABLE} to the folder that holds it")
    })
}

fn swap_import(lines: &mut [&str]) -> Result<(), String> {
    lines[only_place(lines, IMPORT)?] = OURS;
    Ok(())
}

fn add_counter(lines: &mut Vec<&str>) -> Result<(), String> {
    add_within(lines, MAP_SEARCH, &COUNTED)?;
    add_within(lines, GROUPING, &[CHOSEN])?;
    let (line, added) = STANDING;
    lines.insert(only_place(lines, line)? + 1, added);
    lines.push(HANDED_OVER);
    Ok(())
}

/// The lines of a function are looked for in it alone, since they may stand elsewhere too.
fn add_within<'a>(
    lines: &mut Vec<&'a str>,
    head: &str,
    added: &[(&str, &'a str)],
) -> Result<(), String> {
    let mut function = lines.split_off(only_start(lines, &[head])?);
    let behind = function.split_off(up_to(&function, END)?.len() - 1);
    for (line, added) in added {
        let place = only_place(&function, line).map_err(|e| format!("{e} in `{head}`"))?;
        function.insert(place + 1, added);
    }
    lines.extend(function.into_iter().chain(behind));
    Ok(())
}

/// The lines that fill the fields in the original's `new`. Its other fields are left out.
fn start_values<'a>(lines: &[&'a str]) -> Result<Vec<&'a str>, String> {
    let start = up_to(&lines[only_place(lines, START)?..], START_END)?;
    let value = |field| Ok(start[only_start(start, &[&format!("            {field}: ")])?]);
    FIELDS.into_iter().map(value).collect()
}

/// A function of the original's coder, whole.
fn function<'a, 'b>(lines: &'b [&'a str], name: &str) -> Result<&'b [&'a str], String> {
    let starts = ["    pub(crate) fn ", "    fn "].map(|start| format!("{start}{name}("));
    let place = only_start(lines, &starts.each_ref().map(String::as_str))?;
    up_to(&lines[place..], FUNCTION_END)
}

/// The place of a line that must stand exactly once.
fn only_place(lines: &[&str], line: &str) -> Result<usize, String> {
    only(lines, &format!("the line `{line}`"), |l| l == line)
}

/// The place of the line that begins in one of these ways; there must be exactly one.
fn only_start(lines: &[&str], starts: &[&str]) -> Result<usize, String> {
    let begins = |line: &str| starts.iter().any(|start| line.starts_with(start));
    let wanted = format!("a line that begins with `{}`", starts.join("` or `"));
    only(lines, &wanted, begins)
}

fn only(lines: &[&str], wanted: &str, is_it: impl Fn(&str) -> bool) -> Result<usize, String> {
    let places: Vec<usize> = (0..lines.len()).filter(|&at| is_it(lines[at])).collect();
    match places[..] {
        [place] => Ok(place),
        _ => Err(format!(
            "expected {wanted} exactly once, found it {} times",
            places.len()
        )),
    }
}

/// The first of the lines, up to the line that ends them.
fn up_to<'a, 'b>(lines: &'b [&'a str], end: &str) -> Result<&'b [&'a str], String> {
    let last = lines.iter().position(|line| *line == end);
    let last = last.ok_or_else(|| format!("`{}` has no end", lines[0]))?;
    Ok(&lines[..=last])
}

fn joined(lines: &[&str]) -> String {
    lines.iter().flat_map(|line| [*line, "\n"]).collect()
}

/// `include!` cannot take a file with inner doc comments, a `#[path]` module can; and `#[path]`
/// needs a literal, so the line that names a built file is generated too.
fn module(name: &str, built: &Path) -> String {
    format!("#[allow(dead_code, clippy::all)]\n#[path = {built:?}]\npub(crate) mod {name};\n")
}

fn write(path: &Path, text: &str) -> Result<(), String> {
    fs::write(path, text).map_err(|e| format!("cannot write {}: {e}", path.display()))
}
