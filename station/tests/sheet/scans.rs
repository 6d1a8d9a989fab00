//! What scans are read, and how.

use crate::command::{bars, blocks, fed, folder, form, pgm, printed, refused, value, waiting};
use std::fs;

#[test]
fn one_and_two_bytes_a_sample() {
    let folder = folder("depths");
    let depths = [
        (255, 8),
        (256, 9),
        (511, 9),
        (512, 10),
        (1023, 10),
        (1024, 11),
        (2047, 11),
    ];
    for (maxval, depth) in depths.into_iter().chain([(2048, 12), (4095, 12)]) {
        let two = |x: usize, _| [0, maxval, maxval][x % 3];
        fs::write(folder.join("a.pgm"), pgm(32, 32, maxval, two)).unwrap();
        let summary = printed(&folder, "a.pgm");
        assert_eq!(value(&summary, "sheet"), format!("32 by 32, depth {depth}"));
        // The second line is the first colour, 0 in as many bits as the depth.
        let blocks = blocks(&folder, "a.pgm");
        let first = blocks.lines().nth(2).unwrap();
        assert_eq!(first, format!("{:8}{depth:8}{:8}", 1, 0));
    }
}

#[test]
fn comments_in_the_header() {
    let folder = folder("comments");
    let plain = pgm(40, 20, 255, bars);
    let raster = &plain[plain.len() - 800..];
    fs::write(folder.join("plain.pgm"), &plain).unwrap();
    let expected = form(&folder, "plain.pgm");
    let headers = [
        "P5 40 20 255 ",
        "P5\n# by a scanner\n40 20\n255\n",
        "P5# one\n#two\n\t40 # wide\n20#high\r#5\n255#last\n",
        "P5\r\n40\r\n20\r\n255\n",
        "P5\n0040 020 255\n",
    ];
    for header in headers {
        fs::write(folder.join("a.pgm"), [header.as_bytes(), raster].concat()).unwrap();
        assert_eq!(form(&folder, "a.pgm"), expected, "{header:?}");
    }
}

#[test]
fn bad_sheets() {
    let folder = folder("bad-sheets");
    let whole = pgm(20, 20, 255, bars);
    let cases: [(&str, Vec<u8>); 18] = [
        ("not a PGM", b"P51 1 255\nx".to_vec()),
        ("cut off in row 0", b"P5 1073741824 1 4095\nxx".to_vec()),
        ("not a PGM", Vec::new()),
        ("not a PGM", b"P2\n1 1\n255\n7\n".to_vec()),
        ("cut off in the header", b"P5\n20 20\n255".to_vec()),
        ("cut off in the header", b"P5\n20 # 20 255\n".to_vec()),
        ("width is not a number", b"P5\n-1 20\n255\n".to_vec()),
        ("height is not a number", b"P5\n20 2x\n255\n".to_vec()),
        ("a side of the sheet is 0", b"P5\n0 20\n255\n".to_vec()),
        (
            "width is too large",
            b"P5\n99999999999999999999 1\n255\n".to_vec(),
        ),
        ("more than", b"P5\n9999999999 9999999999\n255\n".to_vec()),
        ("more than", b"P5\n65536 65536\n255\n".to_vec()),
        ("maxval 254", b"P5\n1 1\n254\n0".to_vec()),
        ("maxval 4096", b"P5\n1 1\n4096\n00".to_vec()),
        ("cut off in row 19", whole[..whole.len() - 1].to_vec()),
        ("cut off in row 0", pgm(20, 20, 4095, bars)[..16].to_vec()),
        ("bytes follow", [whole, vec![b'\n']].concat()),
        (
            "above maxval 1000",
            pgm(20, 20, 1000, |x, y| (1000 + (x + y) / 38) as u16),
        ),
    ];
    for (reason, bytes) in cases {
        fs::write(folder.join("a.pgm"), bytes).unwrap();
        refused(&folder, "a.pgm --lists l --picture p", reason);
    }
    refused(&folder, "absent.pgm --lists l", "absent.pgm");
    refused(&folder, ". --lists l", "irectory");
}

#[test]
fn standard_input() {
    let folder = folder("stdin");
    let bytes = pgm(40, 30, 1023, bars);
    fs::write(folder.join("a.pgm"), &bytes).unwrap();
    let output = fed(waiting(&folder, "- --lists from-input"), &bytes);
    assert!(output.status.success());
    let from_input = fs::read_to_string(folder.join("from-input")).unwrap();
    assert_eq!(from_input, form(&folder, "a.pgm"));
    refused(&folder, "- --lists l", "standard input: not a PGM");
}
