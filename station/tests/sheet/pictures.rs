//! The picture, and the sample drawing.

use crate::command::{folder, pgm, printed, three_blocks, value};
use std::fs;

/// Two colours, one level and many levels, at a step of 16 pixels: tinted, grey, tinted otherwise.
fn check_tints(pixels: &[u8], stride: usize) {
    let pixel = |i: usize| &pixels[3 * stride * i..][..3];
    let spread = |i: usize| pixel(i).iter().max().unwrap() - pixel(i).iter().min().unwrap();
    assert!(spread(1) > 20 && spread(17) == 0 && spread(33) > 20);
    assert!(pixel(1)[1] > pixel(1)[0] && pixel(33)[0] > pixel(33)[1]);
}

#[test]
fn picture_of_a_sheet() {
    let folder = folder("picture");
    fs::write(folder.join("a.pgm"), pgm(50, 16, 255, three_blocks)).unwrap();
    let turned = |x: usize, y: usize| three_blocks(y, x);
    fs::write(folder.join("b.pgm"), pgm(16, 50, 255, turned)).unwrap();
    for (sheet, header, stride) in [
        ("a.pgm", "P6\n50 16\n255\n", 1),
        ("b.pgm", "P6\n16 50\n255\n", 16),
    ] {
        printed(&folder, &format!("{sheet} --side 16 --picture p.ppm"));
        let picture = fs::read(folder.join("p.ppm")).unwrap();
        assert!(picture.starts_with(header.as_bytes()));
        let pixels = &picture[header.len()..];
        assert_eq!(pixels.len(), 3 * 50 * 16);
        check_tints(pixels, stride);
    }
}

#[test]
fn the_sample_drawing() {
    let folder = folder("sample");
    let made = printed(&folder, "--sample s.pgm");
    let bytes = fs::read(folder.join("s.pgm")).unwrap();
    let header = b"P5\n2480 3508\n255\n";
    assert!(bytes.starts_with(header));
    assert_eq!(bytes.len(), header.len() + 2480 * 3508);
    let read = printed(&folder, "s.pgm --threads 2");
    for name in [
        "sheet",
        "blocks",
        "blank",
        "with palette",
        "without palette",
        "calls",
    ] {
        assert_eq!(value(&made, name), value(&read, name));
    }
    assert_eq!(value(&read, "blocks"), "2145 of side 64");
    assert!(value(&read, "with palette").starts_with("934 (94.2 %"));
}
