//! The report's page on texts put together by hand, with answers worked by hand.

use palette_oracle::report_text::{read, report, MOST};

/// Document 01's palette: 12 calls, 8 cells, raw width 20.
const HEADER: &str = "       4       2       2       8       0       0\n";
const COLORS: &str = "      16     235\n";
const LINES: &str = "\n       1       0\n\
    \x20      0       0       0       0\n       0       0       1       1\n";

/// One cell: size, three literals of 8, 2 and 5 bits, orientation, flag, first index; so 7 calls
/// and a raw width of 8 + 2 + 5 + 1 + 1.
const CELL: &str = "       1       1       2       8       0       0\n     254     255\n\n\
    \x20      1\n       1\n";

fn sheet() -> String {
    format!("{HEADER}{COLORS}{LINES}")
}

/// In form, but refused by 11.
fn descending() -> String {
    format!("{HEADER}     235      16\n{LINES}")
}

/// In form, but refused by 15: its second line is no copy.
fn no_copy() -> String {
    sheet().replace("       1       0\n", "       1       2\n")
}

/// Lines of numbers in their fields.
fn page(lines: &[&[u32]]) -> String {
    let line = |line: &&[u32]| line.iter().map(|n| format!("{n:>8}")).collect::<String>() + "\n";
    lines.iter().map(line).collect()
}

fn reports(text: &str, lines: &[&[u32]]) {
    let printed = String::from_utf8(report(text.as_bytes())).expect("digits and spaces");
    assert_eq!(printed, page(lines), "for {text:?}");
}

#[test]
fn no_text_is_the_last_line_alone() {
    let printed = report(b"");
    assert_eq!(
        printed,
        b"       0       0       0       0       0       1\n"
    );
}

#[test]
fn the_documents_palette_is_one_line() {
    let printed = report(sheet().as_bytes());
    let expected = "       1      12       8      20\n\
        \x20      0      12       8      20       5       2\n";
    assert_eq!(printed, expected.as_bytes());
}

#[test]
fn palettes_follow_each_other() {
    let two = format!("{}{CELL}", sheet());
    reports(
        &two,
        &[&[1, 12, 8, 20], &[2, 7, 1, 17], &[0, 19, 9, 37, 37, 9]],
    );
}

#[test]
fn the_fraction_is_in_lowest_terms() {
    reports(CELL, &[&[1, 7, 1, 17], &[0, 7, 1, 17, 17, 1]]);
    let eight: &[u32] = &[0, 96, 64, 160, 5, 2];
    let printed = report(sheet().repeat(8).as_bytes());
    assert!(printed.ends_with(page(&[eight]).as_bytes()));
    // 20 and 7 times 17 make 139 bits in 15 cells, which have no divisor in common.
    let seven = format!("{}{}", sheet(), CELL.repeat(7));
    let last: &[u32] = &[0, 61, 15, 139, 139, 15];
    assert!(report(seven.as_bytes()).ends_with(page(&[last]).as_bytes()));
}

#[test]
fn a_palette_in_form_but_refused_counts_nowhere() {
    for (refused, number) in [(descending(), 11), (no_copy(), 15)] {
        let text = format!("{}{refused}{CELL}", sheet());
        let lines: &[&[u32]] = &[
            &[1, 12, 8, 20],
            &[2, 0, 0, 0, number],
            &[3, 7, 1, 17],
            &[0, 19, 9, 37, 37, 9],
        ];
        reports(&text, lines);
        reports(&refused, &[&[1, 0, 0, 0, number], &[0, 0, 0, 0, 0, 1]]);
    }
}

#[test]
fn a_refused_header_ends_the_reading() {
    for (header, number) in [
        ("       0       2       2       8       0       0\n", 1),
        ("       4       2       2      13       0       0\n", 2),
        ("       4       2       9       8       0       0\n", 11),
        ("      64       2       2       8       1       0\n", 12),
        ("       4       2       2       8       0      65\n", 13),
        ("       0       2       2       8       2       0\n", 17),
    ] {
        let text = format!("{CELL}{header}{COLORS}{LINES}{CELL}");
        let lines: &[&[u32]] = &[&[1, 7, 1, 17], &[2, 0, 0, 0, number], &[0, 7, 1, 17, 17, 1]];
        reports(&text, lines);
        assert_eq!(read(text.as_bytes()).ended_by, Some(number));
    }
}

#[test]
fn text_that_cannot_be_read_ends_the_reading() {
    let cached = |entry: &str| {
        let header = HEADER.replace("       0\n", "       1\n");
        format!("{header}{COLORS}{entry}{LINES}")
    };
    let cut = &sheet()[..sheet().len() - 1];
    let header_cut = &HEADER[..HEADER.len() - 1];
    let entry = cached("   65536");
    for tail in [
        "\n",
        " ",
        "x",
        "\0",
        cut,
        header_cut,
        HEADER,
        &descending()[..100],
        &entry,
    ] {
        let text = format!("{CELL}{tail}");
        let lines: &[&[u32]] = &[&[1, 7, 1, 17], &[2, 0, 0, 0, 17], &[0, 7, 1, 17, 17, 1]];
        reports(&text, lines);
    }
    let between = format!("{CELL}\n{CELL}");
    assert_eq!(read(between.as_bytes()).ended_by, Some(17));
    let greatest = format!("{}{CELL}", cached("   65535"));
    assert_eq!(read(greatest.as_bytes()).ended_by, None);
}

#[test]
fn text_behind_the_last_palette_that_is_read_is_19() {
    let most = CELL.repeat(MOST);
    let last: &[u32] = &[0, 69_993, 9_999, 169_983, 17, 1];
    let plain = report(most.as_bytes());
    assert!(plain.ends_with(page(&[&[9_999, 7, 1, 17], last]).as_bytes()));
    assert_eq!(plain.iter().filter(|&&byte| byte == b'\n').count(), 10_000);
    for more in ["\n", " ", "x", "\0", CELL] {
        let text = format!("{most}{more}");
        let lines: &[&[u32]] = &[&[9_999, 7, 1, 17], &[10_000, 0, 0, 0, 19], last];
        assert!(report(text.as_bytes()).ends_with(page(lines).as_bytes()));
    }
}

#[test]
fn refused_palettes_count_among_the_most() {
    let text = format!("{}{}x", CELL.repeat(2), descending().repeat(MOST - 2));
    let lines: &[&[u32]] = &[
        &[9_999, 0, 0, 0, 11],
        &[10_000, 0, 0, 0, 19],
        &[0, 14, 2, 34, 17, 1],
    ];
    assert!(report(text.as_bytes()).ends_with(page(lines).as_bytes()));
}
