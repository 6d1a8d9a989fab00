//! A case printed and read again is the same case, with the same answer.

use palette_oracle::generate::{blocks::block, caches::cache, contexts::corner, palettes::palette};
use palette_oracle::text::{answer, parse, Case};

fn comes_back(case: Case) {
    let line = case.to_string();
    let again = parse(&line).unwrap();
    assert_eq!(line, again.to_string());
    assert_eq!(answer(&case), answer(&again));
}

#[test]
fn cases_come_back() {
    for index in 0..300 {
        comes_back(Case::Search(block(10, index).0));
        let (palette, _) = palette(10, index);
        let (cache, _) = cache(10, index, &palette);
        comes_back(Case::List(palette, cache));
        comes_back(Case::Context(corner(10, index).0));
    }
}

/// The form typed by hand, on document 01's 4 by 2 palette.
#[test]
fn the_form_is_as_described() {
    let case = parse("list 4 2 8 0 001000eb 0100 0000000000000101 -").unwrap();
    let words = "03000000 01080010 01020003 010800da 01010000 04030001 \
                 02020000 04010000 05000000 05040000 05040001 05020001";
    let pred = ["41800000"; 6].concat() + &["436b0000"; 2].concat();
    assert_eq!(
        answer(&case),
        format!("= 0 12 20 {} {pred}", words.replace(' ', ""))
    );
    let case = parse("context 4 1 2 2 0000000000000101").unwrap();
    assert_eq!(answer(&case), "= 0 4 0001000000000000");
}

#[test]
fn refused_cases_get_their_number() {
    let refused = |line: &str| answer(&parse(line).unwrap());
    assert_eq!(refused("list 65 2 8 0 001000eb 0100 00 -"), "= 1");
    assert_eq!(refused("list 4 2 13 0 001000eb 0100 00 -"), "= 2");
    assert_eq!(refused("list 4 2 8 0 00eb0010 0100 00 -"), "= 11");
    assert_eq!(refused("list 4 64 8 1 001000eb 0100 00 -"), "= 12");
    assert_eq!(refused("list 4 2 8 0 001000eb 0100 00 -"), "= 14");
    assert_eq!(
        refused("list 4 2 8 0 001000eb 0200 0000000000000101 -"),
        "= 15"
    );
    assert_eq!(refused("context 4 0 0 2 0000"), "= 18");
    assert_eq!(refused("context 4 1 1 2 0000"), "= 18");
}

#[test]
fn text_not_in_form_is_an_error() {
    for line in [
        "",
        "search 1 1",
        "list 4 2 8 0 001000e 0100 00 -",
        "context a 1 1 2 00",
    ] {
        assert!(parse(line).is_err(), "{line}");
    }
}
