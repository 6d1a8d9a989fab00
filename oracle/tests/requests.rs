//! Damaged requests, corners and texts are of every kind and get every number.

use palette_oracle::answers::{list_answer, pred_answer};
use palette_oracle::check::context_number;
use palette_oracle::generate::contexts::{asked_corner, CornerDamage};
use palette_oracle::generate::requests::{request, Damage};
use palette_oracle::generate::texts::{text, TextKind};
use palette_oracle::listing_text::answer;
use std::collections::BTreeSet;

const COUNT: u64 = 8000;

#[test]
fn every_damage_is_done_and_every_number_given() {
    let all: Vec<_> = (0..COUNT).map(|index| request(5, index)).collect();
    for damage in Damage::ALL {
        assert!(all.iter().any(|(_, kinds)| kinds.damages.contains(damage)));
    }
    let listed: BTreeSet<u32> = all.iter().map(|(r, _)| list_answer(r).number).collect();
    let predicted: BTreeSet<u32> = all.iter().map(|(r, _)| pred_answer(r).number).collect();
    assert_eq!(listed, BTreeSet::from([0, 1, 2, 11, 12, 13, 14, 15, 16]));
    assert_eq!(predicted, BTreeSet::from([0, 1, 2, 7, 11, 12, 14, 15]));
    let sound = all.iter().filter(|(_, kinds)| kinds.damages.is_empty());
    assert!(sound.map(|(r, _)| list_answer(r)).all(|a| a.number == 0));
}

#[test]
fn corners_are_damaged_in_every_way() {
    let all: Vec<_> = (0..COUNT).map(|index| asked_corner(5, index)).collect();
    for damage in CornerDamage::ALL {
        assert!(all.iter().any(|(_, _, kind)| *kind == Some(*damage)));
    }
    let numbers: BTreeSet<u32> = all.iter().map(|(c, _, _)| context_number(c)).collect();
    assert_eq!(numbers, BTreeSet::from([0, 18]));
}

fn refusal(number: u32) -> Vec<u8> {
    format!("{:>8}{number:>8}\n", 0).into_bytes()
}

#[test]
fn texts_are_of_every_kind_and_get_every_number() {
    let all: Vec<_> = (0..2000).map(|index| text(5, index)).collect();
    for kind in TextKind::ALL {
        assert!(all.iter().any(|(_, k)| k == kind), "{}", kind.name());
    }
    let answers: BTreeSet<Vec<u8>> = all.iter().map(|(text, _)| answer(text)).collect();
    for number in [1, 2, 11, 12, 13, 15, 17] {
        assert!(answers.contains(&refusal(number)), "number {number}");
    }
    let mut sound = all.iter().filter(|(_, kind)| *kind == TextKind::Sound);
    assert!(sound.all(|(text, _)| !answer(text).starts_with(b"       0")));
}

const HEADER: &str = "       4       2       2       8       0       0\n";
const REST: &str = "      16     235\n\n       1       0\n\
    \x20      0       0       0       0\n       0       0       1       1\n";
const LISTED: &str = "      12\n       3       0       0\n       1       8      16\n\
    \x20      1       2       3\n       1       8     218\n       1       1       0\n\
    \x20      4       3       1\n       2       2       0\n       4       1       0\n\
    \x20      5       0       0\n       5       4       0\n       5       4       1\n\
    \x20      5       2       1\n";

#[test]
fn the_documents_text_is_listed() {
    let text = format!("{HEADER}{REST}");
    assert_eq!(answer(text.as_bytes()), LISTED.as_bytes());
}

#[test]
fn faulty_texts_get_their_numbers() {
    let sound = format!("{HEADER}{REST}");
    let number = |text: &str, expected| assert_eq!(answer(text.as_bytes()), refusal(expected));
    number("", 17);
    number(&sound[..sound.len() - 1], 17);
    number(&format!("{sound}\n"), 17);
    number(&sound.replace('\n', "\r\n"), 17);
    number(&sound.replace("      16", "     016"), 17);
    number(&sound.replace("      16", "\t     16"), 17);
    number(&sound.replace("      16", "   65552"), 11);
    number(&sound.replace("      16     235", "     235      16"), 11);
    number(
        &sound.replace("       1       1\n", "       1     256\n"),
        15,
    );
    number("       0       0       0       0       0       0\n", 1);
    number("       0       0       0       0       2       0\n", 17);
    number("       0       0       0       0       0       0", 17);
    number("       4       2       2       7       0       0\nmore", 2);
    number("       4       2       9       8       0       0\n", 11);
    number("      64       2       2       8       1       0\n", 12);
    number("       4       2       2       8       1      65\n", 13);
    number(HEADER, 17);
}
