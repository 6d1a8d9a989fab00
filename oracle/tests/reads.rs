//! Lists to be read back are of every kind and get every number, and the reader's two ways to 23
//! agree on them.

use palette_oracle::check::top;
use palette_oracle::generate::crafted::Craft;
use palette_oracle::generate::reads::{damaged_request, read_request, DamagedKinds, ReadDamage};
use palette_oracle::reading::{read, read_words, unlisted, would_be_listed, ReadRequest, Unlisted};
use palette_oracle::{pack, unpack};
use std::collections::{BTreeMap, BTreeSet};

const COUNT: u64 = 20_000;

fn damaged() -> impl Iterator<Item = (ReadRequest, DamagedKinds)> {
    (0..COUNT).map(|index| damaged_request(6, index))
}

fn number(request: &ReadRequest) -> u32 {
    read(request).err().unwrap_or(0)
}

#[test]
fn the_originals_lists_are_read_back() {
    for index in 0..4000 {
        let (request, palette, _) = read_request(6, index);
        assert_eq!(read(&request), Ok(palette), "case {index}");
    }
}

/// At least 1 in 100 each of 20 to 23.
#[test]
fn every_number_is_given() {
    let mut counts = BTreeMap::new();
    for (request, _) in damaged() {
        *counts.entry(number(&request)).or_insert(0) += 1;
    }
    let numbers: Vec<u32> = counts.keys().copied().collect();
    assert_eq!(numbers, [0, 1, 2, 7, 13, 20, 21, 22, 23]);
    assert!(
        (20..=23).all(|number| counts[&number] >= COUNT / 100),
        "{counts:?}"
    );
}

#[test]
fn every_damage_and_craft_is_met() {
    let kinds: Vec<DamagedKinds> = damaged().map(|(_, kinds)| kinds).collect();
    for damage in ReadDamage::ALL {
        assert!(kinds.iter().any(|k| k.damages == [*damage]));
    }
    for &craft in Craft::ALL {
        assert!(kinds.iter().any(|k| k.craft == Some(craft)));
    }
    assert!(kinds.iter().any(|k| k.damages.len() == 2));
}

#[test]
fn both_ways_to_23_agree() {
    let mut rules = BTreeSet::new();
    for (request, kinds) in damaged() {
        let Ok(reading) = read_words(&request) else {
            continue;
        };
        let broken = unlisted(&reading, &request.cache);
        let listed = would_be_listed(&reading, &request);
        assert_eq!(broken.is_empty(), listed, "{request:?}, {:?}", kinds.craft);
        rules.extend(broken.iter().map(|rule| rule.name()));
    }
    assert_eq!(rules.len(), Unlisted::ALL.len());
}

/// What each craft is aimed at.
#[test]
fn crafts_meet_their_aims() {
    let aims = [
        (Craft::TakenTwice, Unlisted::EqualColors),
        (Craft::LiteralTaken, Unlisted::EqualColors),
        (Craft::ZeroThenSent, Unlisted::Passed),
        (Craft::ZeroThenTaken, Unlisted::Passed),
        (Craft::AboveTop, Unlisted::AboveTop),
        (Craft::StepWidth, Unlisted::Wider),
    ];
    for (craft, rule) in aims {
        let mut crafted = damaged().filter(|(_, k)| k.craft == Some(craft));
        assert!(
            crafted.any(|(request, _)| read_words(&request)
                .is_ok_and(|reading| unlisted(&reading, &request.cache) == [rule])),
            "{}",
            craft.name()
        );
    }
}

/// A list that ends where no value is right, and one that goes on there.
#[test]
fn steps_from_the_top_are_due() {
    let crafted = damaged().filter(|(_, kinds)| kinds.craft == Some(Craft::TopReached));
    let left = crafted.filter(|(_, kinds)| kinds.damages.is_empty());
    let numbers: BTreeSet<u32> = left.map(|(request, _)| number(&request)).collect();
    assert!(numbers.contains(&20) && numbers.contains(&21));
}

/// The earliest faulty word, if it would be right with a second field of 0.
fn faulty_word(request: &ReadRequest) -> Option<(u32, u32, u32)> {
    let mut front = request.clone();
    let faulty = |end: &usize| {
        front.words = request.words[..*end].to_vec();
        number(&front) == 21
    };
    let end = (1..=request.words.len()).find(faulty)?;
    let (kind, first, second) = unpack(request.words[end - 1]);
    front.words[end - 1] = pack((kind, first, 0));
    (number(&front) != 21).then_some((kind, first, second))
}

/// A step that is due and fits its width, but not the range up to the top level, above 0.
#[test]
fn steps_lead_past_the_top() {
    let crafted = damaged().filter(|(_, kinds)| kinds.craft == Some(Craft::PastTop));
    let crafted: Vec<ReadRequest> = crafted.map(|(request, _)| request).collect();
    let fits = |&(kind, width, value): &(u32, u32, u32)| kind == 1 && value < 1 << width;
    let faulty = crafted.iter().filter_map(faulty_word);
    let widths: Vec<u32> = faulty.filter(fits).map(|word| word.1).collect();
    assert!(widths.len() >= 300, "{} steps", widths.len());
    let different: BTreeSet<u32> = widths.into_iter().collect();
    assert!((2..=12).all(|width| different.contains(&width)));
    let at_top = |request: &ReadRequest| {
        let palette = read(request).ok();
        palette.is_some_and(|p| p.colors.last() == Some(&(top(p.bd) as u16)))
    };
    let accepted = crafted.iter().filter(|request| at_top(request));
    assert!(accepted.count() >= 50);
}

/// More words than any list has, with everything else in order.
#[test]
fn lists_are_longer_than_any() {
    let longer = |count: usize| {
        let requests = damaged().map(|(request, _)| request);
        let long = requests.filter(|request| request.words.len() > count);
        long.filter(|request| number(request) == 22).count()
    };
    // The replay's lists end at 4,240 words.
    assert!(longer(4234) >= 60 && longer(4240) >= 20);
}

/// The longer side less by so much.
fn lowered(request: &ReadRequest, less: usize) -> ReadRequest {
    let mut request = request.clone();
    let longer = if request.w > request.h {
        &mut request.w
    } else {
        &mut request.h
    };
    *longer = longer.saturating_sub(less);
    request
}

/// Refused by 1, and accepted if a side were cut to fewer bits.
#[test]
fn sides_are_right_when_cut() {
    let wrong = damaged().filter(|(request, _)| number(request) == 1);
    let wrong: Vec<ReadRequest> = wrong.map(|(request, _)| request).collect();
    for more in [64, 128, 1 << 8, 1 << 16, 1 << 32] {
        let right = |request: &&ReadRequest| number(&lowered(request, more)) == 0;
        let count = wrong.iter().filter(right).count();
        assert!(count >= 30, "{count} raised by {more}");
    }
}

/// A list that is 22, and without its last word 23.
#[test]
fn words_are_left_over_behind_unlisted_lists() {
    let mut both = damaged().filter(|(request, _)| {
        let mut shorter = request.clone();
        shorter.words.pop();
        number(request) == 22 && number(&shorter) == 23
    });
    assert!(both.next().is_some());
}
