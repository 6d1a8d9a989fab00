//! Strips are of every kind and damaged in every way; the whole call's numbers come in their order,
//! and what is due stands at the blocks' own places.

use palette_oracle::answers::search_answer;
use palette_oracle::generate::costs::CostKind;
use palette_oracle::generate::lambdas::Lambda;
use palette_oracle::generate::searches::SearchRequest;
use palette_oracle::generate::strips::{
    damaged_strip, full_strip, strip, Length, Sizes, StripDamage, StripKinds, StripRequest,
};
use palette_oracle::strips::{parts, strip_answer, strip_number};
use palette_oracle::COSTS;
use std::collections::BTreeSet;

const FILL: u8 = 200;

fn damaged(count: u64) -> impl Iterator<Item = (StripRequest, StripKinds)> {
    (0..count).map(|index| damaged_strip(8, index))
}

/// The number that each damage alone brings: to the whole call, or to blocks.
fn due(damage: StripDamage) -> u32 {
    match damage {
        StripDamage::NoSides | StripDamage::HalfPair | StripDamage::TooMany => 19,
        StripDamage::Side | StripDamage::SideRaised => 1,
        StripDamage::SampleCount => 3,
        StripDamage::MapRoom | StripDamage::FlagRoom | StripDamage::FlagsByOneSide => 7,
        StripDamage::Depth => 2,
        StripDamage::Lambda => 4,
        StripDamage::CostCount | StripDamage::Cost => 5,
        StripDamage::Samples => 6,
    }
}

/// Document 02's order, and then document 01's for the blocks.
const ORDER: [u32; 8] = [19, 1, 3, 7, 2, 4, 5, 6];

fn first_of(one: u32, other: u32) -> u32 {
    let mut in_order = ORDER.into_iter();
    let first = in_order.find(|&number| number == one || number == other);
    first.expect("a number that a damage brings")
}

/// The number decides for the whole call, or for all blocks; 6 only for those with such a sample.
fn meets(request: &StripRequest, number: u32) -> bool {
    let answer = strip_answer(request);
    let mut blocks = answer.blocks.iter().map(|block| block.number);
    match number {
        19 | 1 | 3 | 7 => answer.number == number && answer.blocks.is_empty(),
        6 => answer.number == 0 && blocks.any(|block| block == 6),
        _ => answer.number == 0 && blocks.all(|block| block == number),
    }
}

#[test]
fn the_first_damage_in_the_order_decides() {
    let (mut alone, mut orders) = (BTreeSet::new(), BTreeSet::new());
    for (request, kinds) in damaged(4000) {
        match kinds.damages[..] {
            [one] => {
                assert!(meets(&request, due(one)), "{}", one.name());
                alone.insert(one.name());
            }
            // Two damages of one number may undo each other.
            [one, other] if due(one) == due(other) => {}
            [one, other] => {
                let first = first_of(due(one), due(other));
                assert!(meets(&request, first), "{} {}", one.name(), other.name());
                orders.insert((first, due(one) + due(other) - first));
            }
            _ => unreachable!(),
        }
    }
    assert_eq!(alone.len(), StripDamage::ALL.len());
    assert_eq!(orders.len(), ORDER.len() * (ORDER.len() - 1) / 2);
}

/// Samples as many as the sides ask for, and room for them, so that nothing but the sides is wrong.
fn exact(request: &StripRequest) -> bool {
    let cells = |w: usize, h: usize| w.saturating_mul(h);
    let all = request.pairs().map(|(w, h)| cells(w, h));
    let all = all.fold(0, usize::saturating_add);
    request.samples.len() == all && request.map_room >= all
}

/// Such a sum of products would be the sound one if it wrapped.
fn wraps(request: &StripRequest) -> bool {
    let all = request.pairs().map(|(w, h)| w.wrapping_mul(h));
    let all = all.fold(0, usize::wrapping_add);
    request.samples.len() == all && !exact(request)
}

#[test]
fn sides_are_wrong_alone_and_close_to_sound() {
    let all: Vec<_> = damaged(6000).map(|(request, _)| request).collect();
    let wrong: Vec<_> = all.iter().filter(|r| strip_number(r) == 1).collect();
    for side in [0, 65, 128, 1 << 32, 1 << 63, usize::MAX] {
        assert!(wrong.iter().any(|r| r.sides.contains(&side)), "{side}");
    }
    assert!(wrong.iter().filter(|r| exact(r)).count() > 50);
    assert!(wrong.iter().filter(|r| !exact(r)).count() > 50);
    assert!(wrong.iter().any(|r| wraps(r)));
    for count in [0, 1, 3, 129, 130, 131] {
        let met = |r: &StripRequest| r.sides.len() == count && exact(r);
        assert!(all.iter().any(met), "{count} sides");
    }
}

#[test]
fn strips_are_of_every_kind() {
    let all: Vec<_> = (0..12_000).map(|index| strip(8, index)).collect();
    let some = |holds: &dyn Fn(&StripKinds) -> bool| all.iter().any(|(_, kinds)| holds(kinds));
    for &kind in Length::ALL {
        assert!(some(&|k| k.length == kind), "{}", kind.name());
    }
    for &kind in Sizes::ALL {
        assert!(some(&|k| k.sizes == kind), "{}", kind.name());
    }
    for kind in StripDamage::ALL {
        assert!(some(&|k| k.damages.contains(kind)), "{}", kind.name());
    }
    for &kind in Lambda::ALL {
        let is = |k: &StripKinds| k.shared.is_some_and(|shared| shared.lambda == kind);
        assert!(some(&is), "{}", kind.name());
    }
    for &kind in CostKind::ALL {
        let is = |k: &StripKinds| k.shared.is_some_and(|shared| shared.costs == kind);
        assert!(some(&is), "{}", kind.name());
    }
    for bd in 8..=12 {
        assert!(all.iter().any(|(request, _)| request.bd == bd));
    }
    let sound = all.iter().filter(|(request, _)| strip_number(request) == 0);
    let pairs: BTreeSet<_> = sound
        .flat_map(|(r, _)| r.pairs().collect::<Vec<_>>())
        .collect();
    for pair in [(1, 1), (1, 16), (16, 1), (64, 64), (64, 1), (1, 64)] {
        assert!(pairs.contains(&pair), "{pair:?}");
    }
}

#[test]
fn blocks_of_every_number_stand_among_others() {
    let answers = (0..2000).map(|index| strip_answer(&strip(8, index).0));
    let mixed = answers.filter(|answer| answer.blocks.iter().any(|block| block.number == 0));
    let numbers: BTreeSet<u32> = mixed
        .flat_map(|answer| answer.blocks)
        .map(|block| block.number)
        .collect();
    assert_eq!(numbers, BTreeSet::from([0, 6, 8, 9, 10]));
}

#[test]
fn full_strips_have_64_blocks() {
    for index in 0..50 {
        let (request, kinds) = full_strip(8, index);
        assert_eq!((kinds.length, request.sides.len()), (Length::All, 128));
        assert_eq!(strip_number(&request), 0);
    }
}

/// A case is drawn without the cases before it. By text, since a NaN is not equal to itself.
#[test]
fn a_seed_gives_the_same_strips() {
    for made in [strip, full_strip, damaged_strip] {
        let text = |seed, index| format!("{:?}", made(seed, index).0);
        assert_eq!(text(8, 5), text(8, 5));
        assert_ne!(text(8, 5), text(8, 6));
        assert_ne!(text(8, 5), text(9, 5));
    }
}

/// A block is answered as a request of its own is, and a refused one's places stay.
#[test]
fn blocks_are_answered_as_separate_requests() {
    for index in 0..300 {
        let (request, _) = strip(9, index);
        let answer = strip_answer(&request);
        let (mut map, mut flags) = (vec![FILL; request.map_room], vec![FILL; request.flag_room]);
        answer.write(&request, &mut map, &mut flags);
        if answer.number != 0 {
            assert!(map.iter().chain(&flags).all(|&place| place == FILL));
            continue;
        }
        let (mut map, mut flags) = (&map[..], &flags[..]);
        for (part, block) in parts(&request).iter().zip(&answer.blocks) {
            let (cells, rest) = map.split_at(part.w * part.h);
            let (lines, others) = flags.split_at(part.w.max(part.h));
            let separate = search_answer(&separate(&request, part.cells, (part.w, part.h)));
            assert_eq!(block, &separate);
            assert!(begins(cells, &separate.map) && begins(lines, &separate.flags));
            (map, flags) = (rest, others);
        }
        assert!(begins(map, &[]) && begins(flags, &[]));
    }
}

/// Whether these stand at the front and every other place is as it was.
fn begins(places: &[u8], written: &[u8]) -> bool {
    let (front, behind) = places.split_at(written.len());
    front == written && behind.iter().all(|&place| place == FILL)
}

fn separate(request: &StripRequest, at: usize, (w, h): (usize, usize)) -> SearchRequest {
    SearchRequest {
        w,
        h,
        bd: request.bd,
        lambda: request.lambda,
        costs: request.costs.clone(),
        samples: request.samples[at..at + w * h].to_vec(),
        map_room: w * h,
        flag_room: w.max(h),
    }
}

/// Eight 10s then eight 20s: document 01's worked block of 16 by 1.
fn tens() -> Vec<f32> {
    [[10.0; 8], [20.0; 8]].concat()
}

/// The worked block, one cell, a block of one level, one of 33, and the worked block again.
fn worked() -> StripRequest {
    let levels = (0..256).map(|at| (at % 33 * 7) as f32).collect();
    StripRequest {
        sides: vec![16, 1, 1, 1, 1, 16, 16, 16, 16, 1],
        samples: [tens(), vec![5.0], vec![10.4; 16], levels, tens()].concat(),
        bd: 8,
        lambda: 0.0,
        costs: vec![0.0; COSTS],
        map_room: 305,
        flag_room: 65,
    }
}

#[test]
fn a_worked_strip() {
    let answer = strip_answer(&worked());
    let mut fields = [0; 704];
    for (block, number) in [(0, 0), (1, 8), (2, 9), (3, 10), (4, 0)] {
        fields[11 * block] = number;
    }
    for block in [0, 4] {
        fields[11 * block + 1..][..3].copy_from_slice(&[2, 10, 20]);
    }
    assert_eq!((answer.number, answer.fields()), (0, fields));
    let mut estimates = [0.0; 64];
    (estimates[0], estimates[4]) = (51.0, 51.0);
    assert_eq!(answer.estimates(), estimates);
    // 8 + 2 + 5 bits of literals and the orientation, and the first cell.
    let mut splits = [0.0; 128];
    for block in [0, 4] {
        splits[2 * block..][..2].copy_from_slice(&[16.0, 1.0]);
    }
    assert_eq!(answer.splits(), splits);

    let (mut map, mut flags) = ([FILL; 310], [FILL; 70]);
    answer.write(&worked(), &mut map, &mut flags);
    let tens = [[0; 8], [1; 8]].concat();
    // One cell, 16 and 256 are left between; 15 flags behind the first, then 1, 16 and 16.
    let left = |count| vec![FILL; count];
    assert_eq!(map[..], [&tens[..], &left(273), &tens, &left(5)].concat());
    assert_eq!(flags[..], [&[0][..], &left(48), &[0], &left(20)].concat());
}

/// The strip of above, broken by one thing after the other, from the last test to the first.
#[test]
fn each_test_of_the_call_comes_before_the_next() {
    let mut request = worked();
    request.bd = 13;
    let numbers = |r: &StripRequest| -> Vec<u32> {
        let blocks = strip_answer(r).blocks;
        blocks.iter().map(|block| block.number).collect()
    };
    assert_eq!((strip_number(&request), numbers(&request)), (0, vec![2; 5]));
    // Heights alone take 35, widths alone 50.
    for room in [64, 50, 35, 0] {
        request.flag_room = room;
        assert_eq!(strip_number(&request), 7);
    }
    (request.flag_room, request.map_room) = (65, 304);
    assert_eq!(strip_number(&request), 7);
    request.samples.push(5.0);
    assert_eq!(strip_number(&request), 3);
    request.samples.truncate(304);
    assert_eq!(strip_number(&request), 3);
    for wrong in [0, 65, 1 << 63] {
        request.sides[9] = wrong;
        assert_eq!(strip_number(&request), 1);
    }
    request.sides.pop();
    assert_eq!(strip_number(&request), 19);
    request.sides.resize(130, 0);
    assert_eq!(strip_number(&request), 19);
    request.sides.truncate(128);
    assert_eq!(strip_number(&request), 1);
    request.sides.clear();
    assert_eq!(strip_number(&request), 19);
    assert_eq!(strip_answer(&request).fields(), [0; 704]);
}
