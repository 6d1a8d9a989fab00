//! Requests for the search are damaged in every way and get every number, in the order of the
//! tests.

use palette_oracle::answers::{run_original, search_answer};
use palette_oracle::check::{search_number, Asked};
use palette_oracle::generate::searches::{search_request, SearchDamage, SearchRequest};
use std::collections::BTreeSet;

const COUNT: u64 = 8000;

#[test]
fn some_blocks_are_close() {
    let close = |index: &u64| search_request(6, *index).1.block.is_none();
    let count = (0..COUNT).filter(close).count() as u64;
    assert!((COUNT / 10..COUNT / 7).contains(&count));
}

fn requests() -> impl Iterator<Item = (SearchRequest, Vec<SearchDamage>)> {
    (0..COUNT).map(|index| {
        let (request, kinds) = search_request(6, index);
        (request, kinds.damages)
    })
}

/// The number that each damage alone brings.
fn due(damage: SearchDamage) -> u32 {
    match damage {
        SearchDamage::Side => 1,
        SearchDamage::Depth => 2,
        SearchDamage::SampleCount => 3,
        SearchDamage::Lambda => 4,
        SearchDamage::CostCount | SearchDamage::Cost => 5,
        SearchDamage::Sample => 6,
        SearchDamage::MapRoom | SearchDamage::FlagRoom => 7,
    }
}

#[test]
fn the_first_damage_in_the_tables_order_decides() {
    let (mut numbers, mut done, mut orders) = (BTreeSet::new(), 0, BTreeSet::new());
    for (request, damages) in requests() {
        let number = search_number(&request.asked());
        numbers.insert(number);
        match damages[..] {
            [] => assert!([0, 8, 9, 10].contains(&number)),
            [one] => assert_eq!(number, due(one)),
            // Two damages of one thing may undo each other.
            [one, other] if one == other => {}
            [one, other] => {
                let pair = (due(one).min(due(other)), due(one).max(due(other)));
                assert_eq!(number, pair.0, "{damages:?}");
                orders.insert(pair);
            }
            _ => unreachable!(),
        }
        done += usize::from(!damages.is_empty());
    }
    assert!(numbers.into_iter().eq(0..=10));
    assert!((COUNT as usize / 12..COUNT as usize / 8).contains(&done));
    assert!(orders.len() >= 20, "{orders:?}");
}

#[test]
fn every_damage_is_done_and_values_out_of_range_are_of_every_sort() {
    let all: Vec<_> = requests().collect();
    for damage in SearchDamage::ALL {
        assert!(all.iter().any(|(_, damages)| damages.contains(damage)));
    }
    let values = |of: fn(&SearchRequest) -> Vec<f32>| -> Vec<f32> {
        all.iter().flat_map(|(request, _)| of(request)).collect()
    };
    for values in [
        values(|r| vec![r.lambda]),
        values(|r| r.costs.clone()),
        values(|r| r.samples.clone()),
    ] {
        assert!(values.iter().any(|v| v.is_nan()) && values.iter().any(|&v| v < 0.0));
        assert!(values.contains(&f32::INFINITY) && values.contains(&f32::NEG_INFINITY));
        let quiet = |v: &&f32| v.to_bits() & 0x0040_0000 != 0;
        assert!(values.iter().filter(|v| v.is_nan()).all(|v| quiet(&v)));
    }
}

#[test]
fn rooms_are_exact_half_of_the_time() {
    let sound: Vec<_> = requests().filter(|(_, d)| d.is_empty()).collect();
    let exact_map = |r: &SearchRequest| r.map_room == r.w * r.h;
    let exact_flags = |r: &SearchRequest| r.flag_room == r.w.max(r.h);
    for exact in [exact_map, exact_flags] {
        let share = sound.iter().filter(|(r, _)| exact(r)).count() * 100 / sound.len();
        assert!((45..=55).contains(&share));
    }
}

#[test]
fn answers_fit_the_rooms() {
    for (request, _) in requests().take(1000) {
        let answer = search_answer(&request);
        assert_eq!(
            run_original(&request.asked(), answer.number).is_some(),
            answer.number == 0
        );
        assert!(answer.map.len() <= request.map_room && answer.flags.len() <= request.flag_room);
        if answer.number == 0 {
            let lines = if answer.fields[9] == 1 {
                request.w
            } else {
                request.h
            };
            assert_eq!(
                (answer.map.len(), answer.flags.len()),
                (request.samples.len(), lines)
            );
        } else {
            assert_eq!((answer.fields, answer.bits.to_bits()), ([0; 10], 0));
        }
    }
}

/// One request typed by hand, each row of document 01's table broken in turn from the last to the
/// first, so that every test is seen to come before the ones after it.
#[test]
fn each_row_comes_before_the_next() {
    let costs = [1.0; 302];
    let samples = [3.0; 16 * 65];
    let mut asked = Asked {
        w: 15,
        h: 15,
        bd: 8,
        lambda: 0.0,
        costs: &costs[..301],
        samples: &samples[..225],
        map_room: 225,
        flag_room: 15,
    };
    assert_eq!(search_number(&asked), 8);
    (asked.w, asked.samples, asked.map_room, asked.flag_room) = (16, &samples[..240], 240, 16);
    assert_eq!(search_number(&asked), 9);
    asked.flag_room = 15;
    assert_eq!(search_number(&asked), 7);
    (asked.flag_room, asked.map_room) = (16, 239);
    assert_eq!(search_number(&asked), 7);
    let wrong: Vec<f32> = (0..240)
        .map(|at| if at == 239 { 255.5 } else { 40.0 + at as f32 })
        .collect();
    asked.samples = &wrong;
    assert_eq!(search_number(&asked), 6);
    asked.costs = &costs;
    assert_eq!(search_number(&asked), 5);
    asked.lambda = -1.0;
    assert_eq!(search_number(&asked), 4);
    asked.samples = &wrong[1..];
    assert_eq!(search_number(&asked), 3);
    asked.bd = 13;
    assert_eq!(search_number(&asked), 2);
    asked.h = 65;
    assert_eq!(search_number(&asked), 1);
}
