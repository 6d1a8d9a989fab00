//! Each of the documents' numbers is reached, and says what it means.

mod common;

use common::{block, counting, halves};
use palette_station::report::Report;
use palette_station::{
    context, list, list_into, pred_into, read, read_into, search, search_into, search_strip,
    search_strip_into, Block, Blocks, Colors, Costs, Palette, Refusal,
};

fn search_number(change: impl FnOnce(&mut Block, &mut f32, &mut [f32; 301])) -> u32 {
    let samples = halves(32);
    let (mut block, mut lambda) = (block(&samples, 16, 2), 60.0);
    let mut table = *Costs::default().as_table();
    change(&mut block, &mut lambda, &mut table);
    let found = search(&block, lambda, &Costs::from_table(table));
    found.map_or_else(Refusal::number, |_| 0)
}

#[test]
fn search_1_to_10() {
    assert_eq!(search_number(|_, _, _| {}), 0);
    assert_eq!(search_number(|block, _, _| block.width = 65), 1);
    assert_eq!(search_number(|block, _, _| block.bd = 13), 2);
    assert_eq!(search_number(|block, _, _| block.height = 3), 3);
    assert_eq!(search_number(|_, lambda, _| *lambda = -1.0), 4);
    assert_eq!(search_number(|_, _, costs| costs[300] = 32.5), 5);
    assert_eq!(search_number(|block, _, _| block.samples = &[256.0; 32]), 6);
    let samples = halves(32);
    let (mut map, mut flags) = ([0; 32], [0; 15]);
    let costs = Costs::default();
    let refused = search_into(&block(&samples, 16, 2), 60.0, &costs, &mut map, &mut flags);
    assert_eq!(refused, Err(Refusal::ROOM));
    assert_eq!(
        search_number(|block, _, _| (block.width, block.height) = (8, 4)),
        8
    );
    assert_eq!(search_number(|block, _, _| block.samples = &[255.0; 32]), 9);
    let ramp: Vec<f32> = (0..64).map(|level| level as f32).collect();
    assert_eq!(
        search(&block(&ramp, 32, 2), 60.0, &costs),
        Err(Refusal::MANY_LEVELS)
    );
}

/// The number of a strip as a whole; its blocks have the search's own.
fn strip_number(change: impl FnOnce(&mut Blocks, &mut usize)) -> u32 {
    let samples = halves(64);
    let mut blocks = Blocks {
        sides: &[[16, 2]; 2],
        samples: &samples,
        bd: 8,
    };
    let (mut map, mut flags, mut room) = ([0; 64], [0; 32], 64);
    change(&mut blocks, &mut room);
    let costs = Costs::default();
    let answers = search_strip_into(&blocks, 60.0, &costs, &mut map[..room], &mut flags);
    answers.map_or_else(Refusal::number, |_| 0)
}

#[test]
fn strip_1_3_7_and_19() {
    assert_eq!(strip_number(|_, _| {}), 0);
    assert_eq!(strip_number(|blocks, _| blocks.sides = &[[16, 65]; 2]), 1);
    assert_eq!(strip_number(|blocks, _| blocks.sides = &[[16, 2]; 3]), 3);
    assert_eq!(strip_number(|_, room| *room = 63), 7);
    assert_eq!(strip_number(|blocks, _| blocks.sides = &[[1, 1]; 65]), 19);
    assert_eq!(strip_number(|blocks, _| blocks.sides = &[]), 19);
    let none = search_strip(&[], 60.0, &Costs::default());
    assert_eq!(none.err(), Some(Refusal::BLOCK_COUNT));
}

fn list_number(cache: &[u16], change: impl FnOnce(&mut Palette)) -> u32 {
    let mut palette = Palette::example();
    change(&mut palette);
    list(&palette, cache).map_or_else(Refusal::number, |_| 0)
}

#[test]
fn listing_1_2_and_11_to_16() {
    assert_eq!(list_number(&[], |_| {}), 0);
    assert_eq!(list_number(&[], |p| p.height = 0), 1);
    assert_eq!(list_number(&[], |p| p.bd = 7), 2);
    assert_eq!(list_number(&[], |p| p.colors = Colors::default()), 11);
    let mut wide = counting(64, 2, 2);
    wide.transposed = true;
    assert_eq!(list(&wide, &[]), Err(Refusal::ORIENTATION));
    assert_eq!(list_number(&[0; 65], |_| {}), 13);
    assert_eq!(list_number(&[], |p| p.map.truncate(7)), 14);
    assert_eq!(list_number(&[], |p| p.flags[0] = 2), 15);
    let mut words = [0; 11];
    let refused = list_into(&Palette::example().view(), &[], &mut words);
    assert_eq!(refused, Err(Refusal::WORD_ROOM));
}

#[test]
fn prediction_7_and_context_18() {
    let mut values = [0.0; 7];
    let refused = pred_into(&Palette::example().view(), &mut values);
    assert_eq!(refused, Err(Refusal::ROOM));
    assert_eq!(context(&[0; 4], 2, 0, 0, 2), Err(Refusal::CONTEXT));
}

/// The number of the example's list, changed.
fn read_number(cache: &[u16], change: impl FnOnce(&mut Vec<u32>)) -> u32 {
    let mut words = list(&Palette::example(), &[]).unwrap().words;
    change(&mut words);
    read(4, 2, 8, &words, cache).map_or_else(Refusal::number, |_| 0)
}

#[test]
fn reading_1_2_7_13_and_20_to_23() {
    assert_eq!(read_number(&[], |_| {}), 0);
    assert_eq!(read(4, 65, 8, &[], &[]), Err(Refusal::SIDE));
    assert_eq!(read(4, 2, 13, &[], &[]), Err(Refusal::DEPTH));
    assert_eq!(read_number(&[0; 65], |_| {}), 13);
    let (mut map, mut flags) = ([0; 8], [0; 3]);
    let refused = read_into(4, 2, 8, &[], &[], &mut map, &mut flags);
    assert_eq!(refused, Err(Refusal::ROOM));
    assert_eq!(read_number(&[], |words| words.truncate(11)), 20);
    assert_eq!(read_number(&[], |words| words[0] = 7), 21);
    assert_eq!(read_number(&[], |words| words.push(0)), 22);
    // The cache has the first colour, but its bit says that it is not taken.
    assert_eq!(read_number(&[16], |words| words.insert(1, 0x0101_0000)), 23);
}

#[test]
fn costs_24_and_25() {
    let number = |table: &[u16]| Costs::adapted(table).map_or_else(Refusal::number, |_| 0);
    assert_eq!(number(&[]), 0);
    assert_eq!(number(&[0; 259]), 24);
    assert_eq!(number(&[0; 260]), 25);
}

/// In document 02's words. Two meanings exchanged would still be of their own each.
#[test]
fn meanings_of_19_to_25() {
    let shown = |number| Refusal::from_number(number).unwrap().to_string();
    let shown = [19, 20, 21, 22, 23, 24, 25].map(shown);
    let due = [
        "refused by 19: no block, more than 64 or half a pair of sides in a strip, \
         or more than 9,999 palettes in a block report",
        "refused by 20: the list ends where a word is due",
        "refused by 21: a word whose kind or first field is not the one due, \
         or whose second is beyond its range",
        "refused by 22: words left over behind the list",
        "refused by 23: a list that reads to its end but that the listing would not write",
        "refused by 24: an adapted table of a length other than 0 or 260",
        "refused by 25: an adapted table whose used rows do not fall strictly from at most 32,767 \
         to at least 1, or whose unused places are not 0",
    ];
    assert_eq!(shown, due);
}

/// Only the listing program gives 17.
#[test]
fn text_17() {
    let Some(printed) = common::listing_program(b"no palette\n") else {
        return;
    };
    let fields = String::from_utf8_lossy(&printed);
    let fields: Vec<u32> = fields
        .split_whitespace()
        .map(|f| f.parse().unwrap())
        .collect();
    assert_eq!(fields, [0, Refusal::TEXT.number()]);
}

#[test]
fn report_19() {
    let mut report = Report::new();
    (0..9999).for_each(|_| report.push(Err(Refusal::SMALL)));
    assert_eq!(report.lines().last(), Some(Err(Refusal::SMALL)));
    report.push(Err(Refusal::SMALL));
    let last = report.lines().last().map(|line| line.unwrap_err().number());
    assert_eq!(last, Some(19));
}

#[test]
fn every_number_has_a_meaning_of_its_own() {
    let refusals: Vec<Refusal> = (1..=25).filter_map(Refusal::from_number).collect();
    assert_eq!(refusals.len(), 25);
    for (place, refusal) in refusals.iter().enumerate() {
        assert_eq!(refusal.number() as usize, place + 1);
        let shown = format!("refused by {}: {}", place + 1, refusal.meaning());
        assert_eq!(refusal.to_string(), shown);
        let others = refusals
            .iter()
            .filter(|other| other.meaning() == refusal.meaning());
        assert_eq!(others.count(), 1);
        assert_eq!(
            refusal.means_no_palette(),
            (8..=10).contains(&refusal.number())
        );
    }
    assert_eq!(Refusal::from_number(0), None);
    assert_eq!(Refusal::from_number(26), None);
}
