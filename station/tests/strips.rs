//! Strips beside separate searches of their blocks, and the answers as an iterator.

mod common;

use common::{bitwise, block, cases, halves, Bitwise, Drawn, Lined, Random, BYTE};
use palette_station::{
    list, list_into, search, search_into, search_strip, search_strip_into, Answers, Block, Blocks,
    Costs, PaletteView, Refusal, MAX_WORDS,
};

fn owned(answer: Result<PaletteView, Refusal>) -> Bitwise {
    bitwise(answer.map(|palette| palette.to_palette()))
}

/// A block of a kind of its own: found, or refused by 6, 8, 9 or 10.
fn mixed(random: &mut Random, bd: u32) -> Drawn {
    let kind = random.below(8);
    let longest = if kind == 0 { 15 } else { 64 };
    let (width, height) = match random.below(3) {
        0 => (random.between(1, longest), random.between(1, 4)),
        1 => (random.between(1, 4), random.between(1, longest)),
        _ => (random.between(1, longest), random.between(1, longest)),
    };
    let mut samples = random.samples(width * height, bd);
    match kind {
        1 => samples.fill(random.below(1 << bd) as f32),
        2 => samples.fill_with(|| random.below(1 << bd) as f32),
        3 => samples[random.between(0, width * height - 1)] = -1.0,
        _ => {}
    }
    Drawn {
        samples,
        width,
        height,
        bd,
    }
}

/// A strip with what it is priced by.
struct Case {
    drawn: Vec<Drawn>,
    lambda: f32,
    costs: Costs,
}

impl Case {
    fn of(drawn: Vec<Drawn>, random: &mut Random) -> Case {
        let mut table = *Costs::default().as_table();
        table[random.between(0, 300)] = random.below(33) as f32;
        Case {
            drawn,
            lambda: random.below(40_000) as f32 / 128.0,
            costs: Costs::from_table(table),
        }
    }

    fn blocks(&self) -> Vec<Block<'_>> {
        self.drawn.iter().map(Drawn::block).collect()
    }

    fn one_by_one(&self) -> Vec<Bitwise> {
        let blocks = self.blocks().into_iter();
        let answers = blocks.map(|block| search(&block, self.lambda, &self.costs));
        answers.map(bitwise).collect()
    }
}

/// A strip of one depth.
fn case(random: &mut Random) -> Case {
    let bd = random.between(8, 12) as u32;
    let count = match random.below(4) {
        0 => 64,
        _ => random.between(1, 20),
    };
    let drawn = (0..count).map(|_| mixed(random, bd)).collect();
    Case::of(drawn, random)
}

/// What separate calls answer, each with exactly its part of buffers as long as the strip's.
fn separate(case: &Case, map: &mut [u8], flags: &mut [u8]) -> Vec<Bitwise> {
    let (mut map, mut flags) = (map, flags);
    let mut answers = Vec::new();
    for block in case.blocks() {
        let cells = map.split_off_mut(..block.width * block.height).unwrap();
        let lines = flags.split_off_mut(..block.width.max(block.height));
        let lines = lines.unwrap();
        let answer = search_into(&block, case.lambda, &case.costs, cells, lines);
        answers.push(owned(answer));
    }
    answers
}

/// Answers and whole buffers, with some room to spare that has to stay as it is.
#[test]
fn each_block_has_what_a_separate_call_gives() {
    let mut random = Random(61);
    let mut numbers = [0; 11];
    for place in 0..cases(200) {
        let case = case(&mut random);
        let mut lined = Lined::of(&case.blocks());
        lined.bd = case.drawn[0].bd;
        let rooms = (lined.cells() + random.between(0, 9), lined.lines() + 3);
        let (mut map, mut flags) = (vec![BYTE; rooms.0], vec![BYTE; rooms.1]);
        let (mut due_map, mut due_flags) = (map.clone(), flags.clone());
        let due = separate(&case, &mut due_map, &mut due_flags);
        let blocks = lined.blocks();
        let answers = search_strip_into(&blocks, case.lambda, &case.costs, &mut map, &mut flags);
        let answers: Vec<Bitwise> = answers.unwrap().map(owned).collect();
        assert_eq!(answers, due, "strip {place}");
        assert_eq!((map, flags), (due_map, due_flags), "strip {place}");
        for answer in due {
            numbers[answer.map_or_else(Refusal::number, |_| 0) as usize] += 1;
        }
    }
    for number in [0, 6, 8, 9, 10] {
        assert!(numbers[number] > 100, "{numbers:?} of number {number}");
    }
}

/// A strip of up to three depths in runs, now and then one that is none.
fn case_of_depths(random: &mut Random) -> Case {
    let depths = [(); 3].map(|()| random.between(8, 12) as u32);
    let mut bd = depths[0];
    let mut drawn = Vec::new();
    for _ in 0..random.between(2, 24) {
        if random.below(3) == 0 {
            bd = depths[random.between(0, 2)];
        }
        let mut block = mixed(random, bd);
        if random.below(20) == 0 {
            block.bd = [0, 7, 13, u32::MAX][random.between(0, 3)];
        }
        drawn.push(block);
    }
    Case::of(drawn, random)
}

#[test]
fn blocks_of_different_depths_have_what_they_have_alone() {
    let mut random = Random(62);
    let (mut several, mut refused) = (0, 0);
    for place in 0..cases(200) {
        let case = case_of_depths(&mut random);
        let answers = search_strip(&case.blocks(), case.lambda, &case.costs).unwrap();
        let answers: Vec<Bitwise> = answers.map(bitwise).collect();
        let due = case.one_by_one();
        assert_eq!(answers, due, "strip {place}");
        let found = due.iter().flatten().map(|(palette, _)| palette.bd);
        let mut depths: Vec<u32> = found.collect();
        depths.dedup();
        several += usize::from(depths.len() > 1);
        refused += usize::from(due.contains(&Err(Refusal::DEPTH)));
    }
    assert!(several > 100, "{several} strips with several depths");
    assert!(refused > 50, "{refused} strips with a depth that is none");
}

#[test]
fn the_largest_strip() {
    let mut random = Random(63);
    let samples = random.samples(64 * 4096, 8);
    let sides = [[64, 64]; 64];
    let blocks = Blocks {
        sides: &sides,
        samples: &samples,
        bd: 8,
    };
    let (mut map, mut flags) = (vec![BYTE; 64 * 4096], vec![BYTE; 64 * 64]);
    let answers = search_strip_into(&blocks, 60.0, &Costs::default(), &mut map, &mut flags);
    let alone = samples.chunks(4096).map(|samples| {
        let found = search(&block(samples, 64, 64), 60.0, &Costs::default());
        bitwise(found)
    });
    assert!(answers.unwrap().map(owned).eq(alone));
    assert!(!map.contains(&BYTE) && !flags.contains(&BYTE));
}

/// Four blocks of 16 by 1, of which the third has one level.
fn four() -> Lined {
    let samples = halves(16);
    let found = block(&samples, 16, 1);
    Lined::of(&[found, found, block(&[7.0; 16], 16, 1), found])
}

const FREE: Costs = Costs::from_table([0.0; 301]);

#[test]
fn answers_tell_how_many_are_left() {
    let four = four();
    let (mut map, mut flags) = ([0; 64], [0; 64]);
    let answers = search_strip_into(&four.blocks(), 0.0, &FREE, &mut map, &mut flags);
    let mut answers = answers.unwrap();
    for left in (0..4).rev() {
        assert_eq!(answers.len(), left + 1);
        assert_eq!(answers.next().unwrap().is_ok(), left != 1);
        assert_eq!(answers.size_hint(), (left, Some(left)));
    }
    for _ in 0..3 {
        assert_eq!(answers.next(), None);
        assert_eq!(answers.len(), 0);
    }
}

#[test]
fn a_clone_goes_on_from_the_same_place() {
    let four = four();
    let (mut map, mut flags) = ([0; 64], [0; 64]);
    let answers = search_strip_into(&four.blocks(), 0.0, &FREE, &mut map, &mut flags);
    let mut answers = answers.unwrap();
    for left in (0..4).rev() {
        assert!(answers.clone().eq(answers.clone()));
        answers.next();
        assert_eq!(answers.clone().count(), left);
    }
}

/// The palettes borrow the buffers, neither the blocks nor the iterator.
#[test]
fn palettes_outlive_blocks_and_answers() {
    let (mut map, mut flags) = ([BYTE; 64], [BYTE; 64]);
    let palettes: Vec<PaletteView> = {
        let four = four();
        let answers = search_strip_into(&four.blocks(), 0.0, &FREE, &mut map, &mut flags);
        answers.unwrap().flatten().collect()
    };
    assert_eq!(palettes.len(), 3);
    let mut words = [0; MAX_WORDS];
    for palette in palettes {
        assert_eq!(palette.colors[..], [10, 20]);
        assert_eq!((palette.head, palette.map_bits), (16.0, 1.0));
        assert_eq!(
            palette.map,
            [0, 0, 0, 0, 0, 0, 0, 0, 1, 1, 1, 1, 1, 1, 1, 1]
        );
        assert_eq!(palette.flags, [0]);
        let listing = list_into(&palette, &[], &mut words).unwrap();
        assert_eq!(
            listing.words,
            list(&palette.to_palette(), &[]).unwrap().words
        );
    }
}

/// So a station may search in one thread and list in another.
#[test]
fn answers_can_be_sent() {
    fn sent<T: Send + Sync>(_: &T) {}
    let four = four();
    let (mut map, mut flags) = ([0; 64], [0; 64]);
    let blocks = four.blocks();
    sent(&blocks);
    let answers: Answers = search_strip_into(&blocks, 0.0, &FREE, &mut map, &mut flags).unwrap();
    sent(&answers);
    let found = std::thread::scope(|scope| scope.spawn(|| answers.flatten().count()).join());
    assert_eq!(found.unwrap(), 3);
}
