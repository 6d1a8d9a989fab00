//! The strip at its limits: counts, sides, samples and rooms of all blocks together, the blocks'
//! own numbers, and untouched memory.

mod common;

use common::{block, halves, Lined, BYTE};
use palette_station::{
    search_strip, search_strip_into, Block, Blocks, Costs, Refusal, MAX_CELLS, MAX_LINES, MAX_STRIP,
};

const FREE: Costs = Costs::from_table([0.0; 301]);

/// What a strip says: as a whole, or the number of each block, 0 if found.
type Said = Result<Vec<u32>, Refusal>;

/// What a strip with these rooms and a place more behind each says, and what the buffers hold.
fn with_rooms(
    blocks: &Blocks,
    (lambda, costs): (f32, &Costs),
    (cells, lines): (usize, usize),
) -> (Said, Vec<u8>, Vec<u8>) {
    let (mut map, mut flags) = (vec![BYTE; cells + 1], vec![BYTE; lines + 1]);
    let (map_room, flag_room) = (&mut map[..cells], &mut flags[..lines]);
    let answers = search_strip_into(blocks, lambda, costs, map_room, flag_room);
    let number = |answer: Result<_, Refusal>| answer.map_or_else(Refusal::number, |_| 0);
    let said = answers.map(|answers| answers.map(number).collect());
    (said, map, flags)
}

fn untouched(buffer: &[u8]) -> bool {
    buffer.iter().all(|&byte| byte == BYTE)
}

const ENOUGH: (usize, usize) = (MAX_STRIP * MAX_CELLS, MAX_STRIP * MAX_LINES);

/// Asserts that the strip as a whole is refused, and that nothing was written.
fn refused(blocks: &Blocks, rooms: (usize, usize), due: Refusal) {
    let (said, map, flags) = with_rooms(blocks, (0.0, &FREE), rooms);
    assert_eq!(said, Err(due));
    assert!(untouched(&map) && untouched(&flags), "{due}");
}

/// Asserts the number of every block, and that nothing was written.
fn each_refused(blocks: &Blocks, lambda: f32, costs: &Costs, due: u32) {
    let (said, map, flags) = with_rooms(blocks, (lambda, costs), ENOUGH);
    assert_eq!(said, Ok(vec![due; blocks.sides.len()]));
    assert!(untouched(&map) && untouched(&flags), "number {due}");
}

/// 16 by 5, 5 by 16 and 16 by 1, each with a palette.
fn three() -> Lined {
    let samples = halves(80);
    Lined::of(&[
        block(&samples, 16, 5),
        block(&samples, 5, 16),
        block(&samples[..16], 16, 1),
    ])
}

#[test]
fn rooms_exact_and_longer() {
    let three = three();
    assert_eq!((three.cells(), three.lines()), (176, 48));
    let (_, exact, signs) = with_rooms(&three.blocks(), (0.0, &FREE), (176, 48));
    for more in [0, 1, 40] {
        let rooms = (176 + more, 48 + more);
        let (said, map, flags) = with_rooms(&three.blocks(), (0.0, &FREE), rooms);
        assert_eq!(said, Ok(vec![0; 3]));
        assert_eq!((&map[..176], &flags[..48]), (&exact[..176], &signs[..48]));
        assert!(untouched(&map[176..]) && untouched(&flags[48..]));
    }
    // The first and the last block have fewer lines than places for flags.
    assert!(untouched(&signs[5..16]) && untouched(&signs[33..]));
    assert!(exact[..176].iter().all(|index| *index < 2));
    assert!(signs[..5]
        .iter()
        .chain(&signs[16..33])
        .all(|flag| *flag < 3));
}

#[test]
fn rooms_too_small_are_7() {
    let three = three();
    for rooms in [(175, 48), (176, 47), (175, 47), (0, 48), (176, 0), (0, 0)] {
        refused(&three.blocks(), rooms, Refusal::ROOM);
    }
    // Enough for the heights, but not for the longer sides.
    refused(&three.blocks(), (176, 5 + 16 + 1), Refusal::ROOM);
}

#[test]
fn one_to_64_blocks() {
    let samples = halves(16 * 65);
    let sides = vec![[16, 1]; 65];
    let of = |count: usize| Blocks {
        sides: &sides[..count],
        samples: &samples[..16 * count],
        bd: 8,
    };
    for count in [1, 2, 63, 64] {
        let (said, ..) = with_rooms(&of(count), (0.0, &FREE), ENOUGH);
        assert_eq!(said, Ok(vec![0; count]));
        let alone = vec![block(&samples[..16], 16, 1); count];
        let mut answers = search_strip(&alone, 0.0, &FREE).unwrap();
        assert_eq!(answers.len(), count);
        assert!(answers.all(|answer| answer.is_ok()));
    }
    for count in [0, 65] {
        refused(&of(count), ENOUGH, Refusal::BLOCK_COUNT);
        let alone = vec![block(&samples[..16], 16, 1); count];
        let answers = search_strip(&alone, 0.0, &FREE);
        assert_eq!(answers.err(), Some(Refusal::BLOCK_COUNT));
    }
    // No depth has more than 64 here.
    let mut alone = vec![block(&samples[..16], 16, 1); 65];
    alone[30].bd = 10;
    let answers = search_strip(&alone, 0.0, &FREE);
    assert_eq!(answers.err(), Some(Refusal::BLOCK_COUNT));
    let many = vec![[16, 1]; 100_000];
    let many = Blocks {
        sides: &many,
        ..of(65)
    };
    refused(&many, ENOUGH, Refusal::BLOCK_COUNT);
}

#[test]
fn a_side_out_of_range_anywhere_is_1() {
    let samples = halves(16 * 64);
    for place in [0, 1, 31, 62, 63] {
        for wrong in [
            [0, 1],
            [16, 0],
            [65, 1],
            [1, 65],
            [usize::MAX, 2],
            [1 << 63, 1 << 63],
        ] {
            let mut sides = [[16, 1]; 64];
            sides[place] = wrong;
            let blocks = Blocks {
                sides: &sides,
                samples: &samples,
                bd: 8,
            };
            refused(&blocks, ENOUGH, Refusal::SIDE);
            let alone = sides.map(|[width, height]| block(&samples[..16], width, height));
            assert_eq!(search_strip(&alone, 0.0, &FREE).err(), Some(Refusal::SIDE));
        }
    }
}

#[test]
fn another_count_of_samples_is_3() {
    let three = three();
    let longer = halves(177);
    for count in [0, 1, 80, 160, 175, 177] {
        let blocks = Blocks {
            samples: &longer[..count],
            ..three.blocks()
        };
        refused(&blocks, ENOUGH, Refusal::SAMPLE_COUNT);
    }
}

/// In every place, also where a block has as many too few as another one has too many: no sample
/// becomes one of another block's.
#[test]
fn each_blocks_own_count_of_samples() {
    let samples = halves(64);
    let of = |count: usize| block(&samples[..count], 16, 2);
    let strips = [
        vec![of(31)],
        vec![of(33)],
        vec![of(31), of(33)],
        vec![of(33), of(31)],
        vec![of(64), of(0)],
        vec![of(0), of(64)],
        vec![of(32), of(31), of(32), of(33)],
        vec![of(31), of(32), of(32), of(32), of(33)],
    ];
    for strip in strips {
        let counts: Vec<usize> = strip.iter().map(|block| block.samples.len()).collect();
        let answers = search_strip(&strip, 0.0, &FREE);
        assert_eq!(answers.err(), Some(Refusal::SAMPLE_COUNT), "{counts:?}");
    }
    assert!(search_strip(&[of(32), of(32)], 0.0, &FREE).is_ok());
}

fn blocks<'a>(bd: u32, sides: &'a [[usize; 2]], samples: &'a [f32]) -> Blocks<'a> {
    Blocks { sides, samples, bd }
}

/// Everything is wrong; what is named is mended, and the next number shows.
#[test]
fn tests_come_in_their_order() {
    let mut samples = vec![f32::NAN; 64 * 16 + 1];
    let mut sides = vec![[16, 1]; 65];
    sides[40] = [0, 1];
    refused(&blocks(7, &sides, &samples), (0, 0), Refusal::BLOCK_COUNT);
    sides.pop();
    refused(&blocks(7, &sides, &samples), (0, 0), Refusal::SIDE);
    sides[40] = [16, 1];
    refused(&blocks(7, &sides, &samples), (0, 0), Refusal::SAMPLE_COUNT);
    samples.pop();
    for rooms in [(1023, 1024), (1024, 1023)] {
        refused(&blocks(7, &sides, &samples), rooms, Refusal::ROOM);
    }
    // From here on it is each block's own.
    let dear = Costs::from_table([33.0; 301]);
    each_refused(&blocks(7, &sides, &samples), f32::NAN, &dear, 2);
    each_refused(&blocks(8, &sides, &samples), f32::NAN, &dear, 4);
    each_refused(&blocks(8, &sides, &samples), 0.0, &dear, 5);
    each_refused(&blocks(8, &sides, &samples), 0.0, &FREE, 6);
    samples.fill(1.0);
    each_refused(&blocks(8, &sides, &samples), 0.0, &FREE, 9);
    let samples = halves(1024);
    let (said, ..) = with_rooms(&blocks(8, &sides, &samples), (0.0, &FREE), ENOUGH);
    assert_eq!(said, Ok(vec![0; 64]));
}

/// The same of blocks with samples of their own.
#[test]
fn tests_come_in_their_order_for_blocks() {
    let number = |blocks: &[Block], lambda, costs: &Costs| match search_strip(blocks, lambda, costs)
    {
        Err(refusal) => (refusal.number(), vec![]),
        Ok(answers) => {
            let number = |answer: Result<_, Refusal>| answer.map_or_else(Refusal::number, |_| 0);
            (0, answers.map(number).collect::<Vec<u32>>())
        }
    };
    let (wrong, dear) = ([f32::NAN; 17], Costs::from_table([33.0; 301]));
    let mut blocks = vec![
        Block {
            bd: 7,
            ..block(&wrong, 16, 1)
        };
        65
    ];
    blocks[40].height = 65;
    assert_eq!(number(&blocks, f32::NAN, &dear), (19, vec![]));
    blocks.truncate(64);
    assert_eq!(number(&blocks, f32::NAN, &dear), (1, vec![]));
    blocks[40].height = 1;
    assert_eq!(number(&blocks, f32::NAN, &dear), (3, vec![]));
    for block in &mut blocks {
        block.samples = &wrong[1..];
    }
    assert_eq!(number(&blocks, f32::NAN, &dear), (0, vec![2; 64]));
    for block in &mut blocks {
        block.bd = 8;
    }
    assert_eq!(number(&blocks, f32::NAN, &dear), (0, vec![4; 64]));
    assert_eq!(number(&blocks, 0.0, &dear), (0, vec![5; 64]));
    assert_eq!(number(&blocks, 0.0, &FREE), (0, vec![6; 64]));
}

/// A block of each refusal between found ones, and what is in their places.
#[test]
fn refused_blocks_among_found_ones() {
    let samples = halves(256);
    let ramp: Vec<f32> = (0..64).map(|level| level as f32).collect();
    let mut above = samples[..32].to_vec();
    above[31] = 255.5;
    let blocks = [
        (0, block(&samples[..32], 16, 2)),
        (6, block(&above, 16, 2)),
        (0, block(&samples[..80], 5, 16)),
        (8, block(&samples[..225], 15, 15)),
        (9, block(&[7.0; 48], 3, 16)),
        (0, block(&samples, 16, 16)),
        (10, block(&ramp, 64, 1)),
        (0, block(&samples[..64], 64, 1)),
    ];
    let lined = Lined::of(&blocks.map(|(_, block)| block));
    let rooms = (lined.cells(), lined.lines());
    let (said, map, flags) = with_rooms(&lined.blocks(), (60.0, &Costs::default()), rooms);
    assert_eq!(said, Ok(blocks.map(|(due, _)| due).to_vec()));
    let (mut cells, mut lines) = (&map[..], &flags[..]);
    for (number, block) in blocks {
        let cells = cells.split_off(..block.width * block.height).unwrap();
        let lines = lines.split_off(..block.width.max(block.height)).unwrap();
        if number == 0 {
            assert!(!cells.contains(&BYTE) && lines[0] != BYTE);
        } else {
            assert!(untouched(cells) && untouched(lines), "number {number}");
        }
    }
    assert_eq!((cells, lines), (&[BYTE][..], &[BYTE][..]));
}

/// Nothing is copied for a strip that is refused as a whole: the second would take 256 GB.
#[test]
fn blocks_too_large_to_gather() {
    let samples = vec![0.0; 1 << 20];
    let large = Block {
        samples: &samples,
        width: 1 << 20,
        height: 1,
        bd: 8,
    };
    assert_eq!(
        search_strip(&[large; 64], 0.0, &FREE).err(),
        Some(Refusal::SIDE)
    );
    let count = vec![large; 1 << 16];
    assert_eq!(
        search_strip(&count, 0.0, &FREE).err(),
        Some(Refusal::BLOCK_COUNT)
    );
    let wrong = Block {
        width: 64,
        height: 64,
        ..large
    };
    let answers = search_strip(&[wrong; 64], 0.0, &FREE);
    assert_eq!(answers.err(), Some(Refusal::SAMPLE_COUNT));
}
