//! The reader of lists: the smallest list of each number, and the four rules beside the original.

use palette_oracle::check::ceil_log2;
use palette_oracle::reading::{read, read_words, unlisted, ReadRequest, Unlisted};
use palette_oracle::{list, pack, Palette};

const SIZE_2: (u32, u32, u32) = (3, 0, 0);
const PLAIN: (u32, u32, u32) = (1, 1, 0);
const CELLS: (u32, u32, u32) = (4, 3, 0);
const INDEX_0: (u32, u32, u32) = (2, 2, 0);
const TAKEN: (u32, u32, u32) = (1, 1, 1);
const PASSED: (u32, u32, u32) = (1, 1, 0);

/// The map of one cell.
const MAP: [(u32, u32, u32); 3] = [PLAIN, CELLS, INDEX_0];

/// Colours 0 and 1 without a cache.
const LITERALS: [(u32, u32, u32); 3] = [(1, 8, 0), (1, 2, 0), (1, 5, 0)];

/// A list for one cell at 8 bits: size 2, these calls, then the map.
fn one_cell(cache: &[u16], colors: &[(u32, u32, u32)]) -> ReadRequest {
    let calls = [&[SIZE_2], colors, &MAP].concat();
    ReadRequest {
        w: 1,
        h: 1,
        bd: 8,
        cache: cache.to_vec(),
        words: calls.into_iter().map(pack).collect(),
        map_room: 1,
        flag_room: 1,
    }
}

fn sound() -> ReadRequest {
    one_cell(&[], &LITERALS)
}

fn number(request: &ReadRequest) -> u32 {
    read(request).err().unwrap_or(0)
}

#[test]
fn the_smallest_list_is_read() {
    let palette = read(&sound()).expect("a sound list");
    assert_eq!((palette.w, palette.h, palette.bd), (1, 1, 8));
    assert_eq!(
        (&palette.colors[..], palette.transposed),
        (&[0, 1][..], false)
    );
    assert_eq!((&palette.flags[..], &palette.map[..]), (&[0][..], &[0][..]));
    let taken = read(&one_cell(&[9, 4], &[TAKEN, TAKEN])).expect("a sound list");
    assert_eq!(taken.colors, [4, 9]);
}

#[test]
fn limits_come_in_their_order() {
    let mut request = sound();
    request.words.clear();
    assert_eq!(number(&request), 20);
    request.flag_room = 0;
    assert_eq!(number(&request), 7);
    (request.flag_room, request.map_room) = (1, 0);
    assert_eq!(number(&request), 7);
    request.cache = vec![0; 65];
    assert_eq!(number(&request), 13);
    request.bd = 13;
    assert_eq!(number(&request), 2);
    request.h = 65;
    assert_eq!(number(&request), 1);
}

/// The longer side is asked for, whatever the orientation.
#[test]
fn flag_room_is_for_the_longer_side() {
    let palette = Palette {
        w: 3,
        h: 1,
        bd: 8,
        colors: vec![0, 1],
        transposed: false,
        flags: vec![1],
        map: vec![0; 3],
    };
    let mut request = sound();
    request.words = list(&palette, &[]);
    (request.w, request.map_room, request.flag_room) = (3, 3, 3);
    assert_eq!(read(&request), Ok(palette));
    request.flag_room = 2;
    assert_eq!(number(&request), 7);
}

#[test]
fn every_beginning_ends_too_early() {
    for count in 0..sound().words.len() {
        let mut request = sound();
        request.words.truncate(count);
        assert_eq!(number(&request), 20, "{count} words");
    }
}

/// Where each value would be 21, a list that ends is still 20.
#[test]
fn no_step_is_right_from_the_top() {
    let mut request = one_cell(&[], &[(1, 8, 255), (1, 2, 0), (1, 5, 0)]);
    assert_eq!(number(&request), 21);
    request.words.truncate(3);
    assert_eq!(number(&request), 20);
}

#[test]
fn each_word_has_its_kind_first_field_and_range() {
    for place in 0..sound().words.len() {
        for fault in [1 << 24, 1 << 16, 1 << 15, 1 << 31] {
            let mut request = sound();
            request.words[place] ^= fault;
            assert_eq!(number(&request), 21, "word {place} with {fault:x}");
        }
    }
    let with = |place: usize, call| {
        let mut request = sound();
        request.words[place] = pack(call);
        number(&request)
    };
    assert_eq!(with(0, (3, 0, 7)), 21);
    assert_eq!(with(1, (1, 8, 256)), 21);
    assert_eq!(with(2, (1, 2, 4)), 21);
    assert_eq!(with(3, (1, 5, 32)), 21);
    assert_eq!(with(4, (1, 1, 2)), 21);
    assert_eq!(with(5, (4, 3, 2)), 21);
    assert_eq!(with(6, (2, 2, 2)), 21);
}

#[test]
fn a_step_ends_at_the_top() {
    let steps = |first, step| number(&one_cell(&[], &[(1, 8, first), (1, 2, 0), (1, 5, step)]));
    assert_eq!((steps(250, 4), steps(250, 5)), (0, 21));
    // The width of the second step is 0 at one below the top, and allows only 0.
    let third = |step| {
        let mut request = one_cell(&[], &[(1, 8, 253), (1, 2, 0), (1, 5, 0), (1, 0, step)]);
        request.words[0] = pack((3, 0, 1));
        request.words[7] = pack((2, 3, 0));
        number(&request)
    };
    assert_eq!((third(0), third(1)), (0, 21));
}

#[test]
fn words_are_left_over() {
    let mut request = sound();
    request.words.push(0);
    assert_eq!(number(&request), 22);
    let mut equal = one_cell(&[7, 7], &[TAKEN, TAKEN]);
    assert_eq!(number(&equal), 23);
    equal.words.push(u32::MAX);
    assert_eq!(number(&equal), 22);
}

/// The smallest list that each rule refuses, and only that rule.
#[test]
fn four_rules_give_23() {
    let cases = [
        (one_cell(&[7, 7], &[TAKEN, TAKEN]), Unlisted::EqualColors),
        (one_cell(&[7], &[TAKEN, (1, 8, 7)]), Unlisted::EqualColors),
        (one_cell(&[256], &[TAKEN, (1, 8, 7)]), Unlisted::AboveTop),
        (
            one_cell(&[0], &[&[PASSED], &LITERALS[..]].concat()),
            Unlisted::Passed,
        ),
        (
            one_cell(&[7, 7], &[PASSED, TAKEN, (1, 8, 9)]),
            Unlisted::Passed,
        ),
        (
            one_cell(&[], &[(1, 8, 0), (1, 2, 1), (1, 6, 0)]),
            Unlisted::Wider,
        ),
    ];
    for (request, rule) in &cases {
        assert_eq!(number(request), 23, "{}", rule.name());
        let reading = read_words(request).expect("it reads to its end");
        assert_eq!(unlisted(&reading, &request.cache), [*rule]);
    }
}

#[test]
fn logarithms_are_rounded_up() {
    let logs = [0, 1, 2, 3, 4, 5, 255, 256, 257].map(ceil_log2);
    assert_eq!(logs, [0, 0, 1, 2, 2, 3, 8, 8, 9]);
}
