//! What the original's estimate is made of: its own `head` and `mbits`, as the counted copy tells
//! them, held to its `bits` and to document 01's sentence.

use palette_oracle::answers::{search_answer, SearchAnswer};
use palette_oracle::generate::searches::{search_request, SearchRequest};
use palette_oracle::map_searches::Split;
use palette_oracle::{list, unpack, Palette};

const SEED: u64 = 22;
const COUNT: u64 = 4000;

fn answers() -> impl Iterator<Item = (SearchRequest, SearchAnswer)> {
    (0..COUNT).map(|index| {
        let (request, _) = search_request(SEED, index);
        let answer = search_answer(&request);
        (request, answer)
    })
}

#[test]
fn the_split_makes_the_estimate() {
    let mut below_zero = 0;
    for (index, (_, answer)) in answers().enumerate() {
        let Split { head, map_bits } = answer.split;
        let made = (head + map_bits) * 3.0;
        assert_eq!(made.to_bits(), answer.bits.to_bits(), "case {index}");
        below_zero += u32::from(head < 0.0);
    }
    assert!(below_zero > 0);
}

#[test]
fn there_is_no_split_after_a_refusal() {
    let refused = answers().filter(|(_, answer)| answer.number != 0);
    let figures: Vec<_> = refused.map(|(_, answer)| answer.figures()).collect();
    assert!(!figures.is_empty());
    for figures in figures {
        assert_eq!(figures.map(f32::to_bits), [0; 3]);
    }
}

fn palette(request: &SearchRequest, answer: &SearchAnswer) -> Palette {
    let [n, colors @ .., orientation] = answer.fields;
    Palette {
        w: request.w,
        h: request.h,
        bd: request.bd,
        colors: colors[..n as usize].iter().map(|&c| c as u16).collect(),
        transposed: orientation == 1,
        flags: answer.flags.clone(),
        map: answer.map.clone(),
    }
}

/// mode[1] - mode[0] + size[k-2] + the literal bits of all k colours + 1 if an orientation bit is
/// sent, in f32, from the left. The literals are those that the list has without a cache.
fn head(request: &SearchRequest, palette: &Palette) -> f32 {
    let orientation = u32::from(palette.w < 64 && palette.h < 64);
    let width = |&word: &u32| match unpack(word) {
        (1, width, _) => width,
        _ => 0,
    };
    let sent: u32 = list(palette, &[]).iter().map(width).sum();
    let (mode, size) = (&request.costs[..2], &request.costs[2..9]);
    mode[1] - mode[0]
        + size[palette.colors.len() - 2]
        + (sent - orientation) as f32
        + orientation as f32
}

#[test]
fn the_head_is_document_01s() {
    let mut sizes = [0; 9];
    for (index, (request, answer)) in answers().enumerate() {
        if answer.number != 0 {
            continue;
        }
        let palette = palette(&request, &answer);
        let due = head(&request, &palette);
        assert_eq!(answer.split.head.to_bits(), due.to_bits(), "case {index}");
        sizes[palette.colors.len()] += 1;
    }
    assert!(sizes[2..].iter().all(|&met| met > 0));
}
