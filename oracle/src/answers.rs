//! What our `list`, `pred` and `search` must answer to a request: the original's words, values or
//! palette where document 01 accepts, else its number.

use crate::check::{list_number, palette_number, search_number, Asked};
use crate::generate::requests::Request;
use crate::generate::searches::SearchRequest;
use crate::map_searches::{counted_search, Split};
use crate::original::{self, raw_width, Found};

#[derive(Clone, Debug, PartialEq)]
pub struct ListAnswer {
    pub number: u32,
    pub room: usize,
    pub words: Vec<u32>,
    pub raw_width: u32,
}

#[derive(Clone, Debug, PartialEq)]
pub struct PredAnswer {
    pub number: u32,
    pub room: usize,
    pub values: Vec<f32>,
}

pub fn list_answer(request: &Request) -> ListAnswer {
    let number = list_number(&request.palette, &request.cache);
    let words = match number {
        0 => original::list(&request.palette, &request.cache),
        _ => vec![],
    };
    let room = room(words.len(), request.word_spare);
    if room < words.len() {
        return ListAnswer {
            number: 16,
            room,
            words: vec![],
            raw_width: 0,
        };
    }
    let raw_width = raw_width(&words);
    ListAnswer {
        number,
        room,
        words,
        raw_width,
    }
}

pub fn pred_answer(request: &Request) -> PredAnswer {
    let number = palette_number(&request.palette);
    let values = match number {
        0 => original::pred(&request.palette),
        _ => vec![],
    };
    let room = room(values.len(), request.value_spare);
    if room < values.len() {
        return PredAnswer {
            number: 7,
            room,
            values: vec![],
        };
    }
    PredAnswer {
        number,
        room,
        values,
    }
}

fn room(written: usize, spare: isize) -> usize {
    written.saturating_add_signed(spare)
}

/// What `search` returns and writes. Map and flags are empty after a refusal.
#[derive(Clone, Debug, PartialEq)]
pub struct SearchAnswer {
    pub number: u32,
    /// n, eight colours, orientation.
    pub fields: [u32; 10],
    /// The original's `bits`, and what they are made of.
    pub bits: f32,
    pub split: Split,
    pub map: Vec<u8>,
    pub flags: Vec<u8>,
}

impl SearchAnswer {
    pub fn new(number: u32, found: Option<Found>, split: Split) -> Self {
        let fields = Found::fields(found.as_ref());
        let bits = found.as_ref().map_or(0.0, |found| found.bits);
        let (map, flags) =
            found.map_or_else(Default::default, |f| (f.palette.map, f.palette.flags));
        SearchAnswer {
            number,
            fields,
            bits,
            split,
            map,
            flags,
        }
    }

    /// The estimate, head and map bits.
    pub fn figures(&self) -> [f32; 3] {
        [self.bits, self.split.head, self.split.map_bits]
    }
}

pub fn search_answer(request: &SearchRequest) -> SearchAnswer {
    asked_answer(&request.asked())
}

pub fn asked_answer(asked: &Asked) -> SearchAnswer {
    let number = search_number(asked);
    SearchAnswer::new(number, run_original(asked, number), split_of(asked, number))
}

/// The original's answer to what has this number. It is kept away from what tests 1 to 7 refuse,
/// and must decline exactly what 8, 9 and 10 refuse.
pub fn run_original(asked: &Asked, number: u32) -> Option<Found> {
    if (1..=7).contains(&number) {
        return None;
    }
    let costs = asked.costs.try_into().expect("test 5 passed");
    let (w, h, bd) = (asked.w, asked.h, asked.bd);
    let found = original::search(asked.samples, w, h, bd, asked.lambda, costs);
    assert_eq!(
        found.is_some(),
        number == 0,
        "the original and document 01 differ on whether there is a palette"
    );
    found
}

/// What the estimate of that answer is made of.
pub fn split_of(asked: &Asked, number: u32) -> Split {
    match number {
        0 => counted_search(asked).split,
        _ => Split::default(),
    }
}
