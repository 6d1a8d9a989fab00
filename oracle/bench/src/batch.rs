//! Blocks of a sheet that are timed together, with the buffers that ours writes to.

use palette_compare::due::Due;
use palette_oracle::answers::split_of;
use palette_oracle::check::{none_number, Asked};
use palette_oracle::generate::sheets::{Cut, DEPTH};
use palette_oracle::Found;
use palette_station::{read_into, search_into, Block, Costs, PaletteView, Refusal};

/// Where ours writes a block's map and flags.
pub struct Room {
    map: Vec<u8>,
    flags: Vec<u8>,
}

/// Lambda and the one table of costs.
pub struct Prices<'a> {
    pub lambda: f32,
    pub costs: &'a Costs,
}

impl Room {
    pub fn of(block: &Cut) -> Self {
        Room {
            map: vec![0; block.samples.len()],
            flags: vec![0; block.w.max(block.h)],
        }
    }
}

pub fn search_ours<'r>(
    block: &Cut,
    prices: &Prices,
    room: &'r mut Room,
) -> Result<PaletteView<'r>, Refusal> {
    let block = Block {
        samples: &block.samples,
        width: block.w,
        height: block.h,
        bd: DEPTH,
    };
    let (map, flags) = (&mut room.map, &mut room.flags);
    search_into(&block, prices.lambda, prices.costs, map, flags)
}

/// Reads a block's list back, to where its search writes.
pub fn read_ours<'r>(
    block: &Cut,
    words: &[u32],
    room: &'r mut Room,
) -> Result<PaletteView<'r>, Refusal> {
    let (map, flags) = (&mut room.map, &mut room.flags);
    read_into(block.w, block.h, DEPTH, words, &[], map, flags)
}

/// The original's answer with the number that document 01 gives the block.
pub fn due(block: &Cut, prices: &Prices) -> Due {
    let number = none_number(&block.samples, block.w, block.h);
    let asked = Asked {
        w: block.w,
        h: block.h,
        bd: DEPTH,
        lambda: prices.lambda,
        costs: prices.costs.as_table(),
        samples: &block.samples,
        map_room: usize::MAX,
        flag_room: usize::MAX,
    };
    Due {
        number,
        found: search_original(block, prices),
        split: split_of(&asked, number),
    }
}

pub fn search_original(block: &Cut, prices: &Prices) -> Option<Found> {
    let (w, h, costs) = (block.w, block.h, prices.costs.as_table());
    palette_oracle::search(&block.samples, w, h, DEPTH, prices.lambda, costs)
}
