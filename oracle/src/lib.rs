//! The original palette search, run as it stands, for answers to hold ours against.

/// The original's module path: its file names `crate::av2::entropy`.
mod av2 {
    pub(crate) mod entropy;
    #[allow(clippy::all)]
    pub(crate) mod raw_coder;
    include!(concat!(env!("OUT_DIR"), "/original.rs"));
}

pub mod answers;
pub mod asking;
pub mod big;
mod c_interface;
pub mod check;
pub mod chosen_cuts;
pub mod fraction;
#[macro_use]
pub mod generate;
pub mod histogram;
mod lent;
pub mod listing_text;
pub mod made_costs;
pub mod map_searches;
mod original;
mod places;
pub mod quality;
pub mod ranks;
pub mod reading;
pub mod replay;
pub mod replay_blocks;
pub mod replay_contexts;
pub mod replay_costs;
pub mod replay_reads;
pub mod replay_strips;
pub mod report_text;
pub mod reported;
mod sending;
pub mod strips;
pub mod text;
pub mod worked;

pub use c_interface::{rs_block_allowed, rs_context, rs_list, rs_pred, rs_search};
pub use lent::{Costs, COSTS};
pub use original::{
    block_allowed, context, fill_costs, list, pack, pred, raw_width, search, unpack, Block, Corner,
    Found, Palette,
};
pub use sending::{sent_bits, sent_in_order};
