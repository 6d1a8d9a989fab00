//! `search`, cell by cell and bit by bit, with what it must leave alone.

use crate::buffer::{same_buffers, Buffer};
use crate::drive::{drive, Run};
use crate::tally::Tally;
use palette_compare::clock::Clock;
use palette_compare::due::{Due, Same};
use palette_oracle::answers::{run_original, split_of};
use palette_oracle::check::search_number;
use palette_oracle::generate::searches::{
    search_request, SearchDamage, SearchKinds, SearchRequest,
};
use palette_oracle::generate::sure::sure_request;
use palette_oracle::{fill_costs, Palette};
use palette_station::{search_into, Block, Costs, Refusal, COSTS};
use std::time::Duration;

/// No index and no flag.
const CELL: u8 = 238;

pub fn compare(run: Run) -> Result<bool, String> {
    drive(run, |index, tally| {
        let (request, kinds) = search_request(run.seed, index);
        count_kinds(tally, &kinds, search_number(&request.asked()));
        if let Some(kinds) = kinds.block {
            tally.kind("costs", kinds.costs.name());
        }
        compare_request(index, &request, tally);
        Ok(())
    })
}

/// Blocks with cells at the edge of sureness.
pub fn compare_sure(run: Run) -> Result<bool, String> {
    drive(run, |index, tally| {
        let (request, kinds, damages) = sure_request(run.seed, index);
        count_number(tally, search_number(&request.asked()), &damages);
        tally.kind("edge", kinds.edge.name());
        tally.kind("cap", kinds.places.name());
        tally.kind("others", kinds.others.name());
        compare_request(index, &request, tally);
        Ok(())
    })
}

fn compare_request(index: u64, request: &SearchRequest, tally: &mut Tally) {
    let number = search_number(&request.asked());
    let same = match Costs::from_slice(&request.costs) {
        Ok(costs) => same_search(request, &costs, number, tally),
        Err(refusal) => {
            tally.kind("type", "costs refused");
            same_refusal(request, refusal, number)
        }
    };
    tally.case(index, &same);
}

fn count_number(tally: &mut Tally, number: u32, damages: &[SearchDamage]) {
    tally.kind("number", format!("{number:2}"));
    for damage in damages {
        tally.kind("damage", damage.name());
    }
}

/// All kinds but that of the costs.
pub fn count_kinds(tally: &mut Tally, kinds: &SearchKinds, number: u32) {
    count_number(tally, number, &kinds.damages);
    match kinds.block {
        Some(kinds) => {
            tally.kind("spacing", kinds.spacing.name());
            tally.kind("layout", kinds.layout.name());
            tally.kind("fraction", kinds.fraction.name());
            tally.kind("lambda", kinds.lambda.name());
        }
        None => tally.kind("block", "close"),
    }
}

fn count_found(tally: &mut Tally, palette: &Palette) {
    tally.kind("transposed", u8::from(palette.transposed));
    tally.kind("n", palette.colors.len());
}

/// Costs that no search of the package can be asked with. Document 01 may refuse the request by
/// an earlier test.
fn same_refusal(request: &SearchRequest, refusal: Refusal, number: u32) -> Vec<Same> {
    vec![
        ("count of costs", request.costs.len() != COSTS),
        ("refusal", refusal.number() == 5),
        ("number", (1..=5).contains(&number)),
    ]
}

/// Ours with `costs` beside the original with those of the request.
pub fn same_search(
    request: &SearchRequest,
    costs: &Costs,
    number: u32,
    tally: &mut Tally,
) -> Vec<Same> {
    let (due, original) = due(request, number);
    let mut map = Buffer::new(request.map_room, CELL);
    let mut flags = Buffer::new(request.flag_room, CELL);
    let (map_room, flag_room) = (map.room(), flags.room());
    let block = block(request);
    let start = Clock::start();
    let answer = search_into(&block, request.lambda, costs, map_room, flag_room);
    let ours = start.elapsed();
    if let Some(found) = &due.found {
        count_found(tally, &found.palette);
        if answer.is_ok() {
            tally.time(ours, original);
        }
    }
    let mut same = due.same(&answer);
    same.extend(same_buffers(&due, &map, &flags));
    same
}

fn block(request: &SearchRequest) -> Block<'_> {
    Block {
        samples: &request.samples,
        width: request.w,
        height: request.h,
        bd: request.bd,
    }
}

/// What is due, and the time of the original's search. Its costs are filled before, as they are
/// once per process in the original program.
fn due(request: &SearchRequest, number: u32) -> (Due, Duration) {
    fill_costs(request.costs[..].try_into().expect("301 costs"));
    let start = Clock::start();
    let found = run_original(&request.asked(), number);
    let time = start.elapsed();
    let split = split_of(&request.asked(), number);
    let due = Due {
        number,
        found,
        split,
    };
    (due, time)
}
