//! `search` on the blocks of the driver `searches`, with costs that are made from adapted tables:
//! ours with those of the package, the original with those of the oracle's own working.

use crate::buffer::same_bits;
use crate::drive::{drive, Run};
use crate::searches::{count_kinds, same_search};
use crate::tally::Tally;
use palette_compare::due::Same;
use palette_oracle::check::search_number;
use palette_oracle::generate::adapted::lent_table;
use palette_oracle::generate::searches::{search_request, SearchRequest};
use palette_oracle::made_costs::made_costs;
use palette_station::Costs;

pub fn compare(run: Run) -> Result<bool, String> {
    drive(run, |index, tally| {
        let (mut request, kinds) = search_request(run.seed, index);
        let (numbers, rows) = lent_table(run.seed, index);
        request.costs = made_costs(&numbers).costs.to_vec();
        let number = search_number(&request.asked());
        count_kinds(tally, &kinds, number);
        tally.kind("rows", rows.name());
        let same = same_made(&request, &numbers, number, tally);
        tally.case(index, &same);
        Ok(())
    })
}

fn same_made(
    request: &SearchRequest,
    numbers: &[u16],
    number: u32,
    tally: &mut Tally,
) -> Vec<Same> {
    // A sound table is never refused.
    let Ok(costs) = Costs::adapted(numbers) else {
        return vec![("costs", false)];
    };
    let mut same = same_search(request, &costs, number, tally);
    let bits = same_bits(costs.as_table(), &request.costs, f32::to_bits);
    same.push(("costs", bits));
    same
}
