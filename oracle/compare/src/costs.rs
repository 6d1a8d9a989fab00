//! `make_costs`, number by number and bit by bit, on adapted tables that are sound or damaged.

use crate::buffer::same_bits;
use crate::drive::{drive, Run};
use crate::tally::Tally;
use palette_compare::due::Same;
use palette_oracle::generate::adapted::{table, TableKinds};
use palette_oracle::made_costs::{made_costs, Made};
use palette_station::{Costs, COSTS};

/// What the costs hold before a call; no cost is negative.
const FILL: f32 = -7.0;

pub fn compare(run: Run) -> Result<bool, String> {
    drive(run, |index, tally| {
        let (numbers, kinds) = table(run.seed, index);
        let due = made_costs(&numbers);
        count_kinds(tally, &kinds, due.number);
        tally.case(index, &same_costs(&numbers, &due));
        Ok(())
    })
}

fn count_kinds(tally: &mut Tally, kinds: &TableKinds, number: u32) {
    tally.kind("number", format!("{number:2}"));
    tally.kind("rows", kinds.rows.name());
    for damage in &kinds.damages {
        tally.kind("damage", damage.name());
    }
}

fn same_costs(numbers: &[u16], due: &Made) -> Vec<Same> {
    let (number, costs) = asked(numbers);
    let mut same = same_package(numbers, due);
    same.push(("archive's number", number == due.number));
    same.push(("archive's costs", same_table(&costs, &due.costs)));
    same
}

/// Through the package, which shows no costs after a refusal.
fn same_package(numbers: &[u16], due: &Made) -> Vec<Same> {
    let same = |costs: &Costs| same_table(costs.as_table(), &due.costs);
    let mut all = match Costs::adapted(numbers) {
        Ok(costs) => vec![("number", due.number == 0), ("costs", same(&costs))],
        Err(refusal) => vec![("number", refusal.number() == due.number)],
    };
    if numbers.is_empty() {
        all.push(("default", same(&Costs::default())));
    }
    all
}

fn same_table(ours: &[f32; COSTS], due: &[f32; COSTS]) -> bool {
    same_bits(ours, due, f32::to_bits)
}

extern "C" {
    fn palette_costs(adapted: *const u16, numbers: usize, costs: *mut [f32; COSTS]) -> u32;
}

/// Straight on the archive, for the zeros after a refusal.
fn asked(numbers: &[u16]) -> (u32, [f32; COSTS]) {
    let mut costs = [FILL; COSTS];
    // SAFETY: pointer and length are of one slice; the costs are apart from it.
    let number = unsafe { palette_costs(numbers.as_ptr(), numbers.len(), &mut costs) };
    (number, costs)
}
