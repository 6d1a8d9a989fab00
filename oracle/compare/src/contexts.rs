//! `block_allowed`, and `color_ctx`, with every place of the order and of the ranks.

use crate::drive::{drive, Run};
use crate::tally::Tally;
use palette_compare::due::Same;
use palette_oracle::generate::contexts::{asked_corner, every_corner, EVERY_CORNER};
use palette_oracle::ranks::ContextAnswer;
use palette_oracle::Corner;
use palette_station::{context, Context};

/// Sides in units of four, to far beyond those that are allowed.
const SIDES: usize = 300;

pub fn compare(run: Run) -> Result<bool, String> {
    let blocks = same_blocks();
    let verdict = if blocks { "same" } else { "differs" };
    println!("block_allowed, all sides to {SIDES}: {verdict}");
    let contexts = compare_drawn(run)?;
    Ok(blocks && contexts)
}

fn same_blocks() -> bool {
    let mut pairs = (0..=SIDES).flat_map(|w| (0..=SIDES).map(move |h| (w, h)));
    let ours = palette_station::block_allowed;
    pairs.all(|(w, h)| ours(w, h) == palette_oracle::block_allowed(w, h))
}

fn compare_drawn(run: Run) -> Result<bool, String> {
    drive(run, |index, tally| {
        let (corner, kind, damage) = asked_corner(run.seed, index);
        tally.kind("corner", kind.name());
        if let Some(damage) = damage {
            tally.kind("damage", damage.name());
        }
        compare_corner(index, &corner, tally);
        Ok(())
    })
}

/// All corners of small size.
pub fn compare_every(threads: u64) -> Result<bool, String> {
    let run = Run {
        seed: 0,
        count: EVERY_CORNER,
        threads,
    };
    drive(run, |index, tally| {
        let corner = every_corner(index);
        tally.kind("n", format!("{:20}", corner.n));
        compare_corner(index, &corner, tally);
        Ok(())
    })
}

fn compare_corner(index: u64, corner: &Corner, tally: &mut Tally) {
    let due = ContextAnswer::due(corner);
    let context = match due.number {
        0 => due.context.to_string(),
        _ => "-".to_string(),
    };
    tally.kind("number and context", format!("{:2} {context}", due.number));
    let mut same = same_package(corner, &due);
    same.extend(same_archive(corner, &due));
    tally.case(index, &same);
}

/// Through the package, which shows nothing after a refusal.
fn same_package(c: &Corner, due: &ContextAnswer) -> Vec<Same> {
    match context(&c.map, c.stride, c.y, c.x, c.n) {
        Ok(ours) if due.number == 0 => same_context(&ours, c.n, due),
        Ok(_) => vec![("number", false)],
        Err(refusal) => vec![("number", refusal.number() == due.number)],
    }
}

fn same_context(ours: &Context, n: usize, due: &ContextAnswer) -> Vec<Same> {
    let below = |table: &[u8; 8], at: u8| table[..n].get(usize::from(at)).copied();
    let mut all = 0..=u8::MAX;
    let ranks = all.clone().all(|i| ours.rank_of(i) == below(&due.ranks, i));
    let indices = all.all(|r| ours.index_at(r) == below(&due.order, r));
    vec![
        ("context", u32::from(ours.value()) == due.context),
        ("order", ours.order() == &due.order[..n]),
        ("ranks", ranks),
        ("indices", indices),
    ]
}

extern "C" {
    fn palette_context(
        map: *const u8,
        cells: usize,
        stride: usize,
        y: usize,
        x: usize,
        n: usize,
        context: *mut [u32; 17],
    ) -> u32;
}

/// What lies behind the 17 places.
const BEHIND: usize = 8;

/// Straight on the archive, for the places past n and the zeros after a refusal.
fn same_archive(c: &Corner, due: &ContextAnswer) -> [Same; 3] {
    // A number by its place, never due.
    let before: [u32; 17 + BEHIND] = std::array::from_fn(|place| 0xeeee_ee00 + place as u32);
    let mut places = before;
    let context = places.as_mut_ptr().cast();
    // SAFETY: pointer and length are of one vector; the 17 places are apart from it.
    let number = unsafe {
        palette_context(
            c.map.as_ptr(),
            c.map.len(),
            c.stride,
            c.y,
            c.x,
            c.n,
            context,
        )
    };
    [
        ("archive's number", number == due.number),
        ("archive's places", places[..17] == due.fields()),
        ("behind the places", places[17..] == before[17..]),
    ]
}
