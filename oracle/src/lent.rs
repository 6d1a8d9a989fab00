//! The lent table of costs, and the cell that stands in for `std::sync::OnceLock` in the original.
//!
//! The original fills its costs once per process. Here each call has a table of its own, so the
//! cell fills anew whenever another table was lent on this thread, and only then: a driver that
//! lends the same table again times the search alone.

use crate::places;
use std::any::Any;
use std::cell::RefCell;
use std::marker::PhantomData;

/// Mode 2, size 7, row 4 x 3, colour 7 x 5 x 8.
pub const COSTS: usize = 301;
pub type Costs = [f32; COSTS];

struct Table {
    costs: Costs,
    /// Counts the tables lent, so that the cell sees a new one without comparing costs.
    generation: u64,
    /// The place after the last cost handed out.
    next: usize,
}

/// The filled value of the last table seen. Its box is used again for the next one.
struct Kept {
    generation: u64,
    value: Box<dyn Any>,
}

thread_local! {
    static TABLE: RefCell<Table> =
        const { RefCell::new(Table { costs: [0.0; COSTS], generation: 0, next: 0 }) };
    /// One of the original's type and one of its counted copy's.
    static KEPT: RefCell<Vec<Kept>> = const { RefCell::new(Vec::new()) };
}

/// Lends `costs` to the calls that follow on this thread.
pub(crate) fn lend(costs: &Costs) {
    TABLE.with_borrow_mut(|table| {
        if !same_bits(&table.costs, costs) {
            table.costs = *costs;
            table.generation += 1;
        }
    });
}

/// By bits, since 0.0 and -0.0 are two tables; and without an early end, which is quicker.
fn same_bits(one: &Costs, other: &Costs) -> bool {
    let differing = |(a, b): (&f32, &f32)| a.to_bits() ^ b.to_bits();
    one.iter()
        .zip(other)
        .map(differing)
        .fold(0, |all, bits| all | bits)
        == 0
}

/// The next cost in the table's order. The original does not say which place it asks for; the
/// order of its asking does, and each ask is held against the row that belongs to the place.
pub(crate) fn hand_out(icdf: &[u16], symbol: usize, symbols: usize) -> f32 {
    TABLE.with_borrow_mut(|table| {
        let place = places::used_from(table.next).expect("more costs asked for than lent");
        let due = places::ask_at(place);
        assert_eq!(
            (icdf, symbol, symbols),
            due,
            "costs asked for in another order"
        );
        table.next = place + 1;
        table.costs[place]
    })
}

fn start_handing_out() -> u64 {
    TABLE.with_borrow_mut(|table| {
        table.next = 0;
        table.generation
    })
}

fn all_handed_out() -> bool {
    TABLE.with_borrow(|table| places::used_from(table.next).is_none())
}

/// Has the part of `std::sync::OnceLock` that the original uses.
pub(crate) struct OnceLock<T> {
    value: PhantomData<fn() -> T>,
}

impl<T: 'static> OnceLock<T> {
    pub(crate) const fn new() -> Self {
        OnceLock { value: PhantomData }
    }

    /// The value filled from the table now lent.
    pub(crate) fn get_or_init(&'static self, init: impl FnOnce() -> T) -> &'static T {
        let generation = start_handing_out();
        KEPT.with_borrow_mut(|kept| {
            let value: *const T = kept_of(kept, generation, init);
            // SAFETY: the box is never freed before the thread ends, and it is overwritten only
            // here after another `lend`, which is done before the original or its counted copy is
            // called and never while a reference from an earlier call is alive.
            unsafe { &*value }
        })
    }
}

/// The value of this type, filled anew if another table was lent since.
fn kept_of<T: 'static>(all: &mut Vec<Kept>, generation: u64, init: impl FnOnce() -> T) -> &T {
    let place = all.iter().position(|kept| kept.value.is::<T>());
    match place.map(|place| &mut all[place]) {
        Some(kept) if kept.generation == generation => {}
        Some(kept) => {
            *kept.value.downcast_mut().expect("found by its type") = filled(init);
            kept.generation = generation;
        }
        None => {
            let value = Box::new(filled(init));
            all.push(Kept { generation, value });
        }
    }
    let kept = &all[place.unwrap_or(all.len() - 1)];
    kept.value.downcast_ref().expect("found by its type")
}

fn filled<T>(init: impl FnOnce() -> T) -> T {
    let value = init();
    assert!(all_handed_out(), "fewer costs asked for than lent");
    value
}
