//! The ranks that document 02's L7 puts beside a context's order. The original has none, so they
//! are worked out here, by weights and not by the order: left weighs 4, top 3, the diagonal 2, and
//! an index as much as its neighbours together. An index comes behind those that weigh more, and of
//! equal weight, which only those of no neighbour have, behind the smaller ones. Document 01's
//! five cases are the five ways in which three neighbours can be equal.

use crate::check::{context_number, neighbours};
use crate::original::{self, Corner};

/// Of the neighbours as `neighbours` has them: left, diagonal, top.
const WEIGHTS: [u32; 3] = [4, 2, 3];

/// The rank of each index below n of an accepted corner, then zeros.
pub fn ranks(corner: &Corner) -> [u8; 8] {
    let around: Vec<u8> = neighbours(corner)
        .iter()
        .map(|&place| corner.map[place as usize])
        .collect();
    let weight = |index: usize| -> u32 {
        let weights = around.iter().zip(WEIGHTS);
        let its = weights.filter(|(&there, _)| usize::from(there) == index);
        its.map(|(_, weight)| weight).sum()
    };
    let before = |one: usize, other: usize| {
        weight(one) > weight(other) || weight(one) == weight(other) && one < other
    };
    std::array::from_fn(|index| match index < corner.n {
        true => (0..corner.n).filter(|&one| before(one, index)).count() as u8,
        false => 0,
    })
}

/// What a context must answer: its number, then the context, the order and the ranks.
#[derive(Clone, Copy, Debug, PartialEq)]
pub struct ContextAnswer {
    pub number: u32,
    /// All 0 after 18.
    pub context: u32,
    pub order: [u8; 8],
    pub ranks: [u8; 8],
}

impl ContextAnswer {
    /// Context and order are the original's.
    pub fn due(corner: &Corner) -> Self {
        let number = context_number(corner);
        if number != 0 {
            return ContextAnswer {
                number,
                context: 0,
                order: [0; 8],
                ranks: [0; 8],
            };
        }
        let Corner {
            map,
            stride,
            y,
            x,
            n,
            ..
        } = corner;
        let (context, order) = original::context(map, *stride, *y, *x, *n);
        ContextAnswer {
            number,
            context: context as u32,
            order,
            ranks: ranks(corner),
        }
    }

    /// In the 17 places of the C function.
    pub fn fields(&self) -> [u32; 17] {
        let numbers = self.order.iter().chain(&self.ranks);
        let mut fields = [self.context; 17];
        for (field, &number) in fields[1..].iter_mut().zip(numbers) {
            *field = u32::from(number);
        }
        fields
    }
}
