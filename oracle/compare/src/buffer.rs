//! Buffers that go on behind the room that is lent, so that a place written too far shows.

use palette_compare::due::{Due, Same};
use palette_oracle::Found;

/// Places behind the room.
const BEHIND: usize = 16;

pub struct Buffer<T> {
    places: Vec<T>,
    room: usize,
    /// What every place holds before the call.
    fill: T,
}

impl<T: Copy> Buffer<T> {
    pub fn new(room: usize, fill: T) -> Self {
        let places = vec![fill; room + BEHIND];
        Buffer { places, room, fill }
    }

    pub fn room(&mut self) -> &mut [T] {
        &mut self.places[..self.room]
    }

    /// Whether `written` stands at the front and every place behind it is as it was.
    pub fn holds(&self, written: &[T], bits: fn(T) -> u32) -> bool {
        let (front, behind) = self.places.split_at(written.len());
        let untouched = vec![self.fill; behind.len()];
        same_bits(front, written, bits) && same_bits(behind, &untouched, bits)
    }
}

/// By bits, since two floats may be equal and differ in them.
pub fn same_bits<T: Copy>(ours: &[T], due: &[T], bits: fn(T) -> u32) -> bool {
    let bits_of = |places: &[T]| -> Vec<u32> { places.iter().map(|&place| bits(place)).collect() };
    bits_of(ours) == bits_of(due)
}

/// Map and flags as they are due. After a refusal nothing is written.
pub fn same_buffers(due: &Due, map: &Buffer<u8>, flags: &Buffer<u8>) -> [Same; 2] {
    let (cells, lines) = match &due.found {
        Some(Found { palette, .. }) => (&palette.map[..], &palette.flags[..]),
        None => (&[][..], &[][..]),
    };
    [
        ("map's buffer", map.holds(cells, u32::from)),
        ("flags' buffer", flags.holds(lines, u32::from)),
    ]
}
