//! A list with what it is read with.

use super::BYTE;
use palette_station::{read, read_into, Palette, Refusal, MAX_CELLS, MAX_LINES};

#[derive(Clone)]
pub struct Kept {
    pub sides: (usize, usize),
    pub bd: u32,
    pub words: Vec<u32>,
    pub cache: Vec<u16>,
}

impl Kept {
    /// What is read with these rooms, and what the buffers hold then, each with a place more
    /// behind its room.
    pub fn with_rooms(&self, cells: usize, lines: usize) -> (Result<Palette, u32>, [Vec<u8>; 2]) {
        let (mut map, mut flags) = (vec![BYTE; cells + 1], vec![BYTE; lines + 1]);
        let (width, height) = self.sides;
        let (words, cache) = (&self.words, &self.cache);
        let (lent_map, lent_flags) = (&mut map[..cells], &mut flags[..lines]);
        let answer = read_into(width, height, self.bd, words, cache, lent_map, lent_flags);
        let read = answer.map(|palette| palette.to_palette());
        (read.map_err(Refusal::number), [map, flags])
    }

    /// What both functions read, with a place more in each room than is needed. What lies behind
    /// what is written, and after a refusal everything, has to be as it was.
    pub fn read(&self) -> Result<Palette, u32> {
        let (width, height) = self.sides;
        let cells = width.saturating_mul(height).min(MAX_CELLS);
        let longer = width.max(height).min(MAX_LINES);
        let (answer, [map, flags]) = self.with_rooms(cells + 1, longer + 1);
        let written = answer.as_ref().map_or((0, 0), |p| (cells, p.lines()));
        assert!(untouched(&map[written.0..]) && untouched(&flags[written.1..]));
        let owned = read(width, height, self.bd, &self.words, &self.cache);
        assert_eq!(answer, owned.map_err(Refusal::number));
        answer
    }

    pub fn number(&self) -> u32 {
        self.read().err().unwrap_or(0)
    }
}

pub fn untouched(buffer: &[u8]) -> bool {
    buffer.iter().all(|&byte| byte == BYTE)
}
