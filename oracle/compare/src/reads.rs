//! `read`, on the original's lists and on damaged ones, with what it must leave alone.

use crate::buffer::{same_buffers, Buffer};
use crate::drive::{drive, Run};
use crate::lists::{count_palette, lent};
use crate::tally::Tally;
use palette_compare::clock::Clock;
use palette_compare::due::{Due, Same};
use palette_oracle::generate::reads::{damaged_request, read_request, DamagedKinds};
use palette_oracle::map_searches::Split;
use palette_oracle::reading::{read, read_words, unlisted, ReadRequest};
use palette_oracle::{Found, Palette};
use palette_station::{list_into, read_into, MAX_WORDS};
use std::time::Duration;

/// No index and no flag.
const CELL: u8 = 238;

/// What the fields hold before a call; none of them is due.
const FIELD: u32 = 0xeeee_eeee;

/// Lists of the original: the palette listed must come back.
pub fn compare_sound(run: Run) -> Result<bool, String> {
    drive(run, |index, tally| {
        let (request, palette, kinds) = read_request(run.seed, index);
        tally.kind("cache", kinds.cache.name());
        count_palette(tally, kinds.palette);
        tally.kind("transposed", u8::from(palette.transposed));
        tally.kind("n", palette.colors.len());
        let witness = read(&request).as_ref() == Ok(&palette);
        let mut same = same_read(&request, &due(Ok(palette)), tally);
        same.push(("the oracle's reader", witness));
        tally.case(index, &same);
        Ok(())
    })
}

/// Damaged and crafted lists: what the oracle's reader answers.
pub fn compare_damaged(run: Run) -> Result<bool, String> {
    drive(run, |index, tally| {
        let (request, kinds) = damaged_request(run.seed, index);
        let due = due(read(&request));
        count_damaged(tally, &kinds, due.number);
        if request.words.len() > MAX_WORDS {
            tally.kind("longer than any", format!("{:2}", due.number));
        }
        let mut same = same_read(&request, &due, tally);
        same.push(("rules of 23", same_rules(&request, due.number, tally)));
        tally.case(index, &same);
        Ok(())
    })
}

fn due(answer: Result<Palette, u32>) -> Due {
    let (number, palette) = match answer {
        Ok(palette) => (0, Some(palette)),
        Err(number) => (number, None),
    };
    // A list holds nothing of what the search counted.
    let found = palette.map(|palette| Found { palette, bits: 0.0 });
    let split = Split::default();
    Due {
        number,
        found,
        split,
    }
}

fn count_damaged(tally: &mut Tally, kinds: &DamagedKinds, number: u32) {
    tally.kind("number", format!("{number:2}"));
    if let Some(craft) = kinds.craft {
        tally.kind("craft", craft.name());
    }
    for damage in &kinds.damages {
        tally.kind("damage", damage.name());
    }
}

/// Whether 23 is due exactly where one of its four rules is broken, which are counted.
fn same_rules(request: &ReadRequest, number: u32, tally: &mut Tally) -> bool {
    let Ok(reading) = read_words(request) else {
        return number != 0 && number != 23;
    };
    let broken = unlisted(&reading, &request.cache);
    for rule in &broken {
        tally.kind("23", rule.name());
    }
    number == if broken.is_empty() { 0 } else { 23 }
}

fn same_read(request: &ReadRequest, due: &Due, tally: &mut Tally) -> Vec<Same> {
    let mut map = Buffer::new(request.map_room, CELL);
    let mut flags = Buffer::new(request.flag_room, CELL);
    let (map_room, flag_room) = (map.room(), flags.room());
    let ReadRequest { w, h, bd, .. } = *request;
    let (words, cache) = (&request.words, &request.cache);
    let start = Clock::start();
    let answer = read_into(w, h, bd, words, cache, map_room, flag_room);
    let time = start.elapsed();
    let mut same = due.same(&answer);
    if let (Ok(_), Some(found)) = (&answer, &due.found) {
        tally.time_beside("our listing's", time, time_listing(&found.palette, cache));
    }
    same.extend(same_buffers(due, &map, &flags));
    same.push(("fields", same_fields(request, due)));
    same
}

/// The time of our own listing, which writes what the reading reads.
fn time_listing(palette: &Palette, cache: &[u16]) -> Duration {
    let Ok(palette) = lent(palette) else {
        return Duration::ZERO;
    };
    let mut words = [0; MAX_WORDS];
    let start = Clock::start();
    let listed = list_into(&palette, cache, &mut words);
    let elapsed = start.elapsed();
    std::hint::black_box(listed).ok();
    elapsed
}

extern "C" {
    fn palette_read(
        width: usize,
        height: usize,
        bd: u32,
        cache: *const u16,
        cached: usize,
        words: *const u32,
        count: usize,
        map: *mut u8,
        map_room: usize,
        flags: *mut u8,
        flag_room: usize,
        read: *mut [u32; 10],
    ) -> u32;
}

/// Straight on the archive, whose fields after a refusal the package hides: all of them are set.
fn same_fields(request: &ReadRequest, due: &Due) -> bool {
    let (mut map, mut flags) = (vec![CELL; request.map_room], vec![CELL; request.flag_room]);
    let mut fields = [FIELD; 10];
    // SAFETY: each pointer and length is of one vector, and the three mutable ones are apart.
    let number = unsafe {
        palette_read(
            request.w,
            request.h,
            request.bd,
            request.cache.as_ptr(),
            request.cache.len(),
            request.words.as_ptr(),
            request.words.len(),
            map.as_mut_ptr(),
            map.len(),
            flags.as_mut_ptr(),
            flags.len(),
            &mut fields,
        )
    };
    number == due.number && fields == Found::fields(due.found.as_ref())
}
