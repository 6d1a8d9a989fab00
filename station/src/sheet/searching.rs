//! The search of a sheet: shares of it side by side in threads, put together in order.

use super::parts::Parts;
use super::shares::Shares;
use super::{Area, Form, Settings, Sheet};
use crate::limits::{MAX_SIDE, MAX_WORDS};
use crate::report::{Listed, Report};
use crate::{list_into, search_strip_into, Blocks, PaletteView, Refusal};
use std::collections::BTreeMap;
use std::error::Error;
use std::fmt::{self, Display, Formatter};
use std::io;
use std::sync::atomic::{AtomicUsize, Ordering};
use std::sync::mpsc::{self, Receiver, Sender};
use std::thread;

/// What became of a sheet.
///
/// ```
/// use palette_station::sheet::{Settings, Sheet};
///
/// let sheet = Sheet::new(64, 64, 8, vec![[0, 255]; 2048].concat())?;
/// let searched = sheet.search(&Settings::of_depth(8), 1, |_, _| {})?;
/// assert_eq!(searched.form.blocks().count(), 1);
/// // Two colours of 8 bits in literals, and the first index.
/// assert!(searched.raw_width > 16);
/// // Of the symbols' costs too, which raw width does not count.
/// assert!(searched.head > 16.0 && searched.map_bits > 1.0);
/// assert_eq!(searched.report.blocks(), 1);
/// # Ok::<(), Box<dyn std::error::Error>>(())
/// ```
#[derive(Clone, Debug)]
pub struct Searched {
    /// What the sheet is known by.
    pub form: Form,
    /// The raw widths of all lists together.
    pub raw_width: u64,
    /// What the search counted for the colours of all palettes together, in bits.
    pub head: f64,
    /// What it counted for all their maps.
    pub map_bits: f64,
    /// The blocks with a list, in the form's order: a block without a palette has no line.
    pub report: Report,
}

/// Why a sheet was not searched.
///
/// ```
/// use palette_station::sheet::{Failure, Settings, Sheet};
/// use palette_station::Refusal;
///
/// let sheet = Sheet::new(1, 1, 8, vec![0])?;
/// let settings = Settings { lambda: f32::NAN, ..Settings::of_depth(8) };
/// let failure = sheet.search(&settings, 1, |_, _| {}).unwrap_err();
/// assert!(matches!(failure, Failure::Refused(Refusal::LAMBDA)));
/// # Ok::<(), Refusal>(())
/// ```
#[derive(Debug)]
pub enum Failure {
    /// A side that no block has (1), lambda (4) or costs (5).
    Refused(Refusal),
    /// A thread could not be started.
    Thread(io::Error),
}

impl Display for Failure {
    fn fmt(&self, f: &mut Formatter<'_>) -> fmt::Result {
        match self {
            Failure::Refused(refusal) => refusal.fmt(f),
            Failure::Thread(error) => write!(f, "cannot start a thread: {error}"),
        }
    }
}

impl Error for Failure {}

/// The blocks of a share, or of several one after the other.
#[derive(Default)]
struct Found {
    parts: Parts,
    raw_width: u64,
    /// Head and map bits of each palette.
    bits: Vec<[f32; 2]>,
    report: Report,
}

impl Found {
    fn append(&mut self, more: Found) {
        self.parts.append(more.parts);
        self.raw_width += more.raw_width;
        self.bits.extend(more.bits);
        self.report.append(more.report);
    }
}

/// What a thread tells of a share that it has ended: its place on the sheet, and what it is.
type Ended = (usize, Result<Found, Refusal>);

impl Sheet {
    /// Cuts the sheet into blocks, searches and lists each. `progress` hears how many rows of
    /// blocks are ended, and of how many. The answer does not depend on the number of threads.
    ///
    /// Refused by 1 for a side outside 1..64, by 4 and 5 as [`search`](crate::search) is.
    ///
    /// ```
    /// use palette_station::sheet::{Settings, Sheet};
    ///
    /// let sheet = Sheet::new(100, 200, 8, vec![255; 20000])?;
    /// let mut ended = Vec::new();
    /// sheet.search(&Settings::of_depth(8), 3, |done, rows| ended.push((done, rows)))?;
    /// assert_eq!(ended, [(1, 4), (2, 4), (3, 4), (4, 4)]);
    /// # Ok::<(), Box<dyn std::error::Error>>(())
    /// ```
    pub fn search(
        &self,
        settings: &Settings,
        threads: usize,
        progress: impl FnMut(usize, usize),
    ) -> Result<Searched, Failure> {
        if !(1..=MAX_SIDE).contains(&settings.side) {
            return Err(Failure::Refused(Refusal::SIDE));
        }
        let rounded = settings.levels.map(|levels| levels.round(self));
        let sheet = rounded.as_ref().unwrap_or(self);
        let all = in_threads(sheet, settings, threads.max(1), progress)?;
        let form = Form {
            width: self.width,
            height: self.height,
            bd: self.bd,
            settings: settings.clone(),
            parts: all.parts,
        };
        // From the first block to the last, since a sum of floats depends on its order; from 0.0, where
        // that of no blocks by `sum` would be -0.0.
        let total = |which: usize| {
            let bits = all.bits.iter().map(|bits| f64::from(bits[which]));
            bits.fold(0.0, |sum, bits| sum + bits)
        };
        Ok(Searched {
            form,
            raw_width: all.raw_width,
            head: total(0),
            map_bits: total(1),
            report: all.report,
        })
    }
}

fn in_threads(
    sheet: &Sheet,
    settings: &Settings,
    threads: usize,
    progress: impl FnMut(usize, usize),
) -> Result<Found, Failure> {
    let shares = Shares::new((sheet.width, sheet.height), settings.side, threads);
    let next = AtomicUsize::new(0);
    let (sender, receiver) = mpsc::channel();
    thread::scope(|scope| {
        let start = |_| {
            let sender = sender.clone();
            let work = || search_shares(sheet, settings, shares, &next, sender);
            thread::Builder::new().spawn_scoped(scope, work)
        };
        let started: io::Result<Vec<_>> = (0..threads.min(shares.count())).map(start).collect();
        drop(sender);
        let answer = match started {
            Ok(_) => in_order(&receiver, shares, progress).map_err(Failure::Refused),
            Err(error) => Err(Failure::Thread(error)),
        };
        // After a failure those at work find nothing left to do.
        next.store(shares.count(), Ordering::Relaxed);
        answer
    })
}

fn in_order(
    receiver: &Receiver<Ended>,
    shares: Shares,
    mut progress: impl FnMut(usize, usize),
) -> Result<Found, Refusal> {
    let mut joined = Joined::default();
    let mut left = vec![shares.in_row; shares.rows];
    let mut done = 0;
    for (place, found) in receiver {
        joined.take(place, found?);
        let left = &mut left[place / shares.in_row];
        *left -= 1;
        if *left == 0 {
            done += 1;
            progress(done, shares.rows);
        }
    }
    Ok(joined.found)
}

/// The shares from the top, whatever the order in which the threads end them.
#[derive(Default)]
struct Joined {
    found: Found,
    /// How many they are, and so the place of the next one.
    due: usize,
    early: BTreeMap<usize, Found>,
}

impl Joined {
    fn take(&mut self, place: usize, found: Found) {
        self.early.insert(place, found);
        while let Some(found) = self.early.remove(&self.due) {
            self.found.append(found);
            self.due += 1;
        }
    }
}

fn search_shares(
    sheet: &Sheet,
    settings: &Settings,
    shares: Shares,
    next: &AtomicUsize,
    sender: Sender<Ended>,
) {
    let mut room = Room::new(shares.in_strip, settings.side);
    loop {
        let place = next.fetch_add(1, Ordering::Relaxed);
        if place >= shares.count() {
            return;
        }
        let mut found = Found::default();
        let mut strips = shares.strips(place);
        let searched =
            strips.try_for_each(|areas| found.push_strip(sheet, areas, settings, &mut room));
        // The receiver outlives the threads.
        let _ = sender.send((place, searched.map(|()| found)));
    }
}

impl Found {
    /// Adds the blocks of a strip.
    fn push_strip(
        &mut self,
        sheet: &Sheet,
        areas: impl Iterator<Item = Area> + Clone,
        settings: &Settings,
        room: &mut Room,
    ) -> Result<(), Refusal> {
        room.gather(sheet, areas.clone());
        let blocks = Blocks {
            sides: &room.sides,
            samples: &room.samples,
            bd: sheet.bd,
        };
        let (lambda, costs) = (settings.lambda, &settings.costs);
        let answers = search_strip_into(&blocks, lambda, costs, &mut room.map, &mut room.flags)?;
        for (area, answer) in areas.zip(answers) {
            match answer {
                Ok(palette) => self.push_list(&palette, &mut room.words)?,
                Err(refusal) => self.push_refused(sheet, area, refusal)?,
            }
        }
        Ok(())
    }

    fn push_list(&mut self, palette: &PaletteView<'_>, words: &mut [u32]) -> Result<(), Refusal> {
        let listing = list_into(palette, &[], words)?;
        self.parts.push_list(listing.words);
        self.raw_width += u64::from(listing.raw_width);
        self.bits.push([palette.head, palette.map_bits]);
        self.report.push(Ok(Listed::of(palette, &listing)));
        Ok(())
    }

    fn push_refused(&mut self, sheet: &Sheet, area: Area, refusal: Refusal) -> Result<(), Refusal> {
        match refusal {
            Refusal::ONE_LEVEL => {
                let first = area.y * sheet.width + area.x;
                self.parts.push_level(sheet.samples[first]);
            }
            _ if refusal.means_no_palette() => self.parts.push_samples(refusal, sheet.rows(area)),
            _ => return Err(refusal),
        }
        Ok(())
    }
}

/// The room for one strip, used again for the next.
struct Room {
    sides: Vec<[usize; 2]>,
    samples: Vec<f32>,
    map: Vec<u8>,
    flags: Vec<u8>,
    words: Vec<u32>,
}

impl Room {
    fn new(blocks: usize, side: usize) -> Room {
        Room {
            sides: Vec::with_capacity(blocks),
            samples: Vec::with_capacity(blocks * side * side),
            map: vec![0; blocks * side * side],
            flags: vec![0; blocks * side],
            words: vec![0; MAX_WORDS],
        }
    }

    /// Takes the sides and the samples of a strip.
    fn gather(&mut self, sheet: &Sheet, areas: impl Iterator<Item = Area>) {
        self.sides.clear();
        self.samples.clear();
        for area in areas {
            self.sides.push([area.width, area.height]);
            for row in sheet.rows(area) {
                self.samples.extend(row.iter().map(|&v| f32::from(v)));
            }
        }
    }
}
