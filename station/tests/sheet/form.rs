//! The form beside another working from its description, and read back.

use crate::common::{cases, listing_program, program_text, Random};
use palette_station::sheet::{Form, Levels, Part, Searched, Settings, Sheet};
use palette_station::{list, search, Block, Costs, Refusal};
use std::fmt::Write;

/// Samples of one kind each: blank, few levels, many levels, or a mixture of all in strips.
pub fn samples(random: &mut Random, cells: usize, bd: u32) -> Vec<u16> {
    let top = 1 << bd;
    let few: Vec<u64> = (0..random.between(1, 20))
        .map(|_| random.below(top))
        .collect();
    let kind = random.below(4);
    let sample = |cell: usize| match (kind + 3 * (cell / 300) as u64 * kind) % 4 {
        0 => few[0] as u16,
        1 => few[random.between(0, few.len() - 1)] as u16,
        2 => few[cell / 7 % few.len()] as u16,
        _ => random.below(top) as u16,
    };
    (0..cells).map(sample).collect()
}

pub fn sheet(random: &mut Random) -> Sheet {
    let (width, height) = (random.between(1, 70), random.between(1, 70));
    let bd = random.between(8, 12) as u32;
    let samples = samples(random, width * height, bd);
    Sheet::new(width, height, bd, samples).unwrap()
}

pub fn settings(random: &mut Random, bd: u32) -> Settings {
    let mut table = *Costs::default().as_table();
    // No sixteenth, so that sums are rounded.
    table[random.between(0, 300)] = random.below(321) as f32 / 10.0;
    Settings {
        side: [1, 7, 16, 20, 32, 64][random.between(0, 5)],
        levels: Levels::new(random.below(64) as u32),
        lambda: random.below(1 << 21) as f32 / 2.0,
        costs: match random.below(2) {
            0 => Costs::from_table(table),
            _ => Settings::of_depth(bd).costs,
        },
    }
}

pub fn text(sheet: &Sheet, settings: &Settings) -> Vec<u8> {
    let mut text = Vec::new();
    let searched = sheet.search(settings, 2, |_, _| {}).unwrap();
    searched.form.write(&mut text).unwrap();
    text
}

/// A block of the sheet by itself.
pub struct Cut {
    pub samples: Vec<f32>,
    pub width: usize,
    pub height: usize,
}

/// All blocks, cut cell by cell.
pub fn cut(sheet: &Sheet, settings: &Settings) -> Vec<Cut> {
    let (width, side) = (sheet.width(), settings.side);
    let columns = width.div_ceil(side);
    let count = columns * sheet.height().div_ceil(side);
    let mut all: Vec<(Vec<f32>, usize)> = vec![(Vec::new(), 0); count];
    for (cell, &sample) in sheet.samples().iter().enumerate() {
        let (x, y) = (cell % width, cell / width);
        let (samples, rows) = &mut all[y / side * columns + x / side];
        let rounded = match settings.levels {
            None => sample,
            Some(levels) => levels.nearest(sheet.bd(), sample),
        };
        samples.push(f32::from(rounded));
        *rows = y % side + 1;
    }
    let blocks = all.into_iter().map(|(samples, height)| Cut {
        width: samples.len() / height,
        samples,
        height,
    });
    blocks.collect()
}

/// Raw width, head and map bits. Raw widths are exact in them.
type Sums = [f64; 3];

/// Of a searched sheet, by their bits.
pub fn sums_of(searched: &Searched) -> [u64; 3] {
    let raw_width = searched.raw_width as f64;
    [raw_width, searched.head, searched.map_bits].map(f64::to_bits)
}

/// The form as its description has it, from single searches, and their sums, by their bits.
pub fn described(sheet: &Sheet, settings: &Settings) -> (String, [u64; 3]) {
    let hex = |f: f32| format!("{:08x}", f.to_bits());
    let mut text = format!(
        "palette-sheet 1\nwidth {}\nheight {}\ndepth {}\nside {}\nlevels {}\nlambda {}\ncosts\n",
        sheet.width(),
        sheet.height(),
        sheet.bd(),
        settings.side,
        settings.levels.map_or(0, Levels::count),
        hex(settings.lambda),
    );
    for (place, &cost) in settings.costs.as_table().iter().enumerate() {
        text += &hex(cost);
        text += if place % 7 == 6 { "\n" } else { " " };
    }
    let mut sums: Sums = [0.0; 3];
    for block in cut(sheet, settings) {
        let more = describe(&block, sheet.bd(), settings, &mut text);
        sums = std::array::from_fn(|which| sums[which] + more[which]);
    }
    (text, sums.map(f64::to_bits))
}

/// Adds a block to the text and gives what it adds to the sums.
fn describe(cut: &Cut, bd: u32, settings: &Settings, text: &mut String) -> Sums {
    let found = search(&block(cut, bd), settings.lambda, &settings.costs);
    let refusal = match found {
        Ok(palette) => {
            let listing = list(&palette, &[]).unwrap();
            writeln!(text, "{:>8}", listing.words.len()).unwrap();
            for word in listing.words {
                let [kind, first, high, low] = word.to_be_bytes();
                let second = u16::from_be_bytes([high, low]);
                writeln!(text, "{kind:>8}{first:>8}{second:>8}").unwrap();
            }
            let [head, map_bits] = [palette.head, palette.map_bits].map(f64::from);
            return [f64::from(listing.raw_width), head, map_bits];
        }
        Err(refusal) => refusal,
    };
    write!(text, "{:>8}{:>8}", 0, refusal.number()).unwrap();
    if refusal == Refusal::ONE_LEVEL {
        write!(text, "{:>8}", cut.samples[0]).unwrap();
    } else {
        for (cell, &sample) in cut.samples.iter().enumerate() {
            text.push_str(if cell % cut.width == 0 { "\n" } else { "" });
            let digits = if bd > 8 { 3 } else { 2 };
            write!(text, "{:0digits$x}", sample as u16).unwrap();
        }
    }
    text.push('\n');
    [0.0; 3]
}

pub fn block(cut: &Cut, bd: u32) -> Block<'_> {
    Block {
        samples: &cut.samples,
        width: cut.width,
        height: cut.height,
        bd,
    }
}

#[test]
fn the_form_is_what_its_description_says() {
    let mut random = Random(12);
    for place in 0..cases(300) {
        let sheet = sheet(&mut random);
        let settings = settings(&mut random, sheet.bd());
        let (due, sums) = described(&sheet, &settings);
        assert!(text(&sheet, &settings) == due.into_bytes(), "sheet {place}");
        let searched = sheet.search(&settings, 1, |_, _| {}).unwrap();
        assert_eq!(sums_of(&searched), sums, "sheet {place}");
    }
}

/// A sheet of one block: what follows the costs is what the proved program prints.
#[test]
fn lists_are_what_the_listing_program_prints() {
    let mut random = Random(17);
    let mut compared = 0;
    while compared < cases(40) {
        let drawn = random.drawn();
        let samples = drawn.samples.iter().map(|&sample| sample as u16).collect();
        let sheet = Sheet::new(drawn.width, drawn.height, drawn.bd, samples).unwrap();
        let settings = Settings::of_depth(drawn.bd);
        let cut = cut(&sheet, &settings).remove(0);
        let found = search(&block(&cut, drawn.bd), settings.lambda, &settings.costs);
        let Ok(palette) = found else { continue };
        let Some(printed) = listing_program(program_text(&palette).as_bytes()) else {
            return;
        };
        let form = text(&sheet, &settings);
        let due = [b"\n", &printed[..]].concat();
        assert!(form.ends_with(&due), "block {compared}");
        let lines = |text: &[u8]| text.iter().filter(|&&byte| byte == b'\n').count();
        assert_eq!(lines(&form), 51 + lines(&printed), "block {compared}");
        compared += 1;
    }
}

/// What stands in a form, all of it.
fn all_of(form: &Form) -> (Vec<usize>, Vec<u32>, Vec<(usize, Part<'_>)>) {
    let settings = form.settings();
    let levels = settings.levels.map_or(0, Levels::count) as usize;
    let numbers = vec![
        form.width(),
        form.height(),
        form.bd() as usize,
        settings.side,
        levels,
    ];
    let floats = [settings.lambda]
        .into_iter()
        .chain(*settings.costs.as_table());
    let width = form.width();
    let parts = form
        .blocks()
        .map(|(area, part)| (area.y * width + area.x, part));
    (numbers, floats.map(f32::to_bits).collect(), parts.collect())
}

#[test]
fn every_part_is_read_back() {
    let mut random = Random(13);
    for place in 0..cases(300) {
        let sheet = sheet(&mut random);
        let settings = settings(&mut random, sheet.bd());
        let form = sheet.search(&settings, 1, |_, _| {}).unwrap().form;
        let mut text = Vec::new();
        form.write(&mut text).unwrap();
        let read = Form::read(&text).unwrap();
        assert_eq!(all_of(&read), all_of(&form), "sheet {place}");
    }
}

/// One change at any place: a byte, a line, the end.
fn changed(random: &mut Random, text: &[u8]) -> Vec<u8> {
    let place = random.between(0, text.len() - 1);
    let mut changed = text.to_vec();
    match random.below(6) {
        0 => changed[place] = random.below(256) as u8,
        1 => changed[place] = b"0123456789abcdef \n"[random.between(0, 17)],
        2 => drop(changed.remove(place)),
        3 => changed.insert(place, b" 0\n"[random.between(0, 2)]),
        4 => changed.truncate(place),
        _ => changed.extend_from_slice(&text[place..]),
    }
    changed
}

/// Every text that is read stands for what no other text does.
#[test]
fn changed_forms_are_refused_or_are_other_forms() {
    let mut random = Random(14);
    let (mut refused, mut read) = (0, 0);
    for _ in 0..cases(40) {
        let sheet = sheet(&mut random);
        let text = text(&sheet, &settings(&mut random, sheet.bd()));
        let form = Form::read(&text).unwrap();
        for _ in 0..100 {
            let other = changed(&mut random, &text);
            match Form::read(&other) {
                Err(_) => refused += 1,
                Ok(same) if other == text => assert_eq!(all_of(&same), all_of(&form)),
                Ok(another) => {
                    read += 1;
                    assert_ne!(all_of(&another), all_of(&form));
                }
            }
        }
    }
    assert!(
        refused > 300 && read > 300,
        "{refused} refused, {read} read"
    );
}

#[test]
fn headers_that_promise_too_much() {
    let sheet = Sheet::new(16, 1, 8, vec![7; 16]).unwrap();
    let whole = String::from_utf8(text(&sheet, &Settings::of_depth(8))).unwrap();
    assert!(Form::read(whole.as_bytes()).is_ok());
    for (from, to) in [
        ("width 16", "width 18446744073709551615"),
        ("height 1", "height 18446744073709551615"),
        ("height 1", "height 99999999999999999999"),
        ("width 16", "width 0"),
        ("height 1", "height 0"),
        ("side 64", "side 0"),
        ("side 64", "side 65"),
        ("depth 8", "depth 7"),
        ("depth 8", "depth 13"),
        ("levels 0", "levels 1"),
        ("levels 0", "levels 33"),
        ("      9       7", "      9     256"),
        ("      9       7", "     11       7"),
        ("      9       7", "      0       7"),
        ("sheet 1", "sheet 2"),
        ("width 16", "width  16"),
        ("width 16", "width +16"),
        ("width 16", "width 016"),
    ] {
        let other = whole.replace(from, to);
        assert_ne!(other, whole);
        assert!(Form::read(other.as_bytes()).is_err(), "{to}");
    }
}

#[test]
fn what_no_search_takes() {
    let sheet = Sheet::new(20, 20, 8, vec![7; 400]).unwrap();
    let good = Settings::of_depth(8);
    let with = |side, lambda, costs: &Costs| Settings {
        side,
        levels: None,
        lambda,
        costs: costs.clone(),
    };
    let dear = Costs::from_table([32.5; 301]);
    for (number, settings) in [
        (1, with(0, 60.0, &good.costs)),
        (1, with(65, 60.0, &good.costs)),
        (1, with(usize::MAX, f32::NAN, &dear)),
        (4, with(64, f32::NAN, &dear)),
        (4, with(64, -1.0, &good.costs)),
        (5, with(8, 60.0, &dear)),
    ] {
        for threads in [0, 1, 5] {
            let failure = sheet.search(&settings, threads, |_, _| {}).unwrap_err();
            let said = failure.to_string();
            assert!(
                said.starts_with(&format!("refused by {number}: ")),
                "{said}"
            );
        }
    }
}

#[test]
fn what_is_no_sheet() {
    for bd in 8..=12 {
        let top = (1 << bd) - 1;
        assert!(Sheet::new(3, 1, bd, vec![0, top, 1]).is_ok());
        let above = Sheet::new(3, 1, bd, vec![0, 1, top + 1]);
        assert_eq!(above, Err(Refusal::SAMPLE), "depth {bd}");
    }
    let refused = |width, height, bd| Sheet::new(width, height, bd, vec![9999; 6]).unwrap_err();
    for (width, height) in [(0, 6), (6, 0), (0, 0)] {
        assert_eq!(refused(width, height, 13), Refusal::SIDE);
    }
    for bd in [0, 7, 13, 40, u32::MAX] {
        assert_eq!(refused(2, 2, bd), Refusal::DEPTH);
    }
    for (width, height) in [(2, 2), (7, 1), (usize::MAX, usize::MAX), (1 << 63, 2)] {
        assert_eq!(refused(width, height, 8), Refusal::SAMPLE_COUNT);
    }
    assert_eq!(refused(3, 2, 8), Refusal::SAMPLE);
}
