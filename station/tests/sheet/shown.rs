//! A sheet is shown again from its form: each list read back and predicted.

use crate::command::{folder, form};
use crate::common::{cases, Random};
use crate::form::{block, cut, settings, sheet, text};
use palette_station::sheet::{Form, Part, Settings, Sheet};
use palette_station::{pred, read, search};
use std::fs;

/// The samples of each block as a form has them, and how many blocks have a palette.
fn shown(form: &Form) -> (Vec<Vec<f32>>, usize) {
    let mut lists = 0;
    let blocks = form.blocks().map(|(area, part)| match part {
        Part::List(words) => {
            lists += 1;
            let palette = read(area.width, area.height, form.bd(), words, &[]);
            pred(&palette.expect("it was listed")).expect("it was read")
        }
        Part::OneLevel(level) => vec![f32::from(level); area.width * area.height],
        Part::Samples(_, samples) => samples.iter().map(|&sample| f32::from(sample)).collect(),
    });
    (blocks.collect(), lists)
}

/// The same without lists: from the palette found in a block, or else its samples.
fn due(sheet: &Sheet, settings: &Settings) -> Vec<Vec<f32>> {
    let blocks = cut(sheet, settings).into_iter().map(|cut| {
        let found = search(&block(&cut, sheet.bd()), settings.lambda, &settings.costs);
        match found {
            Ok(palette) => pred(&palette).expect("it was found"),
            Err(_) => cut.samples,
        }
    });
    blocks.collect()
}

#[test]
fn sheets_are_shown_as_they_were_searched() {
    let mut random = Random(24);
    let mut lists = 0;
    for place in 0..cases(300) {
        let sheet = sheet(&mut random);
        let settings = settings(&mut random, sheet.bd());
        let form = Form::read(&text(&sheet, &settings)).unwrap();
        let (blocks, listed) = shown(&form);
        assert!(blocks == due(&sheet, &settings), "sheet {place}");
        lists += listed;
    }
    assert!(lists > 300, "only {lists} lists");
}

#[test]
fn the_sample_drawing_is_shown_from_its_lists() {
    let folder = folder("shown");
    let form = form(&folder, "--sample s.pgm --threads 2");
    let form = Form::read(form.as_bytes()).unwrap();
    let scan = fs::read(folder.join("s.pgm")).unwrap();
    let (width, height) = (form.width(), form.height());
    let raster = &scan[scan.len() - width * height..];
    let samples = raster.iter().map(|&byte| u16::from(byte)).collect();
    let sheet = Sheet::new(width, height, form.bd(), samples).unwrap();
    let (blocks, lists) = shown(&form);
    assert_eq!(lists, 934);
    assert!(blocks == due(&sheet, form.settings()));
}
