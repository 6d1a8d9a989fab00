//! Rounding to a few greys, and lambda by the depth.

use crate::command::{blocks, folder, form, pgm, printed, value};
use crate::common::Random;
use palette_station::sheet::{Levels, Settings};
use std::collections::BTreeSet;
use std::fs;

fn all() -> impl Iterator<Item = (Levels, u32)> {
    let counts = (2..=32).map(|count| Levels::new(count).unwrap());
    counts.flat_map(|levels| (8..=12).map(move |bd| (levels, bd)))
}

#[test]
fn there_are_2_to_32_levels() {
    for count in [0, 1, 33, 34, u32::MAX] {
        assert_eq!(Levels::new(count), None);
    }
    for (levels, bd) in all() {
        assert_eq!(levels.greys(bd).count(), levels.count() as usize);
    }
}

#[test]
fn greys_go_evenly_from_end_to_end() {
    for (levels, bd) in all() {
        let greys: Vec<u16> = levels.greys(bd).collect();
        assert_eq!((greys[0], greys[greys.len() - 1]), (0, (1 << bd) - 1));
        let steps: Vec<u16> = greys.windows(2).map(|pair| pair[1] - pair[0]).collect();
        let (least, most) = (steps.iter().min().unwrap(), steps.iter().max().unwrap());
        assert!(most - least <= 1, "{levels:?} at {bd}: {steps:?}");
    }
}

/// Each grey beside the exact place i × top / (N - 1): no further than half, halves up.
#[test]
fn greys_are_rounded_to_nearest() {
    for (levels, bd) in all() {
        let (steps, top) = (i64::from(levels.count()) - 1, (1_i64 << bd) - 1);
        for (i, grey) in levels.greys(bd).enumerate() {
            let twice_off = 2 * (i64::from(grey) * steps - i as i64 * top);
            assert!(
                -steps < twice_off && twice_off <= steps,
                "{i} of {levels:?} at {bd}"
            );
        }
    }
}

#[test]
fn the_ends_stay_and_each_sample_takes_the_nearest() {
    for (levels, bd) in all() {
        let top = (1_u16 << bd) - 1;
        assert_eq!([levels.nearest(bd, 0), levels.nearest(bd, top)], [0, top]);
        let greys: Vec<u16> = levels.greys(bd).collect();
        for sample in 0..=top {
            let taken = levels.nearest(bd, sample);
            assert!(greys.contains(&taken));
            for &grey in &greys {
                let (own, other) = (taken.abs_diff(sample), grey.abs_diff(sample));
                let best = own < other || (own == other && taken >= grey);
                assert!(best, "{sample} to {taken}, not {grey}: {levels:?} at {bd}");
            }
        }
    }
}

/// By the command, at the ends of every depth: what is listed are the rounded samples.
#[test]
fn rounded_samples_are_what_is_listed() {
    let folder = folder("levels");
    for bd in 8..=12 {
        let top = (1_u16 << bd) - 1;
        let digits = if bd == 8 { 2 } else { 3 };
        let ends = [0, 1, top / 2, top / 2 + 1, top - 1, top];
        fs::write(folder.join("a.pgm"), pgm(6, 1, top, |x, _| ends[x])).unwrap();
        for (count, due) in [(2, [0, 0, 0, top, top, top]), (3, [0, 0, 1, 1, top, top])] {
            let middle = top / 2 + 1;
            let due = due.map(|v| if v == 1 { middle } else { v });
            let row: String = due.iter().map(|v| format!("{v:0digits$x}")).collect();
            let blocks = blocks(&folder, &format!("a.pgm --levels {count}"));
            assert_eq!(
                blocks,
                format!("       0       8\n{row}\n"),
                "{count} at {bd}"
            );
        }
    }
}

/// A maxval that is no power of two less one: the greys are those of the depth.
#[test]
fn levels_follow_the_depth() {
    let folder = folder("levels-depth");
    fs::write(folder.join("a.pgm"), pgm(20, 20, 1000, |_, _| 1000)).unwrap();
    let listed = blocks(&folder, "a.pgm --levels 2 --picture p.ppm");
    assert_eq!(listed, "       0       9    1023\n");
}

/// With 32 greys no block has more than 32 levels.
#[test]
fn rounded_blocks_have_palettes() {
    let folder = folder("levels-palettes");
    let noise = |x: usize, y: usize| ((x * 7919 + y * 104_729 + x * y) % 256) as u16;
    fs::write(folder.join("a.pgm"), pgm(128, 128, 255, noise)).unwrap();
    let with = |words: &str| value(&printed(&folder, words), "with palette");
    assert_eq!(with("a.pgm"), "0 (0.0 % of the drawn)");
    for count in [2, 16, 32] {
        let words = format!("a.pgm --levels {count}");
        assert_eq!(with(&words), "4 (100.0 % of the drawn)", "{count}");
    }
}

/// The sample drawing as a poor scanner sees it: each sample with its neighbours, weights 1, 2, 1
/// both ways, and the sum of four random numbers, halved.
fn poor_scan(drawing: &[u8], noise: u64) -> Vec<u8> {
    let (width, height) = (2480, 3508);
    let mut random = Random(2024);
    let at =
        |x: usize, y: usize| usize::from(drawing[y.min(height - 1) * width + x.min(width - 1)]);
    let across = |x: usize, y: usize| at(x.saturating_sub(1), y) + 2 * at(x, y) + at(x + 1, y);
    let mut bytes = format!("P5 {width} {height} 255\n").into_bytes();
    for (y, x) in (0..height).flat_map(|y| (0..width).map(move |x| (y, x))) {
        let sum = across(x, y.saturating_sub(1)) + 2 * across(x, y) + across(x, y + 1);
        let four: u64 = (0..4).map(|_| random.below(2 * noise + 1)).sum();
        let sample = (sum + 8) / 16 + four as usize / 2;
        bytes.push(sample.saturating_sub(2 * noise as usize).min(255) as u8);
    }
    bytes
}

/// The blocks of 2 to 32 levels, which have a palette, and all of more than one.
fn by_levels(samples: &[u8]) -> String {
    let mut blocks = vec![BTreeSet::new(); 39 * 55];
    for (cell, &sample) in samples.iter().enumerate() {
        let (x, y) = (cell % 2480, cell / 2480);
        blocks[y / 64 * 39 + x / 64].insert(sample);
    }
    let count = |most| {
        blocks
            .iter()
            .filter(|levels| (2..=most).contains(&levels.len()))
            .count()
    };
    format!("{} of {}", count(32), count(256))
}

#[test]
fn a_poor_scan_has_palettes_after_rounding() {
    let folder = folder("poor-scan");
    printed(&folder, "--sample drawing.pgm");
    let drawing = fs::read(folder.join("drawing.pgm")).unwrap();
    let drawing = &drawing[drawing.len() - 2480 * 3508..];
    for noise in [3, 12] {
        let scan = poor_scan(drawing, noise);
        fs::write(folder.join("a.pgm"), &scan).unwrap();
        let palettes = |words: &str| {
            let summary = printed(&folder, words);
            let count = |name| value(&summary, name).split(' ').next().unwrap().to_string();
            format!("{} of {}", count("with palette"), count("drawn"))
        };
        let samples = &scan[scan.len() - drawing.len()..];
        // The greys of 16 levels at depth 8 are the multiples of 17.
        let greys: Vec<u8> = samples
            .iter()
            .map(|v| (v.saturating_add(8)) / 17 * 17)
            .collect();
        let due = [by_levels(samples), by_levels(&greys)];
        let found = [palettes("a.pgm"), palettes("a.pgm --levels 16")];
        eprintln!("noise of up to {}: {found:?}", 2 * noise);
        assert_eq!(found, due);
    }
}

#[test]
fn lambda_follows_the_depth() {
    let folder = folder("lambda");
    for (bd, lambda) in [(8, 60), (9, 240), (10, 960), (11, 3840), (12, 15360)] {
        assert_eq!(Settings::of_depth(bd).lambda, lambda as f32);
        fs::write(folder.join("a.pgm"), pgm(20, 20, (1 << bd) - 1, |_, _| 7)).unwrap();
        let summary = printed(&folder, "a.pgm");
        assert_eq!(value(&summary, "lambda"), lambda.to_string());
        let said = form(&folder, &format!("a.pgm --lambda {lambda}"));
        assert_eq!(form(&folder, "a.pgm"), said);
        let summary = printed(&folder, "a.pgm --lambda 60.5");
        assert_eq!(value(&summary, "lambda"), "60.5");
    }
}
