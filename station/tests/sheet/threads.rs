//! A sheet's blocks in strips and shared out to threads: the same as searched one by one.

use crate::common::{cases, Random};
use crate::form::{described, samples, settings, sums_of};
use palette_station::sheet::{Failure, Settings, Sheet};
use palette_station::Costs;

const THREADS: [usize; 4] = [1, 2, 3, 8];

/// Wide or high, so that a row has several strips or is cut for several threads, and others.
fn sheet(random: &mut Random) -> Sheet {
    let (width, height) = match random.below(4) {
        0 => (random.between(1000, 2500), random.between(1, 3)),
        1 => (random.between(1, 3), random.between(100, 300)),
        2 => (random.between(60, 1200), random.between(15, 20)),
        _ => (random.between(1, 150), random.between(1, 150)),
    };
    let bd = random.between(8, 12) as u32;
    Sheet::new(width, height, bd, samples(random, width * height, bd)).unwrap()
}

/// Form and page as they are written, and raw width, head and map bits.
fn written(sheet: &Sheet, settings: &Settings, threads: usize) -> (Vec<u8>, Vec<u8>, [u64; 3]) {
    let searched = sheet.search(settings, threads, |_, _| {}).unwrap();
    let (mut form, mut page) = (Vec::new(), Vec::new());
    searched.form.write(&mut form).unwrap();
    searched.report.write(&mut page).unwrap();
    (form, page, sums_of(&searched))
}

#[test]
fn any_number_of_threads_gives_what_single_searches_give() {
    let mut random = Random(64);
    for place in 0..cases(60) {
        let sheet = sheet(&mut random);
        let mut settings = settings(&mut random, sheet.bd());
        settings.side = [1, 3, 15, 16, 20, 64][random.between(0, 5)];
        let (form, sums) = described(&sheet, &settings);
        let [one, others @ ..] = THREADS.map(|threads| written(&sheet, &settings, threads));
        assert!(one.0 == form.into_bytes(), "sheet {place}");
        assert_eq!(one.2, sums, "sheet {place}");
        assert!(others.iter().all(|other| *other == one), "sheet {place}");
    }
}

/// A row is told of once, when all of it is ended, however many threads have a part of it.
#[test]
fn progress_counts_rows() {
    let settings = Settings {
        side: 16,
        ..Settings::of_depth(8)
    };
    for (width, height) in [(1, 1), (3000, 10), (3000, 40), (40, 300), (5000, 16 * 7)] {
        let sheet = Sheet::new(width, height, 8, vec![7; width * height]).unwrap();
        let rows = height.div_ceil(16);
        for threads in [0, 1, 2, 3, 8, 100] {
            let mut told = Vec::new();
            let searched = sheet.search(&settings, threads, |done, of| told.push((done, of)));
            assert!(searched.is_ok());
            let due: Vec<_> = (1..=rows).map(|done| (done, rows)).collect();
            assert_eq!(told, due, "{width} by {height}, {threads} threads");
        }
    }
}

/// What is wrong for one block is for all, and no row is told of.
#[test]
fn what_refuses_every_block_refuses_the_sheet() {
    let sheet = Sheet::new(3000, 40, 8, vec![7; 120_000]).unwrap();
    let good = Settings {
        side: 16,
        ..Settings::of_depth(8)
    };
    let lambda = Settings {
        lambda: -1.0,
        ..good.clone()
    };
    let costs = Settings {
        costs: Costs::from_table([33.0; 301]),
        ..good
    };
    for threads in THREADS {
        for (number, settings) in [(4, &lambda), (5, &costs)] {
            let searched = sheet.search(settings, threads, |_, _| panic!("a row is ended"));
            let Err(Failure::Refused(refusal)) = searched else {
                panic!("number {number} is due");
            };
            assert_eq!(refusal.number(), number);
        }
    }
}
