//! Where the levels of a block stand: a number of a level for each cell.

use super::random::Random;

kinds! {
    Layout {
        Scattered = "scattered",
        Rows = "rows",
        Columns = "columns",
        RepeatedRows = "repeated-rows",
        RepeatedColumns = "repeated-columns",
        Boxes = "boxes",
        Ramp = "ramp",
        Checker = "checker",
        EqualCounts = "equal-counts",
        RareOdd = "rare-odd",
        Runs = "runs",
    }
}

/// Row-major numbers below `count`.
pub fn layout(random: &mut Random, kind: Layout, w: usize, h: usize, count: usize) -> Vec<usize> {
    let cells = w * h;
    match kind {
        Layout::Scattered => (0..cells).map(|_| random.below(count)).collect(),
        Layout::Rows => rows(random, w, h, count),
        Layout::Columns => turned(&rows(random, h, w, count), w, h),
        Layout::RepeatedRows => repeated_rows(random, w, h, count),
        Layout::RepeatedColumns => turned(&repeated_rows(random, h, w, count), w, h),
        Layout::Boxes => boxes(random, w, h, count),
        Layout::Ramp => (0..cells)
            .map(|at| (at / w + at % w) * count / (w + h))
            .collect(),
        Layout::Checker => (0..cells).map(|at| (at / w + at % w) % count).collect(),
        Layout::EqualCounts => {
            let mut numbers: Vec<usize> = (0..cells).map(|at| at % count).collect();
            random.shuffle(&mut numbers);
            numbers
        }
        Layout::RareOdd => (0..cells).map(|_| rare_odd(random, count)).collect(),
        Layout::Runs => runs(random, cells, count),
    }
}

fn rows(random: &mut Random, w: usize, h: usize, count: usize) -> Vec<usize> {
    (0..h)
        .flat_map(|_| std::iter::repeat_n(random.below(count), w))
        .collect()
}

fn repeated_rows(random: &mut Random, w: usize, h: usize, count: usize) -> Vec<usize> {
    let mut numbers = runs(random, w, count);
    for _ in 1..h {
        if random.one_in(4) {
            let fresh = runs(random, w, count);
            numbers.extend(fresh);
        } else {
            numbers.extend_from_within(numbers.len() - w..);
        }
    }
    numbers
}

/// From columns of a block to its rows.
fn turned(columns: &[usize], w: usize, h: usize) -> Vec<usize> {
    (0..w * h)
        .map(|at| columns[(at % w) * h + at / w])
        .collect()
}

fn boxes(random: &mut Random, w: usize, h: usize, count: usize) -> Vec<usize> {
    let mut numbers = vec![random.below(count); w * h];
    for _ in 0..random.between(1, 12) {
        let number = random.below(count);
        let (left, top) = (random.below(w), random.below(h));
        let (right, bottom) = (random.between(left, w - 1), random.between(top, h - 1));
        for y in top..=bottom {
            numbers[y * w + left..=y * w + right].fill(number);
        }
    }
    numbers
}

/// Odd numbers are few enough not to move the colours beside them.
fn rare_odd(random: &mut Random, count: usize) -> usize {
    let even = 2 * random.below(count.div_ceil(2));
    if random.one_in(30) && even + 1 < count {
        even + 1
    } else {
        even
    }
}

fn runs(random: &mut Random, cells: usize, count: usize) -> Vec<usize> {
    let mut number = random.below(count);
    let mut step = || {
        if random.one_in(4) {
            number = random.below(count);
        }
        number
    };
    (0..cells).map(|_| step()).collect()
}

/// Puts each number that is missing into some cell, taking none away, as far as cells go.
pub fn place_all(random: &mut Random, numbers: &mut [usize], count: usize) {
    let mut places = vec![0usize; count];
    numbers.iter().for_each(|&number| places[number] += 1);
    let mut missing: Vec<usize> = (0..count).filter(|&number| places[number] == 0).collect();
    let mut cells: Vec<usize> = (0..numbers.len()).collect();
    random.shuffle(&mut cells);
    // One pass is enough: a number that stands once keeps its cell.
    for cell in cells {
        if places[numbers[cell]] > 1 {
            let Some(number) = missing.pop() else { return };
            places[numbers[cell]] -= 1;
            numbers[cell] = number;
            places[number] = 1;
        }
    }
}
