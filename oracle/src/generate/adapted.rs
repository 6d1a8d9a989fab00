//! Adapted tables that costs are made from: sound ones, and ones that are damaged.

use super::random::{Beside, Random};
use crate::made_costs::{rows, sixteenths, Row, NUMBERS, WHOLE};
use crate::places::default_numbers;
use std::sync::LazyLock;

kinds! {
    /// The rows of a table before any damage.
    TableKind {
        /// No table at all.
        None = "none",
        Default = "default",
        NearDefault = "near-default",
        Any = "any",
        Even = "even",
        /// Symbols of probability 1 / 32,768 beside a likely one.
        Steep = "steep",
        /// Probabilities at which the cost changes.
        Edges = "edges",
        /// The default but for one row.
        OneRow = "one-row",
        /// Each row of another kind.
        Mixed = "mixed",
    }
}

/// The kinds that a single row has.
const ROW_KINDS: &[TableKind] = &[
    TableKind::NearDefault,
    TableKind::Any,
    TableKind::Even,
    TableKind::Steep,
    TableKind::Edges,
];

kinds! {
    /// Each leaves a table that is to be refused.
    TableDamage {
        /// Equal to the number before it in its row.
        Equal = "equal",
        Above = "above",
        /// Two neighbours of a row.
        Exchanged = "exchanged",
        ZeroAmongUsed = "zero-among-used",
        ZeroRow = "zero-row",
        FirstTooGreat = "first-too-great",
        /// More by 32,768: cut to 15 bits it would be the same again.
        Raised = "raised",
        Unused = "unused",
        /// The row's fall goes on in its unused places.
        FallGoesOn = "fall-goes-on",
        Length = "length",
        /// A length that a cut to 8 or 16 bits makes 0 or 260 again, or doubled.
        LengthRaised = "length-raised",
    }
}

pub struct TableKinds {
    pub rows: TableKind,
    pub damages: Vec<TableDamage>,
}

/// Half of the tables are damaged; an eighth of these in their length too, which comes first.
pub fn table(seed: u64, index: u64) -> (Vec<u16>, TableKinds) {
    let random = &mut Random::beside(seed, index, Beside::Adapted);
    if random.one_in(2) {
        let rows = random.pick(TableKind::ALL);
        let numbers = table_of(random, rows);
        let damages = vec![];
        return (numbers, TableKinds { rows, damages });
    }
    let (mut numbers, rows) = sound_table(random);
    let mut damages = vec![random.pick(TableDamage::ALL)];
    if random.one_in(8) {
        damages.push(TableDamage::Length);
    }
    for &kind in &damages {
        damage(random, kind, &mut numbers);
    }
    (numbers, TableKinds { rows, damages })
}

/// A table whose costs a search is lent; one in four is none.
pub fn lent_table(seed: u64, index: u64) -> (Vec<u16>, TableKind) {
    let random = &mut Random::beside(seed, index, Beside::Adapted);
    if random.one_in(4) {
        return (vec![], TableKind::None);
    }
    sound_table(random)
}

fn sound_table(random: &mut Random) -> (Vec<u16>, TableKind) {
    let kind = random.pick(&TableKind::ALL[1..]);
    (table_of(random, kind), kind)
}

fn table_of(random: &mut Random, kind: TableKind) -> Vec<u16> {
    let mut numbers = default_numbers();
    let chosen = random.pick(&rows());
    match kind {
        TableKind::None => return vec![],
        TableKind::Default => {}
        TableKind::OneRow => {
            let kind = random.pick(ROW_KINDS);
            fill_row(random, kind, &mut numbers[chosen.at..][..chosen.used]);
        }
        _ => {
            for Row { at, used, .. } in rows() {
                fill_row(random, kind, &mut numbers[at..][..used]);
            }
        }
    }
    numbers
}

/// Fills a row that holds the default's numbers.
fn fill_row(random: &mut Random, kind: TableKind, row: &mut [u16]) {
    match kind {
        TableKind::NearDefault => fill_near(random, row),
        TableKind::Even => fill_even(row),
        TableKind::Steep => fill_steep(random, row),
        TableKind::Edges => fill_edges(random, row),
        TableKind::Mixed => {
            let kind = random.pick(ROW_KINDS);
            fill_row(random, kind, row);
        }
        _ => fill_falling(row, || random.between(1, usize::from(WHOLE) - 1)),
    }
}

/// Different numbers from 1 to 32,767, the greatest first.
fn fill_falling(row: &mut [u16], mut draw: impl FnMut() -> usize) {
    for at in 0..row.len() {
        row[at] = loop {
            let number = draw() as u16;
            if !row[..at].contains(&number) {
                break number;
            }
        };
    }
    row.sort_by(|a, b| b.cmp(a));
}

/// Each number is moved by less than half of what lies between it and its neighbours.
fn fill_near(random: &mut Random, row: &mut [u16]) {
    let before = row.to_vec();
    for (at, number) in row.iter_mut().enumerate() {
        let above = if at == 0 { WHOLE } else { before[at - 1] };
        let below = before.get(at + 1).copied().unwrap_or(0);
        let least = *number - (*number - below - 1) / 2;
        let most = *number + (above - *number - 1) / 2;
        *number = random.between(usize::from(least), usize::from(most)) as u16;
    }
}

fn fill_even(row: &mut [u16]) {
    let symbols = row.len() + 1;
    for (at, number) in row.iter_mut().enumerate() {
        *number = (usize::from(WHOLE) * (symbols - 1 - at) / symbols) as u16;
    }
}

/// Numbers close to one another below 32,768, above 0 or about a place between, or about some of
/// these.
fn fill_steep(random: &mut Random, row: &mut [u16]) {
    let (near, last) = (row.len(), usize::from(WHOLE) - 1);
    let between = random.between(16, last - 16);
    let starts = [1, between, last + 1 - near];
    let only = random.below(6);
    fill_falling(row, || {
        let any = random.pick(&starts);
        let start = starts.get(only).copied().unwrap_or(any);
        random.between(start, start + near - 1)
    });
}

/// The largest p of each cost that there is, and the p after it.
fn edges() -> &'static [u16] {
    static ALL: LazyLock<Vec<u16>> = LazyLock::new(|| {
        let last = |p: &u16| sixteenths(*p) != sixteenths(*p + 1);
        (1..WHOLE).filter(last).flat_map(|p| [p, p + 1]).collect()
    });
    &ALL
}

/// Each symbol's probability is an edge but that of one, which has what is left.
fn fill_edges(random: &mut Random, row: &mut [u16]) {
    let symbols = row.len() + 1;
    let mut chances = vec![];
    let mut left = WHOLE;
    while chances.len() < row.len() {
        // So much must be left for the others.
        let most = left - (symbols - 1 - chances.len()) as u16;
        let fitting = edges().partition_point(|&edge| edge <= most);
        let chance = edges()[random.below(fitting)];
        left -= chance;
        chances.push(chance);
    }
    chances.insert(random.below(symbols), left);
    let mut above = WHOLE;
    for (number, chance) in row.iter_mut().zip(chances) {
        above -= chance;
        *number = above;
    }
}

fn damage(random: &mut Random, kind: TableDamage, numbers: &mut Vec<u16>) {
    match kind {
        TableDamage::Length => {
            let length = other_length(random);
            numbers.resize(length, 0);
        }
        TableDamage::LengthRaised => lengthen(random, numbers),
        TableDamage::Unused | TableDamage::FallGoesOn => {
            let row = row_with(random, |row| row.used < row.room);
            damage_unused(random, kind, &mut numbers[row.at..], row);
        }
        TableDamage::Equal | TableDamage::Above | TableDamage::Exchanged => {
            let row = row_with(random, |row| row.used > 1);
            damage_fall(random, kind, &mut numbers[row.at..][..row.used]);
        }
        _ => {
            let row = row_with(random, |_| true);
            damage_used(random, kind, &mut numbers[row.at..][..row.used]);
        }
    }
}

fn row_with(random: &mut Random, holds: impl Fn(&Row) -> bool) -> Row {
    let rows: Vec<Row> = rows().into_iter().filter(holds).collect();
    random.pick(&rows)
}

/// 24 comes before what the numbers would be refused for.
fn other_length(random: &mut Random) -> usize {
    let any = random.between(1, 300);
    let length = random.pick(&[NUMBERS - 1, NUMBERS + 1, 1, 7, 15, 245, 301, any, any]);
    if length == NUMBERS {
        length - 1
    } else {
        length
    }
}

/// The table again and again, or cut.
fn lengthen(random: &mut Random, numbers: &mut Vec<u16>) {
    let length = random.pick(&[4, 256, 512, 516, 520, 1 << 16, (1 << 16) + NUMBERS]);
    let all = numbers.iter().copied().cycle().take(length);
    *numbers = all.collect();
}

/// In a row of at least two used numbers.
fn damage_fall(random: &mut Random, kind: TableDamage, row: &mut [u16]) {
    let at = random.between(1, row.len() - 1);
    let above = row[at - 1];
    match kind {
        TableDamage::Equal => row[at] = above,
        TableDamage::Exchanged => row.swap(at - 1, at),
        _ => {
            let any = random.between(usize::from(above) + 1, usize::from(WHOLE)) as u16;
            row[at] = random.pick(&[above + 1, any]);
        }
    }
}

fn damage_used(random: &mut Random, kind: TableDamage, row: &mut [u16]) {
    match kind {
        TableDamage::ZeroRow => row.fill(0),
        TableDamage::FirstTooGreat => {
            let any = random.between(usize::from(WHOLE), usize::from(u16::MAX)) as u16;
            row[0] = random.pick(&[WHOLE, WHOLE + 1, u16::MAX, any]);
        }
        TableDamage::Raised => row[random.below(row.len())] += WHOLE,
        _ => row[random.below(row.len())] = 0,
    }
}

/// `numbers` begin with the row.
fn damage_unused(random: &mut Random, kind: TableDamage, numbers: &mut [u16], row: Row) {
    if kind == TableDamage::FallGoesOn && numbers[row.used - 1] > 1 {
        numbers[row.used] = random.between(1, usize::from(numbers[row.used - 1]) - 1) as u16;
        return;
    }
    let any = random.between(1, usize::from(u16::MAX)) as u16;
    numbers[random.between(row.used, row.room - 1)] = random.pick(&[1, WHOLE, u16::MAX, any]);
}
