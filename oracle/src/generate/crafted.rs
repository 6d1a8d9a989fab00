//! Lists whose colours the listing would send otherwise: mostly in good form and aimed at 23.

use super::caches::{cache_of, CacheKind, LONGEST};
use super::random::Random;
use crate::check::{ceil_log2, step_width, top};
use crate::original::{list, pack, unpack, Palette};

kinds! {
    /// What is sent otherwise. Now and then a crafted list is sound all the same.
    Craft {
        /// A 1 for a repeated entry too.
        TakenTwice = "taken-twice",
        /// A 0 for an entry whose colour follows as a literal.
        ZeroThenSent = "zero-then-sent",
        /// A 0 for an entry, and a 1 at its repeat.
        ZeroThenTaken = "zero-then-taken",
        /// A 1 for an entry above the top level.
        AboveTop = "above-top",
        /// A literal that the cache took before.
        LiteralTaken = "literal-taken",
        /// Any start for the width of the steps; too small a one gives 21.
        StepWidth = "step-width",
        /// Any bits for the cache.
        AnyBits = "any-bits",
        /// The top level is reached with steps still due, so that no value is right for the next.
        TopReached = "top-reached",
        /// The last step leads past the top level, by a value that its width can hold.
        PastTop = "past-top",
    }
}

/// The colours of a list as they are sent.
struct Sent {
    bd: u32,
    n: usize,
    bits: Vec<bool>,
    taken: Vec<u16>,
    literals: Vec<u16>,
}

impl Sent {
    /// How many literals there have to be.
    fn due(&self) -> usize {
        self.n - self.taken.len()
    }
}

/// What a crafted list is made for, and the colour that it happens to.
#[derive(Clone, Copy)]
struct Aim {
    kind: Craft,
    color: u16,
}

/// A cache, and a list with the palette's number of colours and its map.
pub fn crafted(random: &mut Random, kind: Craft, palette: &Palette) -> (Vec<u16>, Vec<u32>) {
    let color = random.pick(&palette.colors);
    let aim = Aim { kind, color };
    let cache = crafted_cache(random, aim, palette);
    let mut sent = send(random, aim, palette, &cache);
    match kind {
        Craft::LiteralTaken => send_again(random, &mut sent),
        Craft::TopReached => reach_top(random, &mut sent),
        Craft::PastTop => end_at_top(random, &mut sent),
        _ => {}
    }
    let width = match kind {
        Craft::StepWidth => sent.bd - 3 + random.below(4) as u32,
        _ => step_width(&sent.literals, sent.bd),
    };
    let mut words = color_words(&sent, width);
    if kind == Craft::PastTop {
        pass_top(random, &sent, &mut words);
    }
    if sent.literals.len() == sent.due() || random.one_in(2) {
        words.extend(map_words(palette));
    } else {
        // The list ends where the step from the top level is due.
        words.pop();
    }
    (cache, words)
}

/// A cache in which the aim can be met: mostly one that takes few colours, with what is wanted
/// among its first entries.
fn crafted_cache(random: &mut Random, aim: Aim, palette: &Palette) -> Vec<u16> {
    let drawn = if aim.kind == Craft::AnyBits || random.one_in(4) {
        random.pick(CacheKind::ALL)
    } else {
        random.pick(&[CacheKind::Empty, CacheKind::Part])
    };
    let wanted = match aim.kind {
        Craft::TakenTwice | Craft::ZeroThenTaken => vec![aim.color; 2],
        Craft::ZeroThenSent | Craft::LiteralTaken => vec![aim.color],
        Craft::AboveTop => {
            let least = top(palette.bd) as usize + 1;
            let most = random.pick(&[least, 65_535]);
            vec![random.between(least, most) as u16]
        }
        Craft::StepWidth | Craft::AnyBits | Craft::TopReached | Craft::PastTop => vec![],
    };
    let mut cache = cache_of(random, drawn, palette);
    let most = match aim.kind {
        // A step is sent only where two colours are not taken.
        Craft::PastTop => random.below(6),
        _ => LONGEST - wanted.len(),
    };
    cache.truncate(most);
    for entry in wanted {
        let at = random.below(cache.len().min(4) + 1);
        cache.insert(at, entry);
    }
    cache
}

/// What the cache did not take follows as literals, without some colours where it took more.
fn send(random: &mut Random, aim: Aim, palette: &Palette, cache: &[u16]) -> Sent {
    let n = palette.colors.len();
    let bits = bits(random, aim, palette, cache);
    let entries = cache.iter().zip(&bits);
    let taken: Vec<u16> = entries.filter(|e| *e.1).map(|e| *e.0).collect();
    let mut literals = palette.colors.clone();
    literals.retain(|color| !taken.contains(color));
    while literals.len() > n - taken.len() {
        literals.remove(random.below(literals.len()));
    }
    Sent {
        bd: palette.bd,
        n,
        bits,
        taken,
        literals,
    }
}

/// Bits by the aim, else as the listing has them, until n colours are taken.
fn bits(random: &mut Random, aim: Aim, palette: &Palette, cache: &[u16]) -> Vec<bool> {
    let (mut bits, mut taken) = (vec![], vec![]);
    let mut met = 0;
    for &entry in cache {
        if taken.len() == palette.colors.len() {
            break;
        }
        let due = palette.colors.contains(&entry) && !taken.contains(&entry);
        let above = u32::from(entry) > top(palette.bd);
        let aimed = entry == aim.color;
        met += usize::from(aimed);
        let bit = match aim.kind {
            Craft::TakenTwice if aimed => met <= 2,
            Craft::ZeroThenSent if aimed => false,
            Craft::ZeroThenTaken if aimed => met == 2,
            Craft::AboveTop if above => !random.one_in(4),
            Craft::AnyBits => random.one_in(3),
            _ => due,
        };
        bits.push(bit);
        if bit {
            taken.push(entry);
        }
    }
    bits
}

/// One of the literals becomes a colour that was taken.
fn send_again(random: &mut Random, sent: &mut Sent) {
    if sent.taken.is_empty() || sent.literals.is_empty() {
        return;
    }
    let at = random.below(sent.literals.len());
    sent.literals[at] = random.pick(&sent.taken);
    sent.literals.sort_unstable();
}

/// Literals up to one before the last, which becomes the top level.
fn reach_top(random: &mut Random, sent: &mut Sent) {
    if sent.due() > 1 {
        sent.literals.truncate(random.between(1, sent.due() - 1));
        *sent.literals.last_mut().expect("one is left") = top(sent.bd) as u16;
    }
}

/// The last literal becomes the top level. The range before it is no power of two, or small beside
/// the least width: so values beyond it fit the last step's width.
fn end_at_top(random: &mut Random, sent: &mut Sent) {
    let (top, count) = (top(sent.bd) as usize, sent.literals.len());
    if count < 2 {
        return;
    }
    let most = random.pick(&[2, 8, top - 8]);
    let mut range = random.between(1, most);
    if count > 2 || range >> (sent.bd - 3) > 0 {
        range |= 3;
    }
    for (at, literal) in sent.literals.iter_mut().enumerate() {
        let highest = top - range - (count - 2).saturating_sub(at);
        *literal = (*literal).min(highest as u16);
    }
    sent.literals[count - 2] = (top - range) as u16;
    sent.literals[count - 1] = top as u16;
}

/// The last step goes past the top level that it led to; now and then it stays.
fn pass_top(random: &mut Random, sent: &Sent, words: &mut [u32]) {
    let ([.., before, _], [.., last]) = (&sent.literals[..], words) else {
        return;
    };
    let range = top(sent.bd) - u32::from(*before);
    let (kind, width, _) = unpack(*last);
    let most = (1 << width) - 1;
    let value = random.pick(&[range, range, range + 1, most, range - 1]);
    *last = pack((kind, width, value.min(most)));
}

/// The colours' words with a given start for the width of the steps. If literals are missing, one
/// step more is sent.
fn color_words(sent: &Sent, mut width: u32) -> Vec<u32> {
    let bypass = |width, value| pack((1, width, value));
    let mut words = vec![pack((3, 0, sent.n as u32 - 2))];
    words.extend(sent.bits.iter().map(|&bit| bypass(1, u32::from(bit))));
    let Some(&first) = sent.literals.first() else {
        return words;
    };
    words.push(bypass(sent.bd, u32::from(first)));
    if sent.due() > 1 {
        words.push(bypass(2, width - (sent.bd - 3)));
    }
    let mut range = top(sent.bd) - u32::from(first);
    for pair in sent.literals.windows(2) {
        let step = u32::from(pair[1] - pair[0]);
        words.push(bypass(width, step - 1));
        range -= step;
        width = width.min(ceil_log2(range));
    }
    if sent.literals.len() < sent.due() {
        words.push(bypass(width, 0));
    }
    words
}

/// The map's words hang on the number of colours only. Without a cache n + 2 words stand before
/// them: the size, the first colour, the width and n - 1 steps.
fn map_words(palette: &Palette) -> Vec<u32> {
    list(palette, &[]).split_off(palette.colors.len() + 2)
}
