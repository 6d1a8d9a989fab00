//! The C functions answer as the safe ones do.

use palette_oracle::check::none_number;
use palette_oracle::generate::{blocks::block, caches::cache, contexts::corner, palettes::palette};
use palette_oracle::{block_allowed, context, list, pred, search, Block, Found};
use palette_oracle::{rs_block_allowed, rs_context, rs_list, rs_pred, rs_search};

const UNTOUCHED: u8 = 0xee;

/// What `rs_search` writes, into buffers longer than any block needs.
struct Written {
    number: u32,
    fields: [u32; 10],
    bits: f32,
    map: Vec<u8>,
    flags: Vec<u8>,
}

fn searched(b: &Block) -> Written {
    let (mut map, mut flags) = (vec![UNTOUCHED; 4096 + 1], vec![UNTOUCHED; 64 + 1]);
    let (mut fields, mut bits) = ([99u32; 10], 99f32);
    let number = unsafe {
        let (samples, costs) = (b.samples.as_ptr(), b.costs.as_ptr());
        let (map, flags) = (map.as_mut_ptr(), flags.as_mut_ptr());
        let fields = fields.as_mut_ptr();
        rs_search(
            samples, b.w, b.h, b.bd, b.lambda, costs, map, flags, fields, &mut bits,
        )
    };
    Written {
        number,
        fields,
        bits,
        map,
        flags,
    }
}

fn holds_only(buffer: &[u8], front: &[u8]) -> bool {
    buffer.starts_with(front) && buffer[front.len()..].iter().all(|&cell| cell == UNTOUCHED)
}

#[test]
fn search_writes_what_is_found() {
    for index in 0..1000 {
        let (b, _) = block(4, index);
        let written = searched(&b);
        assert_eq!(written.number, none_number(&b.samples, b.w, b.h));
        match search(&b.samples, b.w, b.h, b.bd, b.lambda, &b.costs) {
            Some(Found { palette: p, bits }) => {
                let colors = eight(&p.colors).map(u32::from);
                let (n, orientation) = (p.colors.len() as u32, u32::from(p.transposed));
                assert_eq!(
                    written.fields[..],
                    [&[n], &colors[..], &[orientation]].concat()
                );
                assert_eq!(written.bits.to_bits(), bits.to_bits());
                assert!(holds_only(&written.map, &p.map) && holds_only(&written.flags, &p.flags));
            }
            None => {
                assert_eq!((written.fields, written.bits.to_bits()), ([0; 10], 0));
                assert!(holds_only(&written.map, &[]) && holds_only(&written.flags, &[]));
            }
        }
    }
}

fn eight(colors: &[u16]) -> [u16; 8] {
    std::array::from_fn(|place| colors.get(place).copied().unwrap_or(0))
}

#[test]
fn list_and_pred_write_the_same() {
    for index in 0..1000 {
        let (p, _) = palette(5, index);
        let (cache, _) = cache(5, index, &p);
        let (colors, n) = (eight(&p.colors), p.colors.len());
        let expected = list(&p, &cache);
        // One word short, now and then: the answer is still the whole length.
        let room = expected.len() - usize::from(index % 5 == 0);
        let (mut words, mut values) = (vec![0u32; room], vec![0f32; p.map.len()]);
        let (count, cells) = unsafe {
            let (c, m, f) = (colors.as_ptr(), p.map.as_ptr(), p.flags.as_ptr());
            let (entries, cached, out) = (cache.as_ptr(), cache.len(), words.as_mut_ptr());
            let t = p.transposed;
            (
                rs_list(p.w, p.h, p.bd, c, n, t, m, f, entries, cached, out, room),
                rs_pred(p.w, p.h, p.bd, c, n, t, m, f, values.as_mut_ptr()),
            )
        };
        assert_eq!((count, cells), (expected.len(), p.w * p.h));
        assert_eq!(words, expected[..room]);
        assert_eq!(values, pred(&p));
    }
}

#[test]
fn context_writes_number_and_order() {
    for index in 0..1000 {
        let (c, _) = corner(6, index);
        let mut fields = [99u32; 9];
        let out = fields.as_mut_ptr();
        unsafe { rs_context(c.map.as_ptr(), c.map.len(), c.stride, c.y, c.x, c.n, out) };
        let (number, order) = context(&c.map, c.stride, c.y, c.x, c.n);
        assert_eq!(fields[0] as usize, number);
        assert!(fields[1..].iter().copied().eq(order.map(u32::from)));
    }
}

#[test]
fn block_allowed_by_document_01() {
    for (w, h) in (0..20).flat_map(|w| (0..20).map(move |h| (w, h))) {
        let expected = w <= 16 && h <= 16 && w * h >= 4;
        assert_eq!(
            (rs_block_allowed(w, h), block_allowed(w, h)),
            (expected, expected)
        );
    }
}
