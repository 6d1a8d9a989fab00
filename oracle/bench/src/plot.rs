//! The whole sheets' ratios as a bar chart (SVG).

use std::fmt::Write;

/// A sheet at one side and lambda, and our search's time divided by the original's.
pub struct Bar {
    pub sheet: &'static str,
    pub side: usize,
    pub lambda: f32,
    pub ratio: f64,
}

const LEFT: usize = 190;
const SCALE: f64 = 500.0;
const ROW: usize = 18;
const TOP: usize = 44;
const TINTS: [(&str, &str); 3] = [
    ("drawing", "#2f6f9f"),
    ("hatching", "#6f9f2f"),
    ("random", "#9f5f2f"),
];

/// Bars from the top in the table's order; 1 is the original's time.
pub fn chart(bars: &[Bar]) -> String {
    let height = TOP + bars.len() * ROW + 16;
    let width = LEFT + SCALE as usize + 70;
    let mut svg = format!(
        "<svg xmlns=\"http://www.w3.org/2000/svg\" width=\"{width}\" height=\"{height}\" \
         font-family=\"sans-serif\" font-size=\"12\">\n\
         <text x=\"10\" y=\"20\">our search's time divided by the original's; the line is 1</text>\n"
    );
    for (row, bar) in bars.iter().enumerate() {
        svg.push_str(&one_bar(TOP + row * ROW, bar));
    }
    let (end, foot) = (LEFT + SCALE as usize, height - 10);
    let _ = writeln!(
        svg,
        "<line x1=\"{end}\" y1=\"{}\" x2=\"{end}\" y2=\"{foot}\" stroke=\"black\"/>\n</svg>",
        TOP - 8
    );
    svg
}

fn one_bar(top: usize, bar: &Bar) -> String {
    let tint = TINTS
        .iter()
        .find(|(sheet, _)| *sheet == bar.sheet)
        .map_or("grey", |(_, tint)| tint);
    let length = bar.ratio * SCALE;
    let base = top + 11;
    format!(
        "<text x=\"10\" y=\"{base}\">{} {} lambda {}</text>\n\
         <rect x=\"{LEFT}\" y=\"{top}\" width=\"{length:.1}\" height=\"13\" fill=\"{tint}\"/>\n\
         <text x=\"{:.1}\" y=\"{base}\">{:.2}</text>\n",
        bar.sheet,
        bar.side,
        bar.lambda,
        LEFT as f64 + length + 5.0,
        bar.ratio
    )
}
