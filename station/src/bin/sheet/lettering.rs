//! Letters of single strokes, as drawn with a stencil.

use crate::drawing::{Paper, Point};

/// A stroke between two points of a grid 2 wide and 4 high, as x, y, x, y.
type Stroke = [u8; 4];

const TOP: Stroke = [0, 0, 2, 0];
const MIDDLE: Stroke = [0, 2, 2, 2];
const BOTTOM: Stroke = [0, 4, 2, 4];
const LEFT: Stroke = [0, 0, 0, 4];
const RIGHT: Stroke = [2, 0, 2, 4];
const UPPER_LEFT: Stroke = [0, 0, 0, 2];
const UPPER_RIGHT: Stroke = [2, 0, 2, 2];
const LOWER_RIGHT: Stroke = [2, 2, 2, 4];
const STEM: Stroke = [1, 0, 1, 4];

pub fn write(paper: &mut Paper, (x, y): Point, height: f64, text: &str) {
    let unit = height / 4.0;
    let half = height / 24.0;
    for (i, letter) in text.chars().enumerate() {
        let left = x + i as f64 * unit * 3.2;
        let at = |x: u8, y_down: u8| (left + f64::from(x) * unit, y + f64::from(y_down) * unit);
        for &[x0, y0, x1, y1] in strokes(letter) {
            paper.stroke(at(x0, y0), at(x1, y1), half);
        }
    }
}

/// Nothing for a character that has no letter here, as for a space.
fn strokes(letter: char) -> &'static [Stroke] {
    match letter {
        '0' | 'O' => &[TOP, RIGHT, BOTTOM, LEFT],
        '1' => &[STEM, [0, 1, 1, 0]],
        '2' => &[TOP, UPPER_RIGHT, [2, 2, 0, 4], BOTTOM],
        '3' => &[TOP, MIDDLE, BOTTOM, RIGHT],
        '4' => &[[1, 0, 0, 3], [0, 3, 2, 3], RIGHT],
        '5' => &[TOP, UPPER_LEFT, MIDDLE, LOWER_RIGHT, BOTTOM],
        '6' => &[TOP, LEFT, BOTTOM, LOWER_RIGHT, MIDDLE],
        '7' => &[TOP, [2, 0, 1, 4]],
        '8' => &[TOP, MIDDLE, BOTTOM, LEFT, RIGHT],
        '9' => &[MIDDLE, UPPER_LEFT, TOP, RIGHT],
        'A' => &[
            [0, 4, 0, 1],
            [0, 1, 1, 0],
            [1, 0, 2, 1],
            [2, 1, 2, 4],
            MIDDLE,
        ],
        'D' => &[LEFT, [0, 0, 2, 1], [2, 1, 2, 3], [2, 3, 0, 4]],
        'E' => &[LEFT, TOP, MIDDLE, BOTTOM],
        'F' => &[LEFT, TOP, MIDDLE],
        'G' => &[TOP, LEFT, BOTTOM, LOWER_RIGHT, [1, 2, 2, 2]],
        'I' => &[STEM],
        'L' => &[LEFT, BOTTOM],
        'N' => &[LEFT, [0, 0, 2, 4], RIGHT],
        'P' => &[LEFT, TOP, UPPER_RIGHT, MIDDLE],
        'T' => &[TOP, STEM],
        '-' => &[MIDDLE],
        '.' => &[[0, 4, 0, 4]],
        _ => &[],
    }
}
