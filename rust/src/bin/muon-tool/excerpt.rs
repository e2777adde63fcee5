//! The line that a place is in, and a caret below the place.

use crate::pieces::{pieces, What};
use crate::quoting::{is_unseen, numbered};
use crate::width::width;
use std::ops::Range;

const LINE_FEED: u8 = b'\n';
const CARRIAGE_RETURN: u8 = b'\r';
const TAB_STOP: usize = 8;
/// Stands for what is cut off.
const DOTS: &str = "...";

/// What is shown together: a character with its marks, or what stands for one.
struct Cell {
    /// Where it begins in the line, in bytes.
    start: usize,
    shown: String,
    width: usize,
    /// Whether marks may follow.
    is_base: bool,
}

/// The bytes of the line that a place is in, less its end.
fn line(text: &[u8], place: usize) -> Range<usize> {
    let is_end = |byte: &u8| *byte == LINE_FEED;
    let start = text[..place]
        .iter()
        .rposition(is_end)
        .map_or(0, |end| end + 1);
    let end = text[place..]
        .iter()
        .position(is_end)
        .map_or(text.len(), |end| place + end);
    match text[start..end] {
        [.., CARRIAGE_RETURN] => start..end - 1,
        _ => start..end,
    }
}

fn cells(line: &[u8]) -> Vec<Cell> {
    let mut cells: Vec<Cell> = Vec::new();
    let mut column = 0;
    for piece in pieces(line) {
        let (shown, is_base) = match piece.what {
            What::Character('\t') => (" ".repeat(TAB_STOP - column % TAB_STOP), false),
            What::Character(character) if !is_unseen(character) => {
                if width(character) == 0 {
                    if let Some(base) = cells.last_mut().filter(|cell| cell.is_base) {
                        base.shown.push(character);
                        continue;
                    }
                    (numbered(piece.what), false)
                } else {
                    (character.to_string(), true)
                }
            }
            other => (numbered(other), false),
        };
        let width = match piece.what {
            What::Character(character) if is_base => width(character),
            _ => shown.len(),
        };
        column += width;
        cells.push(Cell {
            start: piece.start,
            shown,
            width,
            is_base,
        });
    }
    cells
}

fn width_of(cells: &[Cell]) -> usize {
    cells.iter().map(|cell| cell.width).sum()
}

/// The cells around one of them that fit into so many columns; that one may be
/// the line's end.
fn window(cells: &[Cell], at: usize, room: usize) -> Range<usize> {
    let own = cells.get(at).map_or(1, |cell| cell.width);
    let (mut first, mut last, mut used) = (at, (at + 1).min(cells.len()), own);
    // about as much before as behind, and more where the other side has less
    for most in [room.saturating_sub(own) / 2 + own, room] {
        while first > 0 && used + cells[first - 1].width <= most {
            first -= 1;
            used += cells[first].width;
        }
        while last < cells.len() && used + cells[last].width <= room {
            used += cells[last].width;
            last += 1;
        }
    }
    first..last
}

/// Two lines, in at most so many columns: the line that the place is in, and the
/// caret.
pub fn excerpt(text: &[u8], place: usize, columns: usize) -> String {
    let line = line(text, place);
    let cells = cells(&text[line.clone()]);
    // a place at the line's end is behind every cell
    let within = place - line.start;
    let at = match within < line.len() {
        true => cells.partition_point(|cell| cell.start <= within) - 1,
        false => cells.len(),
    };
    let caret_end = width_of(&cells[..at]) + 1;
    let shown = match width_of(&cells).max(caret_end) <= columns {
        true => 0..cells.len(),
        false => window(&cells, at, columns - 2 * DOTS.len()),
    };
    let dots = |cut: bool| if cut { DOTS } else { "" };
    let (left, right) = (dots(shown.start > 0), dots(shown.end < cells.len()));
    let kept: String = cells[shown.clone()]
        .iter()
        .map(|cell| &*cell.shown)
        .collect();
    let indent = left.len() + width_of(&cells[shown.start..at]);
    format!("{left}{kept}{right}\n{:indent$}^\n", "")
}
