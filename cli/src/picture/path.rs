//! A derivation as rows of trees, each tree but the first with its line's arrow before it.

use std::ops::Range;

use super::WIDE;
use super::arrow::Arrow;
use super::derivation::{Derivation, Line};
use super::svg::{COLOURS, Colour, SOFT, Words};
use super::tree::{Mark, Tree};
use crate::names::Names;

/// What a page leaves free to the left and to the right of its rows.
pub const MARGIN: f64 = 24.0;
/// A row of several trees is not made longer than this, unless there are names.
const ROW: f64 = 1000.0;
/// A row is at least as high as its arrows, and has text below.
const LEAST_HIGH: f64 = 94.0;
const TEXT: f64 = 62.0;

pub struct Path<'a> {
    lines: &'a [Line<'a>],
    is_in_hand: bool,
    trees: Vec<Tree<'a>>,
    arrows: Vec<Arrow>,
    /// How long a row of several trees may be.
    row: f64,
}

/// A row: which trees it has.
pub type Row = Range<usize>;

fn colour(line: usize) -> Colour {
    COLOURS[line % COLOURS.len()]
}

impl<'a> Path<'a> {
    pub fn new(derivation: &'a Derivation<'a>, names: &Names) -> Path<'a> {
        let lines = derivation.lines.as_slice();
        let arrow = |(index, line)| Arrow::new(index, line, colour(index));
        let arrows: Vec<Arrow> = lines.iter().enumerate().map(arrow).collect();
        let before = std::iter::once(0.0).chain(arrows.iter().map(|arrow| arrow.width));
        let tree = |((text, term), before): (&(&'a str, _), f64)| {
            Tree::new(text, term, names, WIDE - 2.0 * MARGIN - before)
        };
        let trees: Vec<Tree> = derivation.terms.iter().zip(before).map(tree).collect();
        let is_named = |tree: &Tree| tree.items().any(|item| names.get(item).is_some());
        let named = trees.iter().any(is_named);
        let row = if named { WIDE - 2.0 * MARGIN } else { ROW };
        Path {
            lines,
            is_in_hand: derivation.is_in_hand,
            trees,
            arrows,
            row,
        }
    }

    /// What a page's heading says of it.
    pub fn shows(&self) -> String {
        let lines = match self.lines.len() {
            1 => "1 line".to_owned(),
            lines => format!("{lines} lines"),
        };
        let hand = if self.is_in_hand { ", in hand" } else { "" };
        format!("a derivation of {lines}{hand}")
    }

    /// The arrow that stands before a tree.
    fn arrow(&self, tree: usize) -> Option<&Arrow> {
        tree.checked_sub(1).map(|line| &self.arrows[line])
    }

    /// The width of a tree with its arrow.
    fn wide(&self, tree: usize) -> f64 {
        self.arrow(tree).map_or(0.0, |arrow| arrow.width) + self.trees[tree].width
    }

    pub fn rows(&self) -> Vec<Row> {
        let mut rows: Vec<Row> = Vec::new();
        let mut used = 0.0;
        for tree in 0..self.trees.len() {
            let wide = self.wide(tree);
            match rows.last_mut() {
                Some(row) if used + wide <= self.row => {
                    row.end = tree + 1;
                    used += wide;
                }
                _ => {
                    rows.push(tree..tree + 1);
                    used = wide;
                }
            }
        }
        rows
    }

    pub fn row_width(&self, row: &Row) -> f64 {
        row.clone().map(|tree| self.wide(tree)).sum()
    }

    /// The height of a row's trees.
    fn high(&self, row: &Row) -> f64 {
        self.trees[row.clone()]
            .iter()
            .map(Tree::height)
            .fold(LEAST_HIGH, f64::max)
    }

    pub fn row_height(&self, row: &Row) -> f64 {
        self.high(row) + TEXT
    }

    /// Lowers the row's trees so that the row has room.
    pub fn lower(&mut self, row: &Row, room: f64) {
        for tree in &mut self.trees[row.clone()] {
            tree.lower(room - TEXT);
        }
    }

    /// The items of the rows' terms.
    pub fn items(&self, rows: &[Row]) -> impl Iterator<Item = &'a str> {
        let trees = rows.iter().flat_map(|row| &self.trees[row.clone()]);
        trees.flat_map(Tree::items)
    }

    pub fn draw_row(&self, row: &Row, top: f64, out: &mut Vec<String>) {
        let (mut left, below) = (MARGIN, top + self.high(row));
        for index in row.clone() {
            if let Some(arrow) = self.arrow(index) {
                arrow.draw(left, top, out);
                left += arrow.width;
            }
            let tree = &self.trees[index];
            tree.draw(left, top, &self.marks(index), out);
            let middle = left + tree.width / 2.0;
            out.push(Words::at(middle, below + 16.0, tree.text).mono().svg());
            out.push(
                Words::at(middle, below + 34.0, &self.caption(index))
                    .fill(SOFT)
                    .svg(),
            );
            left += tree.width;
        }
    }

    /// What the line before a tree put there and what the line after it replaces.
    fn marks(&self, tree: usize) -> Vec<Mark<'a>> {
        let before = tree.checked_sub(1).map(|line| (line, true));
        let after = (tree < self.lines.len()).then_some((tree, false));
        let mark = |(line, made): (usize, bool)| {
            let place = self.lines[line].place;
            Mark {
                place,
                colour: colour(line),
                made,
            }
        };
        before.into_iter().chain(after).map(mark).collect()
    }

    fn caption(&self, tree: usize) -> String {
        match tree {
            0 => "left".to_owned(),
            _ if tree == self.lines.len() => "right".to_owned(),
            _ => format!("after {tree}"),
        }
    }
}
