//! A term as a tree: where its nodes stand, and how they are drawn.

use std::collections::BTreeMap;

use super::boxes::{self, Boxes};
use super::svg::{CHAR, Colour, DASHED, INK, PAPER, SOFT, Words, number};
use crate::names::Names;
use crate::term::{Term, is_atom};

/// The radius of a node.
const RADIUS: f64 = 15.0;
/// The distance from level to level, unless the tree is too deep for it.
const DOWN: f64 = 58.0;
/// From a node to its outline; to the outer of two, the second.
const NEAR: f64 = 5.0;
const FAR: f64 = 10.0;

struct Node<'a> {
    x: f64,
    item: &'a str,
    /// The name that is drawn in place of the item.
    name: Option<String>,
    /// From the node's middle to its side.
    half: f64,
}

/// The nodes of a term by their places, seen from the tree's upper left corner.
pub struct Tree<'a> {
    pub text: &'a str,
    nodes: BTreeMap<String, Node<'a>>,
    levels: usize,
    down: f64,
    /// The width of the nodes.
    inner: f64,
    /// With the text below, which may be wider than the nodes.
    pub width: f64,
    /// The size of the names.
    size: f64,
}

/// A part that is marked: its place and colour, and whether it was put there by the line before or is replaced by the next.
pub struct Mark<'a> {
    pub place: &'a str,
    pub colour: Colour,
    pub made: bool,
}

impl<'a> Tree<'a> {
    /// The tree of the term. Names make it wider than letters do, as far as there is room.
    pub fn new(text: &'a str, term: &Term<'a>, names: &Names, room: f64) -> Tree<'a> {
        let leaves: Vec<&str> = text.split(' ').filter(|item| is_atom(item)).collect();
        let boxes = Boxes::new(&leaves, names, room);
        let (nodes, levels, down) = (BTreeMap::new(), 0, DOWN);
        let (inner, width, size) = (0.0, text.len() as f64 * CHAR + 10.0, boxes.size());
        let mut tree = Tree {
            text,
            nodes,
            levels,
            down,
            inner,
            width,
            size,
        };
        tree.stand(term, String::new(), &boxes);
        tree.width = tree.width.max(tree.inner);
        tree
    }

    /// Stands the part's nodes to the right of those that stand already, and gives its x.
    fn stand(&mut self, part: &Term<'a>, place: String, boxes: &Boxes) -> f64 {
        self.levels = self.levels.max(place.len());
        let node = match part {
            Term::Atom(item) => self.leaf(item, boxes.of(item)),
            Term::Over(sign, parts) => {
                let left = self.stand(&parts[0], format!("{place}l"), boxes);
                let right = self.stand(&parts[1], format!("{place}r"), boxes);
                let (x, item, half) = ((left + right) / 2.0, sign, RADIUS);
                Node {
                    x,
                    item,
                    name: None,
                    half,
                }
            }
        };
        let x = node.x;
        self.nodes.insert(place, node);
        x
    }

    fn leaf(&mut self, item: &'a str, boxed: Option<(String, f64)>) -> Node<'a> {
        let (name, wide) = boxed.map_or((None, 2.0 * RADIUS), |(name, wide)| (Some(name), wide));
        let cell = boxes::cell(wide);
        self.inner += cell;
        let (x, half) = (self.inner - cell / 2.0, wide / 2.0);
        Node {
            x,
            item,
            name,
            half,
        }
    }

    pub fn items(&self) -> impl Iterator<Item = &'a str> {
        self.text.split(' ')
    }

    pub fn height(&self) -> f64 {
        self.levels as f64 * self.down + 2.0 * (RADIUS + FAR)
    }

    /// Brings the levels nearer to each other if the tree is higher than the room.
    pub fn lower(&mut self, room: f64) {
        self.down = DOWN.min((room - 2.0 * (RADIUS + FAR)) / self.levels as f64);
    }

    /// How large a node is drawn: smaller only where the levels are too near for it.
    fn scale(&self) -> f64 {
        ((self.down - 6.0) / (2.0 * RADIUS)).min(1.0)
    }

    fn y(&self, place: &str) -> f64 {
        RADIUS + FAR + place.len() as f64 * self.down
    }

    /// Draws the tree with at most two marks, that of the line before first.
    pub fn draw(&self, left: f64, top: f64, marks: &[Mark], out: &mut Vec<String>) {
        let left = left + (self.width - self.inner) / 2.0;
        let mut marks: Vec<&Mark> = marks.iter().collect();
        marks.sort_by_key(|mark| mark.place.len());
        for (index, mark) in marks.iter().enumerate() {
            let within = marks
                .get(index + 1)
                .is_some_and(|next| next.place.starts_with(mark.place));
            out.push(self.outline(left, top, mark, if within { FAR } else { NEAR }));
        }
        for place in self.nodes.keys().filter(|place| !place.is_empty()) {
            out.push(self.edge(left, top, place));
        }
        for (place, node) in &self.nodes {
            self.node(left + node.x, top + self.y(place), node, out);
        }
    }

    fn outline(&self, left: f64, top: f64, mark: &Mark, gap: f64) -> String {
        let gap = gap * self.down / DOWN;
        let reach = RADIUS * self.scale() + gap;
        let below = || {
            self.nodes
                .iter()
                .filter(|(place, _)| place.starts_with(mark.place))
        };
        let from = below()
            .map(|(_, node)| node.x - node.half)
            .fold(f64::MAX, f64::min)
            - gap;
        let to = below()
            .map(|(_, node)| node.x + node.half)
            .fold(0.0, f64::max)
            + gap;
        let lowest = below().map(|(place, _)| self.y(place)).fold(0.0, f64::max);
        let y = self.y(mark.place) - reach;
        let high = number(lowest + reach - y);
        let [x, y, wide, round] = [left + from, top + y, to - from, reach - 4.0].map(number);
        let Colour { line, fill } = mark.colour;
        let dash = if mark.made { DASHED } else { "" };
        format!(
            r#"<rect x="{x}" y="{y}" width="{wide}" height="{high}" rx="{round}" fill="{fill}" stroke="{line}" stroke-width="2"{dash}/>"#
        )
    }

    fn edge(&self, left: f64, top: f64, place: &str) -> String {
        let above = &place[..place.len() - 1];
        let (from, to) = (self.nodes[above].x, self.nodes[place].x);
        let turn = if to > from { 10.0 } else { -10.0 };
        let [px, py] = [left + from, top + self.y(above)].map(number);
        let [x, y] = [left + to - turn, top + self.y(place)].map(number);
        let path = format!("M{px} {py}H{x}q{turn} 0 {turn} 10V{y}");
        format!(r#"<path d="{path}" fill="none" stroke="{SOFT}" stroke-width="1.6"/>"#)
    }

    fn node(&self, x: f64, y: f64, node: &Node, out: &mut Vec<String>) {
        let scale = self.scale();
        if let Some(name) = &node.name {
            return boxes::draw((x, y), 2.0 * node.half, name, self.size, scale, out);
        }
        let (size, drop) = match (node.item, node.item.len()) {
            ("+", _) => (22.0, 7.5),
            ("*", _) => (22.0, 11.5),
            (_, 1) => (14.0, 14.0 * 0.36),
            (_, 2) => (13.0, 13.0 * 0.36),
            (_, 3) => (11.0, 11.0 * 0.36),
            _ => (10.0, 10.0 * 0.36),
        };
        let (fill, ink) = if size == 22.0 {
            (INK, PAPER)
        } else {
            (PAPER, INK)
        };
        let [cx, cy, radius] = [x, y, RADIUS * scale].map(number);
        out.push(format!(
            r#"<circle cx="{cx}" cy="{cy}" r="{radius}" fill="{fill}" stroke="{INK}" stroke-width="1.6"/>"#
        ));
        let words = Words::at(x, y + drop * scale, node.item);
        out.push(words.size(size * scale).fill(ink).svg());
    }
}
