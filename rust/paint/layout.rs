//! Which panels fit where: how wide, how many rows a side, with their strips or without, how many beside each other.

use crate::panel::{height, width, Columns, COLUMNS};

/// Columns and lines to paint in.
#[derive(Clone, Copy, PartialEq, Eq, Debug)]
pub struct Size {
    pub columns: usize,
    pub lines: usize,
}

/// What is asked of a layout.
#[derive(Clone, Copy, PartialEq, Eq, Debug)]
pub struct Asked {
    /// Panels that are wanted.
    pub panels: usize,
    /// Panels that may be painted besides, where there is room.
    pub more: usize,
    /// Most rows of a side.
    pub rows: usize,
    /// Whether strips are wanted.
    pub strips: bool,
}

/// A layout that fits.
#[derive(Clone, Copy, PartialEq, Eq, Debug)]
pub struct Layout {
    pub columns: Columns,
    pub rows: usize,
    pub strips: bool,
    pub across: usize,
    pub shown: usize,
}

/// How many parts of this size it takes.
fn parts(count: usize, size: usize) -> usize {
    (count + size - 1) / size.max(1)
}

/// As many rows as all the panels wanted leave room for; with one row a side, as many panels as fit.
fn with(columns: Columns, strips: bool, asked: Asked, room: Size) -> Layout {
    let across = room.columns / width(columns);
    let fits = |rows: &usize| parts(asked.panels, across.max(1)) * height(columns, *rows, strips) <= room.lines;
    let rows = (1..=asked.rows).rev().find(fits).unwrap_or(1);
    let most = across * (room.lines / height(columns, rows, strips));
    let shown = (asked.panels + asked.more).min(most);
    let bands = parts(shown, across.max(1)).max(1);
    Layout { columns, rows, strips, across: parts(shown, bands).max(1), shown }
}

/// The layout that shows most: all panels that are wanted, then their strips, then three rows a side, then all columns, then
/// more rows, then the widest panels.
pub fn layout(asked: Asked, room: Size) -> Layout {
    let worth = |layout: &Layout| {
        let (panels, strips) = (layout.shown.min(asked.panels), layout.strips && layout.shown > 0);
        (panels, strips, layout.rows.min(3), layout.columns.len(), layout.rows)
    };
    let narrowest = with(COLUMNS[COLUMNS.len() - 1], false, asked, room);
    let kinds = COLUMNS.iter().rev().flat_map(|&columns| [(columns, false), (columns, true)]);
    let layouts = kinds.filter(|(_, strips)| asked.strips || !strips);
    layouts.map(|(columns, strips)| with(columns, strips, asked, room)).max_by_key(worth).unwrap_or(narrowest)
}
