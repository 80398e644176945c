//! Tables of cells in columns.

/// The side of a column on which its cells stand.
#[derive(Clone, Copy, PartialEq, Eq)]
pub enum Side {
    Left,
    Right,
}

/// A column of a least width.
#[derive(Clone, Copy)]
pub struct Column {
    pub least: usize,
    pub side: Side,
}

pub const fn left(least: usize) -> Column {
    Column {
        least,
        side: Side::Left,
    }
}

pub const fn right(least: usize) -> Column {
    Column {
        least,
        side: Side::Right,
    }
}

/// How wide a text is: its characters, but for the accents that stand on another one.
pub fn width(text: &str) -> usize {
    let over = |character: &char| ('\u{300}'..='\u{36F}').contains(character);
    text.chars().filter(|character| !over(character)).count()
}

/// A line without blanks at its end.
pub fn ended(line: &str) -> String {
    line.trim_end_matches(' ').to_string()
}

/// The columns, each as wide as the widest of its cells.
pub fn grown(columns: &[Column], rows: &[Vec<String>]) -> Vec<Column> {
    let places = columns.iter().enumerate();
    let grow = |(place, column): (usize, &Column)| {
        let widest = rows.iter().map(|row| width(&row[place])).max();
        Column {
            least: column.least.max(widest.unwrap_or(0)),
            ..*column
        }
    };
    places.map(grow).collect()
}

fn padded(text: &str, column: &Column) -> String {
    let blanks = " ".repeat(column.least.saturating_sub(width(text)));
    match column.side {
        Side::Left => format!("{text}{blanks}"),
        Side::Right => format!("{blanks}{text}"),
    }
}

/// A row of a table.
pub fn row<Cell: AsRef<str>>(columns: &[Column], cells: &[Cell]) -> String {
    let cells = cells.iter().zip(columns);
    let cells: Vec<String> = cells
        .map(|(cell, column)| padded(cell.as_ref(), column))
        .collect();
    ended(&cells.join("  "))
}

/// A rule under a heading.
pub fn rule(columns: &[Column]) -> String {
    let runs: Vec<String> = columns.iter().map(|c| "-".repeat(c.least)).collect();
    runs.join("  ")
}
