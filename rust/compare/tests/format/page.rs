//! The tables of docs/FORMAT.md.

use trials::case::bytes;

pub const PAGE: &str = include_str!("../../../../docs/FORMAT.md");

/// A table of the page, under its section's title.
pub struct Table<'a> {
    pub section: &'a str,
    pub header: Vec<&'a str>,
    pub rows: Vec<Vec<&'a str>>,
}

impl<'a> Table<'a> {
    /// The cells under a title, row by row.
    pub fn column(&self, title: &str) -> Vec<&'a str> {
        let at = self.header.iter().position(|cell| *cell == title);
        let at = at.unwrap_or_else(|| panic!("{}: no column {title}", self.section));
        self.rows.iter().map(|row| row[at]).collect()
    }

    /// The bytes, row by row.
    pub fn bytes(&self) -> Vec<Vec<u8>> {
        let cells = self.column("Bytes").into_iter();
        cells.map(|cell| spelt(cell).expect("bytes")).collect()
    }
}

/// The bytes of a cell that is nothing else.
pub fn spelt(cell: &str) -> Option<Vec<u8>> {
    let inner = cell.strip_prefix('`')?.strip_suffix('`')?;
    bytes(&inner.split(' ').collect::<String>())
}

/// The page's tables.
pub fn tables() -> Vec<Table<'static>> {
    let mut tables: Vec<Table> = Vec::new();
    let (mut section, mut inside) = ("", false);
    for line in PAGE.lines() {
        section = line.strip_prefix("## ").unwrap_or(section);
        let cells = line.strip_prefix("| ").and_then(|l| l.strip_suffix(" |"));
        match (cells, tables.last_mut()) {
            (Some(cells), Some(table)) if inside => table.rows.push(cells.split(" | ").collect()),
            (Some(cells), _) => tables.push(Table {
                section,
                header: cells.split(" | ").collect(),
                rows: Vec::new(),
            }),
            _ => {}
        }
        inside = line.starts_with('|');
    }
    for Table {
        section,
        header,
        rows,
    } in &tables
    {
        let whole = rows.iter().all(|row| row.len() == header.len());
        assert!(whole && !rows.is_empty(), "a table of {section}");
    }
    tables
}

/// The number of a code in a cell, decimal or hexadecimal.
pub fn code(cell: &str) -> u8 {
    let code = match cell.strip_prefix("0x") {
        Some(digits) => u8::from_str_radix(digits, 16),
        None => cell.parse(),
    };
    code.expect("a code")
}

/// The greatest number of a cell.
pub fn most(cell: &str) -> usize {
    let words = cell
        .split([' ', ';'])
        .map(|word| word.trim_end_matches(',').replace(',', ""));
    let numbers = words.filter_map(|word| word.parse().ok());
    numbers.max().expect("a number")
}
