//! Tables for people.

/// A column: its title, and what it has of a row.
pub struct Column<R> {
    title: &'static str,
    cell: fn(&R) -> String,
    /// Words stand at the left, numbers at the right.
    is_number: bool,
}

pub const fn number<R>(title: &'static str, cell: fn(&R) -> String) -> Column<R> {
    Column {
        title,
        cell,
        is_number: true,
    }
}

pub const fn words<R>(title: &'static str, cell: fn(&R) -> String) -> Column<R> {
    Column {
        title,
        cell,
        is_number: false,
    }
}

/// The titles, and a line a row; each column is as wide as its widest cell.
pub fn lines<R>(columns: &[Column<R>], rows: &[R]) -> Vec<String> {
    let mut lines = vec![String::new(); 1 + rows.len()];
    for (index, column) in columns.iter().enumerate() {
        let gap = if index == 0 { "" } else { "  " };
        let mut cells = vec![column.title.to_string()];
        cells.extend(rows.iter().map(column.cell));
        let width = cells.iter().map(String::len).max().unwrap_or(0);
        for (line, cell) in lines.iter_mut().zip(cells) {
            *line += &match column.is_number {
                true => format!("{gap}{cell:>width$}"),
                false => format!("{gap}{cell:<width$}"),
            };
        }
    }
    let lines = lines.iter().map(|line| line.trim_end().to_string());
    lines.collect()
}
