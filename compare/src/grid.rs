//! A table of counts, of which some must not be 0.

pub struct Grid {
    title: &'static str,
    rows: Vec<String>,
    columns: &'static [&'static str],
    cells: Vec<Vec<usize>>,
    needed: fn(usize, usize) -> bool,
}

impl Grid {
    pub fn new(
        title: &'static str,
        rows: Vec<String>,
        columns: &'static [&'static str],
        needed: fn(usize, usize) -> bool,
    ) -> Grid {
        let cells = vec![vec![0; columns.len()]; rows.len()];
        Grid {
            title,
            rows,
            columns,
            cells,
            needed,
        }
    }

    pub fn hit(&mut self, row: usize, column: usize) {
        self.cells[row][column] += 1;
    }

    pub fn count(&self, row: usize, column: usize) -> usize {
        self.cells[row][column]
    }

    /// Adds the counts of a table of the same form.
    pub fn add(&mut self, other: &Grid) {
        for (row, others) in self.cells.iter_mut().zip(&other.cells) {
            for (cell, other) in row.iter_mut().zip(others) {
                *cell += other;
            }
        }
    }

    /// The cells that must not be 0 and are.
    pub fn missing(&self) -> Vec<String> {
        let mut missing = Vec::new();
        for (row, name) in self.rows.iter().enumerate() {
            for (column, title) in self.columns.iter().enumerate() {
                if (self.needed)(row, column) && self.cells[row][column] == 0 {
                    missing.push(format!("{} {name}, {title}", self.title));
                }
            }
        }
        missing
    }

    /// The table as text; a cell that need not be hit and was not is a dash.
    pub fn text(&self) -> String {
        let mut text = format!("{:<32}", self.title);
        for title in self.columns {
            text += &format!("{title:>10}");
        }
        for (row, name) in self.rows.iter().enumerate() {
            text += &format!("\n{name:<32}");
            for column in 0..self.columns.len() {
                text += &self.cell(row, column);
            }
        }
        text + "\n"
    }

    fn cell(&self, row: usize, column: usize) -> String {
        match self.cells[row][column] {
            0 if !(self.needed)(row, column) => format!("{:>10}", "-"),
            count => format!("{count:>10}"),
        }
    }
}
