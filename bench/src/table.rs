// Tables in Markdown, as docs/BENCH.md has them, that can be read as they are.

pub struct Table {
    rows: Vec<Vec<String>>,
}

impl Table {
    // A table with the names of its columns.
    pub fn new(names: &[&str]) -> Table {
        Table { rows: vec![names.iter().map(|name| name.to_string()).collect()] }
    }

    // Adds a row of as many cells.
    pub fn push(&mut self, cells: Vec<String>) {
        self.rows.push(cells);
    }

    // How many letters the widest cell of a column has.
    fn width(&self, column: usize) -> usize {
        self.rows.iter().map(|row| row[column].chars().count()).max().unwrap_or(0)
    }

    // Prints it, the first column flush left and the others flush right.
    pub fn print(&self) {
        for (number, row) in self.rows.iter().enumerate() {
            let cells = row.iter().enumerate().map(|(k, cell)| match (k, self.width(k)) {
                (0, width) => format!("| {cell:<width$} "),
                (_, width) => format!("| {cell:>width$} "),
            });
            println!("{}|", cells.collect::<String>());
            if number == 0 {
                println!("{}|", "|---".repeat(row.len()));
            }
        }
    }
}
