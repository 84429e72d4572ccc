//! The printed tables: what was counted, and what must be or may not be.

/// A row of a table: its name, the columns that must be reached, no other being allowed, and the counts in all columns.
pub struct Row<'a> {
    name: String,
    allowed: &'a [usize],
    counts: &'a [u64],
}

pub fn row<'a>(name: &str, allowed: &'a [usize], counts: &'a [u64]) -> Row<'a> {
    Row { name: name.to_string(), allowed, counts }
}

impl Row<'_> {
    /// Whether there is nothing to say of it.
    pub fn is_empty(&self) -> bool {
        self.allowed.is_empty() && self.counts.iter().all(|&count| count == 0)
    }

    fn faults(&self, verb: &str) -> Vec<String> {
        let mut faults = Vec::new();
        for (number, &count) in self.counts.iter().enumerate() {
            match (self.allowed.contains(&number), count) {
                (true, 0) => faults.push(format!("{} never {verb} {number}", self.name)),
                (false, 1..) => faults.push(format!("{} {verb} {number}, {count} times", self.name)),
                _ => {}
            }
        }
        faults
    }
}

/// Prints some columns of the rows and answers the faults of all.
pub fn table(heading: &str, verb: &str, columns: impl Iterator<Item = usize> + Clone, rows: Vec<Row>) -> Vec<String> {
    let width = rows.iter().map(|row| row.name.len()).fold(14, usize::max);
    line(width, heading, columns.clone().map(|number| number.to_string()));
    for row in &rows {
        let shown = columns.clone().map(|number| match row.counts[number] {
            0 => ".".to_string(),
            count => count.to_string(),
        });
        line(width, &row.name, shown);
    }
    println!();
    rows.iter().flat_map(|row| row.faults(verb)).collect()
}

fn line(width: usize, first: &str, words: impl Iterator<Item = String>) {
    let words: Vec<String> = words.map(|word| format!("{word:>6}")).collect();
    println!("{first:<width$} {}", words.join(" "));
}
