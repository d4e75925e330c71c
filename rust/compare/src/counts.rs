//! How often numbers were hit that have to be.

use crate::report::Report;

/// Something that is counted by number: each of the numbers has to be hit.
struct Row {
    name: String,
    numbers: &'static [u64],
    counts: Vec<u64>,
}

pub struct Counts(Vec<Row>);

impl Counts {
    pub fn new(rows: impl Iterator<Item = (String, &'static [u64])>) -> Counts {
        let row = |(name, numbers): (_, &'static [u64])| {
            let counts = vec![0; numbers.len()];
            Row { name, numbers, counts }
        };
        Counts(rows.map(row).collect())
    }

    /// Counts a number in a row; others than the row's count for nothing.
    pub fn hit(&mut self, row: usize, number: Option<u64>) {
        let Row { numbers, counts, .. } = &mut self.0[row];
        if let Some(index) = numbers.iter().position(|&one| Some(one) == number) {
            counts[index] += 1;
        }
    }

    pub fn add(&mut self, other: &Counts) {
        for (row, more) in self.0.iter_mut().zip(&other.0) {
            for (count, more) in row.counts.iter_mut().zip(&more.counts) {
                *count += more;
            }
        }
    }

    /// Prints the counts, and reports what was not hit.
    pub fn print(&self, report: &Report) {
        for Row { name, numbers, counts } in &self.0 {
            let pairs = || numbers.iter().zip(counts);
            let listed: Vec<String> =
                pairs().map(|(one, count)| format!("{one}: {count}")).collect();
            println!("  {name:46} {}", listed.join(", "));
            for (one, _) in pairs().filter(|(_, &count)| count == 0) {
                report.miss(&format!("{name}: {one}"));
            }
        }
    }
}
