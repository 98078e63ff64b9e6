//! Measures row by row, and prints the table.

use crate::options::Options;
use crate::turns::{Row, measure};

pub struct Report {
    options: Options,
    rows: usize,
    remarks: Vec<&'static str>,
    notes: Vec<String>,
}

impl Report {
    pub fn new(options: Options) -> Report {
        println!("| Row | Rounds | Library, ns | Rust, ns | to a | Ratio | 10th | 90th |");
        println!("|---|---:|---:|---:|---|---:|---:|---:|");
        Report {
            options,
            rows: 0,
            remarks: Vec::new(),
            notes: Vec::new(),
        }
    }

    pub fn wants(&self, name: &str) -> bool {
        name.contains(&self.options.only)
    }

    /// Measures a row and prints it. A turn of either side does the same `units` of work.
    pub fn row<'a>(
        &mut self,
        name: String,
        unit: &'static str,
        units: usize,
        ours: &'a mut dyn FnMut(),
        theirs: Option<&'a mut dyn FnMut()>,
    ) {
        self.rows += 1;
        let row = measure(&self.options, name, unit, units, ours, theirs);
        let Row {
            name,
            unit,
            rounds,
            ours,
            theirs,
        } = row;
        match theirs {
            Some(t) => println!(
                "| {name} | {rounds} | {ours:.2} | {:.2} | {unit} | {:.2} | {:.2} | {:.2} |",
                t.time, t.ratio, t.tenth, t.ninetieth
            ),
            None => println!("| {name} | {rounds} | {ours:.2} | | {unit} | | | |"),
        }
    }

    /// Something to be told of rows, under the table.
    pub fn remark(&mut self, remark: &'static str) {
        self.remarks.push(remark);
    }

    /// The kinds of section that rows had.
    pub fn note(&mut self, note: String) {
        self.notes.push(note);
    }

    /// Prints the remarks and the notes; answers how many rows there were.
    pub fn close(self) -> usize {
        for remark in &self.remarks {
            println!("\n{remark}");
        }
        if !self.notes.is_empty() {
            println!("\nSections that have each part (a combination has two):");
            for note in &self.notes {
                println!("  {note}");
            }
        }
        self.rows
    }
}
