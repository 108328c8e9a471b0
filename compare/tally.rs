//! What was compared and what came of it, and the table that is printed at the end.

use std::collections::BTreeMap;

/// Added to the size of a random input, so that a plain one is told as an example where there is one.
pub const FAR: usize = 1 << 40;

/// What became of one list or one run of calls.
pub enum Outcome {
    /// the original answered everything, and all answers were equal
    Whole,
    /// the original cannot answer, or goes on where this library refuses; all before was equal
    Unanswered(String),
}

#[derive(Default)]
struct Row {
    name: &'static str,
    all: u64,
    whole: u64,
    unanswered: u64,
    different: u64,
}

struct Reason {
    count: u64,
    size: usize,
    example: String,
}

/// Totals of what was found equal.
#[derive(Default)]
pub struct Equal {
    pub documents: u64,
    pub nodes: u64,
    pub links: u64,
    pub text: u64,
    pub marks: u64,
    pub dumps: u64,
    pub redumps: u64,
    pub small_sinks: u64,
    pub calls: u64,
    pub events: u64,
}

#[derive(Default)]
pub struct Tally {
    rows: Vec<Row>,
    answers: BTreeMap<&'static str, BTreeMap<u64, u64>>,
    reasons: BTreeMap<String, Reason>,
    pub equal: Equal,
    differences: u64,
}

/// So many differences are printed in full.
const PRINTED: u64 = 10;

/// So many characters of an example are printed.
const SHOWN: usize = 240;

impl Tally {
    /// Begins the row of a generator.
    pub fn begin(&mut self, name: &'static str) {
        self.rows.push(Row { name, ..Row::default() });
    }

    /// Counts an answer of this library's.
    pub fn answer(&mut self, what: &'static str, number: u64) {
        *self.answers.entry(what).or_default().entry(number).or_default() += 1;
    }

    /// Counts what became of one input of the latest generator. `size` and `shown` tell the input, for the smallest example of each reason.
    pub fn outcome(&mut self, outcome: Result<Outcome, String>, size: usize, shown: impl Fn() -> String) {
        let row = self.rows.last_mut().expect("a generator");
        row.all += 1;
        match outcome {
            Ok(Outcome::Whole) => row.whole += 1,
            Ok(Outcome::Unanswered(why)) => {
                row.unanswered += 1;
                match self.reasons.get_mut(&why) {
                    Some(reason) => {
                        reason.count += 1;
                        if size < reason.size {
                            (reason.size, reason.example) = (size, shown());
                        }
                    }
                    None => {
                        self.reasons.insert(why, Reason { count: 1, size, example: shown() });
                    }
                }
            }
            Err(difference) => {
                row.different += 1;
                self.differences += 1;
                if self.differences <= PRINTED {
                    println!("DIFFERENCE in {}: {}\n  {difference}", row.name, shown());
                }
            }
        }
    }

    /// Prints the table; tells whether there was no difference.
    pub fn print(&self) -> bool {
        println!("{:<44} {:>9} {:>9} {:>11} {:>10}", "inputs", "all", "whole", "unanswered", "different");
        let mut sum = Row { name: "all", ..Row::default() };
        for row in &self.rows {
            print_row(row);
            sum.all += row.all;
            sum.whole += row.whole;
            sum.unanswered += row.unanswered;
            sum.different += row.different;
        }
        print_row(&sum);
        assert_eq!(sum.all, sum.whole + sum.unanswered + sum.different, "the counts add up");
        assert_eq!(sum.unanswered, self.reasons.values().map(|reason| reason.count).sum::<u64>(), "the reasons add up");
        println!("\nanswers of this library");
        for (what, numbers) in &self.answers {
            for (number, count) in numbers {
                let name = if *number == 0 { what.to_string() } else { format!("{what} {number}") };
                println!("{name:<44} {count:>9}");
            }
        }
        let equal = &self.equal;
        println!("\nfound equal");
        for (what, count) in [
            ("loaded documents", equal.documents),
            ("nodes", equal.nodes),
            ("links", equal.links),
            ("bytes of tags and values", equal.text),
            ("marks", equal.marks),
            ("documents dumped alone", equal.dumps),
            ("whole redumps", equal.redumps),
            ("redumps into a sink that may be too small", equal.small_sinks),
            ("calls of a writer", equal.calls),
            ("events emitted", equal.events),
        ] {
            println!("{what:<44} {count:>9}");
        }
        println!("\nwhy the original did not answer, with a smallest input");
        for (why, reason) in &self.reasons {
            let shown: String = reason.example.chars().take(SHOWN).collect();
            let cut = if shown.len() < reason.example.len() { ".." } else { "" };
            println!("{:>9}  {why}\n           {shown}{cut}", reason.count);
        }
        println!("\n{} unexplained differences", self.differences);
        self.differences == 0
    }
}

fn print_row(row: &Row) {
    println!("{:<44} {:>9} {:>9} {:>11} {:>10}", row.name, row.all, row.whole, row.unanswered, row.different);
}
