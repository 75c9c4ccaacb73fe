//! Counts what becomes of the streams and steps of many cases.

use std::env;
use std::time::{Duration, Instant};

use compare::generator::{self, Case};
use compare::plain::{self, Report, SHEET};

const NUMBERS: usize = 22;
const FIRST: u8 = 0x20;
const STEPS: usize = 15;

#[derive(Default)]
struct Table {
    /// For each refusal number how many nets got it; number 0 counts those that were read.
    nets: [u64; NUMBERS],
    /// The same for each step; number 0 counts the steps taken.
    steps: [[u64; NUMBERS]; STEPS],
    /// The same for steps with any other first byte.
    others: [u64; NUMBERS],
    longest: usize,
    generating: Duration,
    reducing: Duration,
}

impl Table {
    fn add(&mut self, case: &Case, report: &Report) {
        self.longest = self.longest.max(report.taken);
        if report.layer == 1 || report.layer == 2 {
            self.nets[report.number as usize] += 1;
            return;
        }
        self.nets[0] += 1;
        let mut at = 0;
        for _ in 0..report.taken {
            let first = case.steps[at];
            self.row(first)[0] += 1;
            at += generator::step_size(first).unwrap_or(1);
        }
        if report.number != 0 {
            let first = case.steps[report.byte];
            self.row(first)[report.number as usize] += 1;
        }
    }

    fn row(&mut self, first: u8) -> &mut [u64; NUMBERS] {
        match first.checked_sub(FIRST).map(usize::from) {
            Some(step) if step < STEPS => &mut self.steps[step],
            _ => &mut self.others,
        }
    }

    fn print(&self) {
        println!("nets");
        for (number, count) in self.nets.iter().enumerate().filter(|(_, &count)| count > 0) {
            println!("{number:>5} {count:>8}");
        }
        let shown = [0, 2, 3, 8, 9, 13, 14, 15, 16, 17, 18, 19, 20, 21];
        print!("step   taken");
        for number in &shown[1..] {
            print!(" {number:>6}");
        }
        println!();
        for (step, row) in self.steps.iter().enumerate() {
            print_row(&format!("{:2X}", usize::from(FIRST) + step), row, &shown);
        }
        print_row("--", &self.others, &shown);
        println!("most steps taken in a case: {}", self.longest);
        println!("generating: {:.3} s", self.generating.as_secs_f64());
        println!("reducing:   {:.3} s", self.reducing.as_secs_f64());
    }
}

fn print_row(name: &str, row: &[u64; NUMBERS], shown: &[usize]) {
    print!("{name:>4} {:>7}", row[shown[0]]);
    for &number in &shown[1..] {
        print!(" {:>6}", row[number]);
    }
    println!();
}

/// The numeric argument at this position.
fn argument(position: usize, otherwise: u64) -> u64 {
    env::args()
        .nth(position)
        .map_or(otherwise, |text| text.parse().expect("a number"))
}

fn main() {
    let cases = argument(1, 100_000);
    let seed = argument(2, 1);
    let mut table = Table::default();
    let mut sheet = Vec::with_capacity(2 * SHEET);
    for number in 0..cases {
        let start = Instant::now();
        let case = generator::case(seed, number);
        table.generating += start.elapsed();
        sheet.clear();
        sheet.resize(case.sheet, case.fill);
        let start = Instant::now();
        let report = plain::reduce(&case.net, &case.steps, &mut sheet);
        table.reducing += start.elapsed();
        table.add(&case, &report);
    }
    table.print();
}
