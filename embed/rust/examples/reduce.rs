//! Reads a file with a net stream and the bytes of steps behind it, reduces the net, and prints what is left of it.
//!
//! usage: reduce FILE

use std::process::ExitCode;
use std::{env, fs, io};

use puffinwire::{read, reduce, Report, SHEET_SIZE};

fn print_arcs(word: &str, transition: usize, weights: &[u32]) {
    for (place, weight) in weights
        .iter()
        .enumerate()
        .filter(|(_, &weight)| weight != 0)
    {
        println!("{word} {transition} {place} {weight}");
    }
}

fn print_net(report: &Report, sheet: &[u32]) {
    for place in (0..64).filter(|&place| report.stands(place)) {
        println!("place {place} {}", sheet[place as usize]);
    }
    let rows = sheet[64..].chunks(128).take(report.transitions as usize);
    for (transition, row) in rows.enumerate() {
        print_arcs("take", transition, &row[..64]);
        print_arcs("put", transition, &row[64..]);
    }
}

/// Prints what became of the steps, which begin at the given byte of the file.
fn print_steps(report: &Report, start: usize) {
    println!("taken {}", report.taken);
    if let Some(refusal) = report.refusal() {
        println!("refused {} {}", refusal.number, start + refusal.byte);
    }
}

fn main() -> io::Result<ExitCode> {
    let Some(name) = env::args().nth(1) else {
        eprintln!("usage: reduce FILE");
        return Ok(ExitCode::from(2));
    };
    let bytes = fs::read(name)?;
    let mut sheet = vec![0; SHEET_SIZE];
    let report = read(&bytes, &mut sheet);
    if let Some(refusal) = report.refusal() {
        println!("net {} {}", refusal.number, refusal.byte);
        return Ok(ExitCode::FAILURE);
    }
    let (net, steps) = bytes.split_at(report.used);
    let report = reduce(net, steps, &mut sheet);
    print_steps(&report, net.len());
    print_net(&report, &sheet);
    Ok(ExitCode::SUCCESS)
}
