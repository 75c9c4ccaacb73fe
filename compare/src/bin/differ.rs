//! Feeds the same inputs to the proved checker and to the plain one, and compares what they tell and all numbers of the sheet.
//!
//! usage: differ [CASES] [SEED]

use std::env;
use std::fmt::Write;
use std::process::ExitCode;

use compare::generator::{self, Case};
use compare::plain::{self, SHEET};

/// The fields of a report in one order, so that both kinds of reports can be compared.
type Told = [u64; 10];

fn proved(told: puffinwire::Report) -> Told {
    [
        told.used as u64,
        told.taken as u64,
        told.byte as u64,
        told.count as u64,
        told.standing,
        told.support,
        told.number.into(),
        told.layer.into(),
        told.transitions.into(),
        told.question.into(),
    ]
}

fn plain(told: plain::Report) -> Told {
    [
        told.used as u64,
        told.taken as u64,
        told.byte as u64,
        told.count as u64,
        told.standing,
        told.support,
        told.number.into(),
        told.layer.into(),
        told.transitions.into(),
        told.question.into(),
    ]
}

/// What a call left: the report and the sheet.
#[derive(PartialEq, Eq)]
struct Left {
    told: Told,
    sheet: Vec<u32>,
}

/// A call, what the proved checker left and what the plain one did.
type Difference = (&'static str, Left, Left);

/// A sheet as the case wants it, with numbers behind it that no call may touch.
struct Sheets {
    numbers: Vec<u32>,
}

const BEHIND: usize = 8;

impl Sheets {
    fn left(&mut self, case: &Case, call: impl Fn(&mut [u32]) -> Told) -> Left {
        self.numbers.clear();
        self.numbers.resize(case.sheet + BEHIND, case.fill);
        let told = call(&mut self.numbers[..case.sheet]);
        Left {
            told,
            sheet: self.numbers.clone(),
        }
    }

    /// The steps that were taken, or the call whose answers differ.
    fn compare(&mut self, case: &Case) -> Result<u64, Difference> {
        let Case { net, steps, .. } = case;
        let a = self.left(case, |sheet| proved(puffinwire::reduce(net, steps, sheet)));
        let b = self.left(case, |sheet| plain(plain::reduce(net, steps, sheet)));
        if a != b {
            return Err(("reduce", a, b));
        }
        let [_, taken, ..] = a.told;
        let a = self.left(case, |sheet| proved(puffinwire::read(net, sheet)));
        let b = self.left(case, |sheet| plain(plain::read(net, sheet)));
        if a != b {
            return Err(("read", a, b));
        }
        Ok(taken)
    }
}

fn hex(bytes: &[u8]) -> String {
    bytes.iter().fold(String::new(), |mut text, byte| {
        let _ = write!(text, "{byte:02X}");
        text
    })
}

fn show(number: u64, case: &Case, (call, proved, plain): Difference) {
    println!("case {number}: {call} differs");
    println!("  net    {}", hex(&case.net));
    println!("  steps  {}", hex(&case.steps));
    println!("  sheet  {} numbers of {}", case.sheet, case.fill);
    println!("  proved {:?}", proved.told);
    println!("  plain  {:?}", plain.told);
    for (at, (a, b)) in proved.sheet.iter().zip(&plain.sheet).enumerate() {
        if a != b {
            println!("  number {at}: proved {a}, plain {b}");
        }
    }
}

/// The numeric argument at this position.
fn argument(position: usize, otherwise: u64) -> u64 {
    env::args()
        .nth(position)
        .map_or(otherwise, |text| text.parse().expect("a number"))
}

fn main() -> ExitCode {
    let cases = argument(1, 300_000);
    let seed = argument(2, 1);
    assert!(cases > 0, "no case is no comparison");
    let mut sheets = Sheets {
        numbers: Vec::with_capacity(2 * SHEET + BEHIND),
    };
    let (mut differ, mut taken) = (0, 0);
    for number in 0..cases {
        let case = generator::case(seed, number);
        match sheets.compare(&case) {
            Ok(steps) => taken += steps,
            Err(difference) => {
                show(number, &case, difference);
                differ += 1;
            }
        }
    }
    println!("{cases} cases of seed {seed} compared, {taken} steps taken, {differ} differ");
    if differ == 0 && taken > 0 {
        ExitCode::SUCCESS
    } else {
        ExitCode::FAILURE
    }
}
