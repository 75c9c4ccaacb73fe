//! Times the proved checker and the plain one on the same inputs in one run, and prints plain time divided by proved time.
//!
//! usage: ratios [ROUNDS]
//!
//! A step's time is that of reading a net and taking steps, less that of reading the net alone, divided by the count of the steps. The
//! times of reading a net and of a feed of 32,768 bytes are those of a whole call. Of all rounds the least time counts, since whatever
//! else the machine does can only add to it.

use std::env;
use std::hint::black_box;
use std::time::Instant;

use compare::nets::{long_feeds, reading, samples, Sample, Size};
use compare::plain::{self, SHEET};

/// Nanoseconds of one call, the least of some rounds.
struct Least {
    proved: f64,
    plain: f64,
}

impl Least {
    fn new() -> Least {
        Least {
            proved: f64::INFINITY,
            plain: f64::INFINITY,
        }
    }

    fn round(&mut self, calls: u32, net: &[u8], steps: &[u8], sheet: &mut [u32]) {
        let proved = time(calls, || {
            black_box(puffinwire::reduce(black_box(net), black_box(steps), sheet));
        });
        self.proved = self.proved.min(proved);
        let plain = time(calls, || {
            black_box(plain::reduce(black_box(net), black_box(steps), sheet));
        });
        self.plain = self.plain.min(plain);
    }
}

fn time(calls: u32, mut call: impl FnMut()) -> f64 {
    let start = Instant::now();
    for _ in 0..calls {
        call();
    }
    start.elapsed().as_secs_f64() * 1e9 / f64::from(calls)
}

/// How many calls take about as long as a round should.
fn calls(net: &[u8], steps: &[u8], sheet: &mut [u32]) -> u32 {
    let one = time(5, || {
        black_box(plain::reduce(net, steps, sheet));
    });
    (300_000.0 / one).clamp(2.0, 200.0) as u32
}

/// The times of a call with these steps and without them.
fn measure(rounds: u32, net: &[u8], steps: &[u8]) -> (Least, Least) {
    let mut sheet = vec![0; SHEET];
    let calls = calls(net, steps, &mut sheet);
    let (mut with, mut without) = (Least::new(), Least::new());
    for _ in 0..rounds {
        with.round(calls, net, steps, &mut sheet);
        without.round(calls, net, &[], &mut sheet);
    }
    (with, without)
}

/// Both checkers take all steps of the sample, and leave the same net.
fn try_sample(sample: &Sample) {
    let (mut a, mut b) = (vec![0; SHEET], vec![0; SHEET]);
    let proved = puffinwire::reduce(&sample.net, &sample.steps, &mut a);
    let plain = plain::reduce(&sample.net, &sample.steps, &mut b);
    let wanted = (0, sample.count);
    assert_eq!((proved.number, proved.taken), wanted, "{}", sample.name);
    assert_eq!((plain.number, plain.taken), wanted, "{}", sample.name);
    assert!(a == b, "{}", sample.name);
}

fn row(name: &str, size: Size, plain: f64, proved: f64) {
    let size = match size {
        Size::Small => "small",
        Size::Full => "full",
    };
    // A difference of two times that is not positive is noise.
    let ratio = if plain > 0.0 && proved > 0.0 {
        format!("{:.2}", plain / proved)
    } else {
        String::from("-")
    };
    println!("| {name} | {size} | {plain:.0} | {proved:.0} | {ratio} |");
}

fn step_row(rounds: u32, size: Size, sample: &Sample) {
    try_sample(sample);
    let (with, without) = measure(rounds, &sample.net, &sample.steps);
    let count = sample.count as f64;
    let plain = (with.plain - without.plain) / count;
    let proved = (with.proved - without.proved) / count;
    row(sample.name, size, plain, proved);
}

fn reading_row(rounds: u32, size: Size) {
    let (_, least) = measure(rounds, &reading(size), &[]);
    row("reading a net", size, least.plain, least.proved);
}

fn feed_row(rounds: u32, size: Size, sample: &Sample) {
    try_sample(sample);
    let (least, _) = measure(rounds, &sample.net, &sample.steps);
    let name = format!("a feed of 32,768 bytes, {}", sample.name);
    row(&name, size, least.plain, least.proved);
}

fn main() {
    let rounds = env::args()
        .nth(1)
        .and_then(|text| text.parse().ok())
        .unwrap_or(200);
    println!("| what | net | plain, ns | proved, ns | plain / proved |");
    println!("|---|---|---|---|---|");
    for size in [Size::Small, Size::Full] {
        for sample in samples(size) {
            step_row(rounds, size, &sample);
        }
        reading_row(rounds, size);
        for sample in long_feeds(size) {
            feed_row(rounds, size, &sample);
        }
    }
}
