//! Lists of steps.

use super::draft::{self, Draft};
use super::random::Random;
use super::situation::{self, Situation};
use super::step::{self, Operand};
use crate::plain::{self, Report, SHEET};

/// A net and a list of steps.
pub struct List {
    pub net: Vec<u8>,
    pub steps: Vec<u8>,
}

/// Steps of any kind on the net, without regard to whether they are taken.
pub fn random_steps(random: &mut Random, draft: &Draft) -> Vec<u8> {
    let standing = match draft.places.len() {
        0 => 0,
        places => u64::MAX >> (64 - places),
    };
    let count = random.between(0, 6);
    let mut steps = Vec::new();
    for _ in 0..count {
        steps.extend(step::random(random, standing, draft.transitions.len()));
    }
    steps
}

/// Several situations side by side, with their steps, and further steps that are taken.
pub fn good_steps(random: &mut Random) -> List {
    let (draft, known) = situations(random);
    let net = draft::write(&draft.commands(random));
    let mut tries = Tries::new(&net);
    for step in known {
        tries.propose(&step);
    }
    for _ in 0..random.between(4, 24) {
        let step = step::random(random, tries.last.standing, tries.last.transitions as usize);
        tries.propose(&step);
    }
    let steps = tries.steps;
    List { net, steps }
}

/// Situations side by side, and their steps, the last one's first.
fn situations(random: &mut Random) -> (Draft, Vec<Vec<u8>>) {
    let first = random.between(0x20, 0x2E) as u8;
    let Situation {
        mut draft, step, ..
    } = situation::make(random, first);
    let mut steps = vec![step];
    for _ in 0..random.below(4) {
        let first = random.between(0x20, 0x2E) as u8;
        let next = situation::make(random, first);
        if let Some(both) = draft.beside(&next.draft) {
            steps.push(shifted(&next.step, &draft));
            draft = both;
        }
    }
    steps.reverse();
    (draft, steps)
}

/// The step on a net that stands behind this one.
fn shifted(step: &[u8], before: &Draft) -> Vec<u8> {
    let places = before.places.len();
    let mut shifted = step.to_vec();
    for (operand, at) in step::operands(step) {
        match operand {
            Operand::Transition => shifted[at] += before.transitions.len() as u8,
            Operand::Place => shifted[at] += places as u8,
            Operand::Factor => {}
            Operand::Set => {
                let mut bytes = [0; 8];
                bytes.copy_from_slice(&step[at..at + 8]);
                let mut set = u64::from_le_bytes(bytes) << places;
                if step[0] == 0x29 {
                    set |= (1 << places) - 1;
                }
                shifted[at..at + 8].copy_from_slice(&set.to_le_bytes());
            }
        }
    }
    shifted
}

/// Steps that were taken, and the report after them.
struct Tries<'a> {
    net: &'a [u8],
    sheet: Vec<u32>,
    steps: Vec<u8>,
    last: Report,
}

impl Tries<'_> {
    fn new(net: &[u8]) -> Tries<'_> {
        let mut sheet = vec![0; SHEET];
        let last = plain::read(net, &mut sheet);
        Tries {
            net,
            sheet,
            steps: Vec::new(),
            last,
        }
    }

    /// Keeps the step if it is taken.
    fn propose(&mut self, step: &[u8]) {
        let before = self.steps.len();
        self.steps.extend(step);
        let report = plain::reduce(self.net, &self.steps, &mut self.sheet);
        if report.number == 0 {
            self.last = report;
        } else {
            self.steps.truncate(before);
        }
    }
}

/// The same step many times.
pub fn repeated(random: &mut Random) -> List {
    let first = random.between(0x20, 0x2E) as u8;
    let Situation { draft, step, .. } = situation::make(random, first);
    let times = random.between(2, 40);
    List {
        net: draft::write(&draft.commands(random)),
        steps: step.repeat(times),
    }
}

/// Changes the end of the list: a step of any kind, an unknown one, or one that is cut.
pub fn finish(random: &mut Random, steps: &mut Vec<u8>) {
    let places = random_places(random);
    let any = step::random(random, places, 6);
    match random.below(5) {
        0 => steps.extend(any),
        1 => steps.extend(&any[..random.below(any.len())]),
        2 => steps.push(random.pick(&[0, 0x10, 0x11, 0x1F, 0x2F, 0x30, 0xFF])),
        3 => steps.truncate(random.below(steps.len() + 1)),
        _ => {}
    }
}

fn random_places(random: &mut Random) -> u64 {
    (1 << random.between(1, 8)) - 1
}
