//! Changes that may spoil a situation.

use super::draft::Transition;
use super::random::Random;
use super::situation::Situation;
use super::step::{self, Operand};
use crate::plain::TRANSITIONS;

/// Changes one thing.
pub fn spoil(random: &mut Random, situation: &mut Situation) {
    match random.below(20) {
        0..=5 => change_weight(random, situation),
        6..=8 => change_mark(random, situation),
        9..=10 => change_support(random, situation),
        11..=12 => situation.draft.question = random.below(4) as u8,
        13..=18 => change_operand(random, situation),
        _ => add_transition(random, situation),
    }
}

/// One of the places that matter, as a rule.
fn place(random: &mut Random, situation: &Situation) -> usize {
    if situation.places.is_empty() || random.percent(15) {
        random.below(situation.draft.places.len())
    } else {
        random.pick(&situation.places)
    }
}

/// One of the transitions that matter, as a rule.
fn transition(random: &mut Random, situation: &Situation) -> usize {
    if situation.transitions.is_empty() || random.percent(15) {
        random.below(situation.draft.transitions.len())
    } else {
        random.pick(&situation.transitions)
    }
}

fn change_weight(random: &mut Random, situation: &mut Situation) {
    if situation.draft.transitions.is_empty() {
        return;
    }
    let p = place(random, situation);
    let t = transition(random, situation);
    let Transition { takes, puts } = &mut situation.draft.transitions[t];
    let weight = if random.percent(50) {
        &mut takes[p]
    } else {
        &mut puts[p]
    };
    *weight = match random.below(8) {
        0..=2 => weight.saturating_add(1),
        3..=5 => weight.saturating_sub(1),
        6 => 0,
        _ => random.weight(),
    };
}

fn change_mark(random: &mut Random, situation: &mut Situation) {
    let p = place(random, situation);
    let mark = &mut situation.draft.places[p].mark;
    *mark = match random.below(8) {
        0..=2 => mark.saturating_add(1),
        3..=5 => mark.saturating_sub(1),
        6 => 0,
        _ => random.mark(),
    };
}

fn change_support(random: &mut Random, situation: &mut Situation) {
    let p = place(random, situation);
    let place = &mut situation.draft.places[p];
    place.support = !place.support;
}

fn add_transition(random: &mut Random, situation: &mut Situation) {
    if situation.draft.transitions.len() >= TRANSITIONS {
        return;
    }
    let mut added = Transition::random(random, situation.draft.places.len());
    let p = place(random, situation);
    if random.percent(50) {
        added.takes[p] = random.weight();
    } else {
        added.puts[p] = random.weight();
    }
    situation.draft.transitions.push(added);
}

fn change_operand(random: &mut Random, situation: &mut Situation) {
    let operands = step::operands(&situation.step);
    let (operand, at) = random.pick(&operands);
    let places = situation.draft.places.len();
    let transitions = situation.draft.transitions.len();
    match operand {
        Operand::Transition | Operand::Place => {
            let count = if operand == Operand::Place {
                places
            } else {
                transitions
            };
            let like: Vec<u8> = operands
                .iter()
                .filter(|&&(other, _)| other == operand)
                .map(|&(_, at)| situation.step[at])
                .collect();
            situation.step[at] = match random.below(6) {
                0 => count as u8,
                1 => random.pick(&[63, 64, 95, 96, 128, 255]),
                2..=3 => random.pick(&like),
                _ => random.below(count) as u8,
            };
        }
        Operand::Factor => change_factor(random, &mut situation.step[at..at + 2]),
        Operand::Set => change_set(random, &mut situation.step[at..at + 8], places),
    }
}

fn change_factor(random: &mut Random, bytes: &mut [u8]) {
    let k = u16::from_be_bytes([bytes[0], bytes[1]]);
    let changed = match random.below(5) {
        0 => 0,
        1 => k.saturating_add(1),
        2 => k.saturating_sub(1),
        3 => k.swap_bytes(),
        _ => random.factor(),
    };
    bytes.copy_from_slice(&changed.to_be_bytes());
}

fn change_set(random: &mut Random, bytes: &mut [u8], places: usize) {
    let p = if random.percent(70) {
        random.below(places)
    } else {
        let any = random.below(64);
        random.pick(&[places.min(63), 63, any])
    };
    match random.below(5) {
        0 => bytes.fill(0),
        1 => bytes.reverse(),
        _ => bytes[p / 8] ^= 1 << (p % 8),
    }
}
