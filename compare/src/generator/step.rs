//! The bytes of steps.

use super::random::Random;

/// What an operand is, and how many bytes it has.
#[derive(Clone, Copy, Debug, PartialEq, Eq)]
pub enum Operand {
    Transition,
    Place,
    Factor,
    Set,
}

impl Operand {
    pub fn size(self) -> usize {
        match self {
            Operand::Transition | Operand::Place => 1,
            Operand::Factor => 2,
            Operand::Set => 8,
        }
    }
}

/// The operands of the step with this first byte; nothing for an unknown one.
pub fn shape(first: u8) -> Option<&'static [Operand]> {
    use Operand::{Factor, Place, Set, Transition};
    Some(match first {
        0x20 => &[Transition, Transition],
        0x21 => &[Transition, Transition, Factor],
        0x22 => &[Transition, Transition, Transition],
        0x23 | 0x25 => &[Transition],
        0x24 => &[Transition, Place],
        0x26 | 0x2A | 0x2B | 0x2C => &[Place],
        0x27 => &[Place, Place, Factor],
        0x28 | 0x29 => &[Set],
        0x2D => &[Transition, Factor],
        0x2E => &[Place, Place, Transition, Transition],
        _ => return None,
    })
}

/// The number of bytes of the step with this first byte.
pub fn size(first: u8) -> Option<usize> {
    let operands = shape(first)?;
    Some(1 + operands.iter().map(|operand| operand.size()).sum::<usize>())
}

/// The operands of a step, each with the byte where it starts.
pub fn operands(step: &[u8]) -> Vec<(Operand, usize)> {
    let mut at = 1;
    let mut found = Vec::new();
    for &operand in step.first().and_then(|&first| shape(first)).unwrap_or(&[]) {
        found.push((operand, at));
        at += operand.size();
    }
    found
}

/// A step on a net with these places and so many transitions, most of its operands standing.
pub fn random(random: &mut Random, standing: u64, transitions: usize) -> Vec<u8> {
    let first = random.between(0x20, 0x2E) as u8;
    let mut step = vec![first];
    for &operand in shape(first).unwrap_or(&[]) {
        match operand {
            Operand::Transition => step.push(transition(random, transitions)),
            Operand::Place => step.push(place(random, standing)),
            Operand::Factor => step.extend(random.factor().to_be_bytes()),
            Operand::Set => step.extend(set(random, standing).to_le_bytes()),
        }
    }
    step
}

fn transition(random: &mut Random, transitions: usize) -> u8 {
    match random.below(30) {
        0 => transitions as u8,
        1 => random.pick(&[95, 96, 128, 255]),
        2 => random.byte(),
        _ => random.below(transitions) as u8,
    }
}

fn place(random: &mut Random, standing: u64) -> u8 {
    match random.below(30) {
        0 => standing.count_ones() as u8,
        1 => random.pick(&[63, 64, 65, 127, 128, 255]),
        2 => random.byte(),
        _ => member(random, standing),
    }
}

/// One of the places in the set.
fn member(random: &mut Random, set: u64) -> u8 {
    let members: Vec<u8> = (0..64).filter(|&p| set >> p & 1 == 1).collect();
    if members.is_empty() {
        return 0;
    }
    random.pick(&members)
}

/// A set of places, as a rule standing ones.
fn set(random: &mut Random, standing: u64) -> u64 {
    match random.below(12) {
        0 => 0,
        1 => standing,
        2 => standing & random.next() | 1 << random.below(64),
        3 => 1 << member(random, standing),
        4..=6 => standing & (random.next() | random.next()),
        7 => standing & !(1 << member(random, standing)),
        _ => standing & random.next(),
    }
}
