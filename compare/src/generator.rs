//! A seeded generator of nets and steps.

mod damage;
mod draft;
mod limits;
mod random;
mod sequence;
mod situation;
mod spoil;
mod step;

pub use step::size as step_size;

use draft::Draft;
use random::Random;
use sequence::List;
use situation::Situation;

use crate::plain::SHEET;

/// An input: a net stream, steps, and the sheet to lend.
#[derive(Clone, Debug, PartialEq, Eq)]
pub struct Case {
    pub net: Vec<u8>,
    pub steps: Vec<u8>,
    /// The size of the sheet.
    pub sheet: usize,
    /// What the sheet is filled with before.
    pub fill: u32,
}

/// The case of this number. The same seed and number always give the same case.
pub fn case(seed: u64, number: u64) -> Case {
    let mut random = Random::new(seed, number);
    let List { net, steps } = list(&mut random);
    let sheet = if random.percent(99) {
        SHEET
    } else {
        let any = random.below(2 * SHEET);
        random.pick(&[0, 1, 63, 64, SHEET - 1, SHEET + 1, any])
    };
    let fill = match random.below(20) {
        0 => 0,
        1 => u32::MAX,
        2 => 1,
        _ => random.next() as u32,
    };
    Case {
        net,
        steps,
        sheet,
        fill,
    }
}

fn list(random: &mut Random) -> List {
    match random.below(200) {
        0..=109 => situation(random),
        110..=119 => around(random, limits::crowded),
        120..=130 => around(random, limits::heavy),
        131..=132 => around(random, limits::cut),
        133..=160 => small_net(random),
        161..=167 => sequence_of_good_steps(random),
        168..=172 => repeated_step(random),
        173..=192 => damaged(random),
        193..=194 => full(random),
        195..=198 => sized_net(random, 24, 32, 120),
        _ => large_net(random),
    }
}

fn situation(random: &mut Random) -> List {
    around(random, |random| {
        let first = random.between(0x20, 0x2E) as u8;
        situation::make(random, first)
    })
}

/// A situation as it is, or with one or more things changed.
fn around(random: &mut Random, make: impl Fn(&mut Random) -> Situation) -> List {
    let mut situation = make(random);
    let changes = random.pick(&[0, 0, 0, 1, 1, 1, 1, 2, 2, 3]);
    for _ in 0..changes {
        spoil::spoil(random, &mut situation);
    }
    let Situation { draft, step, .. } = situation;
    let mut steps = step;
    if random.percent(10) {
        steps.extend(sequence::random_steps(random, &draft));
    } else if random.percent(5) {
        sequence::finish(random, &mut steps);
    }
    List {
        net: draft::write(&draft.commands(random)),
        steps,
    }
}

fn small_net(random: &mut Random) -> List {
    let arcs = random.pick(&[0, 0, 0, 3, 8]);
    let (places, transitions) = (random.between(0, 8), random.between(0, 10));
    net_of(random, places, transitions, arcs)
}

fn sized_net(random: &mut Random, places: usize, transitions: usize, arcs: usize) -> List {
    let places = random.between(8, places);
    let transitions = random.between(8, transitions);
    let arcs = random.below(arcs);
    net_of(random, places, transitions, arcs)
}

fn large_net(random: &mut Random) -> List {
    let arcs = random.pick(&[200, 1000, 5000]);
    if random.percent(40) {
        net_of(random, 64, 96, arcs)
    } else {
        sized_net(random, 64, 96, arcs)
    }
}

fn net_of(random: &mut Random, places: usize, transitions: usize, arcs: usize) -> List {
    let draft = Draft::random(random, places, transitions).with_arcs(random, arcs);
    let mut steps = sequence::random_steps(random, &draft);
    if random.percent(10) {
        sequence::finish(random, &mut steps);
    }
    List {
        net: draft::write(&draft.commands(random)),
        steps,
    }
}

fn sequence_of_good_steps(random: &mut Random) -> List {
    let List { net, mut steps } = sequence::good_steps(random);
    sequence::finish(random, &mut steps);
    List { net, steps }
}

fn repeated_step(random: &mut Random) -> List {
    let List { net, mut steps } = sequence::repeated(random);
    if random.percent(20) {
        sequence::finish(random, &mut steps);
    }
    List { net, steps }
}

fn damaged(random: &mut Random) -> List {
    let (places, transitions) = (random.below(6), random.below(6));
    let draft = Draft::random(random, places, transitions);
    List {
        net: damage::damaged(random, &draft),
        steps: sequence::random_steps(random, &draft),
    }
}

fn full(random: &mut Random) -> List {
    List {
        net: damage::full(random),
        steps: step::random(random, u64::MAX, 96),
    }
}

#[cfg(test)]
mod tests {
    use super::*;

    #[test]
    fn the_same_numbers_give_the_same_case() {
        for number in 0..200 {
            assert_eq!(case(7, number), case(7, number));
        }
        assert_ne!(case(7, 0), case(7, 1));
        assert_ne!(case(7, 0), case(8, 0));
    }

    #[test]
    fn every_case_is_answered() {
        for number in 0..2000 {
            let case = case(3, number);
            let mut sheet = vec![case.fill; case.sheet];
            let report = crate::plain::reduce(&case.net, &case.steps, &mut sheet);
            assert!(report.number <= 21);
        }
    }
}
