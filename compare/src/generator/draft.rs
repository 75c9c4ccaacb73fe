//! Nets to be written as streams.

use super::random::Random;
use crate::plain::{PLACES, TRANSITIONS};

#[derive(Clone, Copy)]
pub struct Place {
    pub mark: u32,
    pub support: bool,
}

#[derive(Clone)]
pub struct Transition {
    pub takes: [u16; PLACES],
    pub puts: [u16; PLACES],
}

impl Transition {
    pub fn empty() -> Transition {
        Transition {
            takes: [0; PLACES],
            puts: [0; PLACES],
        }
    }

    /// A transition with a few arcs.
    pub fn random(random: &mut Random, places: usize) -> Transition {
        let mut transition = Transition::empty();
        if places == 0 {
            return transition;
        }
        for _ in 0..random.below(4) {
            transition.takes[random.below(places)] = random.small_weight();
        }
        for _ in 0..random.below(4) {
            transition.puts[random.below(places)] = random.small_weight();
        }
        transition
    }

    /// Takes this weight from the place and puts that one there.
    pub fn set(&mut self, place: usize, take: u16, put: u16) {
        self.takes[place] = take;
        self.puts[place] = put;
    }
}

#[derive(Clone)]
pub struct Draft {
    pub places: Vec<Place>,
    pub transitions: Vec<Transition>,
    pub question: u8,
}

/// A command of a net stream.
#[derive(Clone, Copy)]
pub enum Command {
    Place { mark: u32, flag: u8 },
    Transition,
    ArcIn { t: u8, p: u8, weight: u16 },
    ArcOut { t: u8, p: u8, weight: u16 },
    End { question: u8 },
    Unknown { byte: u8 },
}

impl Command {
    pub fn write(self, bytes: &mut Vec<u8>) {
        match self {
            Command::Place { mark, flag } => {
                bytes.push(0x10);
                bytes.extend(mark.to_be_bytes());
                bytes.push(flag);
            }
            Command::Transition => bytes.push(0x11),
            Command::ArcIn { t, p, weight } => {
                bytes.extend([0x12, t, p]);
                bytes.extend(weight.to_be_bytes());
            }
            Command::ArcOut { t, p, weight } => {
                bytes.extend([0x13, t, p]);
                bytes.extend(weight.to_be_bytes());
            }
            Command::End { question } => bytes.extend([0x1F, question]),
            Command::Unknown { byte } => bytes.push(byte),
        }
    }
}

pub fn write(commands: &[Command]) -> Vec<u8> {
    let mut bytes = Vec::with_capacity(6 * commands.len());
    for command in commands {
        command.write(&mut bytes);
    }
    bytes
}

impl Draft {
    pub fn random(random: &mut Random, places: usize, transitions: usize) -> Draft {
        let question = random.below(4) as u8;
        let support = random.pick(&[0, 0, 20, 20, 50, 100]);
        let place = |random: &mut Random| Place {
            mark: random.mark(),
            support: random.percent(support),
        };
        Draft {
            places: (0..places).map(|_| place(random)).collect(),
            transitions: (0..transitions)
                .map(|_| Transition::random(random, places))
                .collect(),
            question,
        }
    }

    /// The same net with more arcs, of any weight.
    pub fn with_arcs(mut self, random: &mut Random, arcs: usize) -> Draft {
        if self.places.is_empty() || self.transitions.is_empty() {
            return self;
        }
        for _ in 0..arcs {
            let p = random.below(self.places.len());
            let t = random.below(self.transitions.len());
            let weight = random.weight();
            if random.percent(50) {
                self.transitions[t].takes[p] = weight;
            } else {
                self.transitions[t].puts[p] = weight;
            }
        }
        self
    }

    /// Puts the transitions between the others, in any order, and answers where they are.
    pub fn scatter(&mut self, random: &mut Random, core: Vec<Transition>) -> Vec<usize> {
        let total = self.transitions.len() + core.len();
        let positions = random.distinct(total, core.len());
        let mut slots: Vec<Option<Transition>> = vec![None; total];
        for (&position, transition) in positions.iter().zip(core) {
            slots[position] = Some(transition);
        }
        let mut others = std::mem::take(&mut self.transitions).into_iter();
        self.transitions = slots
            .into_iter()
            .map(|slot| slot.or_else(|| others.next()))
            .map(|slot| slot.unwrap_or_else(Transition::empty))
            .collect();
        positions
    }

    /// Removes all arcs at the place.
    pub fn clear_arcs(&mut self, place: usize) {
        for transition in &mut self.transitions {
            transition.set(place, 0, 0);
        }
    }

    /// Both nets side by side, with the question of this one; nothing where that is too large.
    pub fn beside(&self, other: &Draft) -> Option<Draft> {
        let shift = self.places.len();
        let fits = shift + other.places.len() <= PLACES
            && self.transitions.len() + other.transitions.len() <= TRANSITIONS;
        if !fits {
            return None;
        }
        let mut both = self.clone();
        both.places.extend(&other.places);
        for transition in &other.transitions {
            let mut shifted = Transition::empty();
            for p in 0..other.places.len() {
                shifted.set(p + shift, transition.takes[p], transition.puts[p]);
            }
            both.transitions.push(shifted);
        }
        Some(both)
    }

    /// The commands of a stream of this net, in one of many orders.
    pub fn commands(&self, random: &mut Random) -> Vec<Command> {
        let mut commands = Vec::new();
        if random.percent(70) {
            commands.extend(self.places.iter().map(place_command));
            for t in 0..self.transitions.len() {
                commands.push(Command::Transition);
                commands.extend(self.arcs(t));
            }
        } else {
            self.mixed_commands(random, &mut commands);
        }
        commands.push(Command::End {
            question: self.question,
        });
        commands
    }

    fn mixed_commands(&self, random: &mut Random, commands: &mut Vec<Command>) {
        let mut places = self.places.iter();
        let mut t = 0;
        let mut waiting: Vec<Command> = Vec::new();
        while places.len() > 0 || t < self.transitions.len() {
            let left = places.len() + self.transitions.len() - t;
            if random.below(left) < places.len() {
                commands.extend(places.next().map(place_command));
            } else {
                commands.push(Command::Transition);
                waiting.extend(self.arcs(t));
                if waiting.len() < 64 {
                    random.shuffle(&mut waiting);
                }
                t += 1;
            }
            let there = self.places.len() - places.len();
            let ready = random.below(4);
            for _ in 0..ready {
                match waiting.last() {
                    Some(Command::ArcIn { p, .. } | Command::ArcOut { p, .. })
                        if usize::from(*p) < there =>
                    {
                        commands.extend(waiting.pop());
                    }
                    _ => break,
                }
            }
        }
        random.shuffle(&mut waiting);
        commands.append(&mut waiting);
    }

    /// The arc commands of the transition.
    fn arcs(&self, t: usize) -> impl Iterator<Item = Command> + '_ {
        let Transition { takes, puts } = &self.transitions[t];
        let places = 0..self.places.len();
        let arcs_in = places.clone().filter(|&p| takes[p] > 0);
        let arcs_out = places.filter(|&p| puts[p] > 0);
        let arcs_in = arcs_in.map(move |p| Command::ArcIn {
            t: t as u8,
            p: p as u8,
            weight: takes[p],
        });
        let arcs_out = arcs_out.map(move |p| Command::ArcOut {
            t: t as u8,
            p: p as u8,
            weight: puts[p],
        });
        arcs_in.chain(arcs_out)
    }
}

fn place_command(place: &Place) -> Command {
    Command::Place {
        mark: place.mark,
        flag: place.support.into(),
    }
}
