//! Streams that are not as they should be.

use super::draft::{self, Command, Draft};
use super::random::Random;

/// A stream of the net with one thing wrong, or with bytes behind its end.
pub fn damaged(random: &mut Random, draft: &Draft) -> Vec<u8> {
    let mut commands = draft.commands(random);
    match random.below(10) {
        0 => Vec::new(),
        1..=3 => damage_bytes(random, draft::write(&commands)),
        4 => {
            let question = random.pick(&[4, 5, 128, 255]);
            commands.pop();
            commands.push(Command::End { question });
            draft::write(&commands)
        }
        5 => {
            commands.pop();
            draft::write(&commands)
        }
        _ => {
            let wrong = wrong_command(random, draft, &commands);
            let at = if random.percent(70) {
                commands.len() - 1
            } else {
                random.below(commands.len() + 1)
            };
            commands.insert(at, wrong);
            draft::write(&commands)
        }
    }
}

fn damage_bytes(random: &mut Random, mut bytes: Vec<u8>) -> Vec<u8> {
    match random.below(5) {
        0 | 1 => bytes.truncate(random.below(bytes.len())),
        2 => {
            let at = random.below(bytes.len());
            bytes[at] = random.pick(&[0, 1, 2, 255, 0x10, 0x11, 0x12, 0x13, 0x1F]);
        }
        3 => {
            bytes.remove(random.below(bytes.len()));
        }
        _ => {
            for _ in 0..random.between(1, 9) {
                bytes.push(random.byte());
            }
        }
    }
    bytes
}

fn wrong_command(random: &mut Random, draft: &Draft, commands: &[Command]) -> Command {
    let t = random.below(draft.transitions.len()) as u8;
    let p = random.below(draft.places.len()) as u8;
    match random.below(7) {
        0 => Command::Place {
            mark: random.mark(),
            flag: random.pick(&[2, 3, 128, 255]),
        },
        1 => Command::Unknown {
            byte: random.pick(&[0, 0x0F, 0x14, 0x1E, 0x20, 0x2A, 0xFF]),
        },
        2 => {
            let t = random.pick(&[draft.transitions.len() as u8, 95, 96, 255]);
            arc(random, t, p, 1)
        }
        3 => {
            let p = random.pick(&[draft.places.len() as u8, 63, 64, 128, 255]);
            arc(random, t, p, 1)
        }
        4 => arc(random, t, p, 0),
        5 => arc(random, t, p, 1),
        _ => random.pick(commands),
    }
}

fn arc(random: &mut Random, t: u8, p: u8, weight: u16) -> Command {
    if random.percent(50) {
        Command::ArcIn { t, p, weight }
    } else {
        Command::ArcOut { t, p, weight }
    }
}

/// A stream with as many places or transitions as a net can have, or one more.
pub fn full(random: &mut Random) -> Vec<u8> {
    let more = random.below(2);
    let mut commands = Vec::new();
    if random.percent(50) {
        for _ in 0..64 + more {
            let mark = random.mark();
            let flag = random.pick(&[0, 0, 0, 1]);
            commands.push(Command::Place { mark, flag });
        }
        if more == 1 && random.percent(30) {
            commands.pop();
            commands.push(Command::Place { mark: 0, flag: 2 });
        }
    }
    if commands.is_empty() || random.percent(30) {
        commands.extend(vec![Command::Transition; 96 + random.below(2)]);
    }
    let question = random.below(4) as u8;
    commands.push(Command::End { question });
    draft::write(&commands)
}
