//! The reader of net streams.

use super::fault::{Fault, Layer, Refusal};
use super::net::Net;

const PLACE: u8 = 0x10;
const TRANSITION: u8 = 0x11;
const ARC_IN: u8 = 0x12;
const ARC_OUT: u8 = 0x13;
const END: u8 = 0x1F;

/// Reads a net into the draft and answers the number of bytes used. A refused reading leaves the
/// draft empty.
pub fn read(draft: &mut Net, bytes: &[u8]) -> Result<usize, Refusal> {
    draft.clear();
    let mut at = 0;
    let mut count = 0;
    loop {
        match command(draft, &bytes[at..]) {
            Ok(Command::Done { size }) => at += size,
            Ok(Command::End { size }) => return Ok(at + size),
            Err(fault) => {
                draft.clear();
                return Err(fault.at(layer(fault), at, count));
            }
        }
        count += 1;
    }
}

fn layer(fault: Fault) -> Layer {
    if fault.is_of_bytes() {
        Layer::Reader
    } else {
        Layer::Net
    }
}

/// A command that was done, and how many bytes it has.
enum Command {
    Done { size: usize },
    End { size: usize },
}

/// Does the command at the start of the bytes.
fn command(draft: &mut Net, bytes: &[u8]) -> Result<Command, Fault> {
    match *bytes {
        [PLACE, a, b, c, d, flag, ..] => {
            draft.place(u32::from_be_bytes([a, b, c, d]), flag)?;
            Ok(Command::Done { size: 6 })
        }
        [TRANSITION, ..] => {
            draft.transition()?;
            Ok(Command::Done { size: 1 })
        }
        [ARC_IN, t, p, high, low, ..] => {
            draft.arc_in(t, p, u16::from_be_bytes([high, low]))?;
            Ok(Command::Done { size: 5 })
        }
        [ARC_OUT, t, p, high, low, ..] => {
            draft.arc_out(t, p, u16::from_be_bytes([high, low]))?;
            Ok(Command::Done { size: 5 })
        }
        [END, question, ..] => {
            draft.ask(question)?;
            Ok(Command::End { size: 2 })
        }
        [] | [PLACE | ARC_IN | ARC_OUT | END, ..] => Err(Fault::Short),
        _ => Err(Fault::Unknown),
    }
}
