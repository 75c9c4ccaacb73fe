//! Reads a net stream onto a sheet and takes reduction steps on the net.

mod basics;
mod fault;
mod merges;
mod moves;
mod net;
mod places;
mod session;
mod sets;
mod steps;
mod stream;

#[cfg(test)]
mod tests;

pub use fault::{Layer, Refusal};
pub use net::{MAX_WEIGHT, PLACES, ROW, SHEET, TRANSITIONS};

use fault::Fault;
use net::Net;

/// What a call tells.
#[derive(Clone, Copy, Debug, PartialEq, Eq)]
pub struct Report {
    /// Bytes of the net stream that were used, end command included; 0 where the net was refused.
    pub used: usize,
    /// Steps taken.
    pub taken: usize,
    /// The byte of the refusal; 0 where nothing was refused.
    pub byte: usize,
    /// The count of the refusal; 0 where nothing was refused.
    pub count: usize,
    /// Bit p is 1 when place p stands.
    pub standing: u64,
    /// Bit p is 1 when place p is in the support.
    pub support: u64,
    /// The number of the refusal; 0 where nothing was refused.
    pub number: u32,
    /// The number of the layer of the refusal; 0 where nothing was refused.
    pub layer: u32,
    /// The count of transitions.
    pub transitions: u32,
    /// 1, 2 or 3; 1 where none was told.
    pub question: u32,
}

impl Report {
    /// The report on a sheet that cannot hold a net.
    fn wrong_size() -> Report {
        let no_net = Report {
            used: 0,
            taken: 0,
            byte: 0,
            count: 0,
            standing: 0,
            support: 0,
            number: 0,
            layer: 0,
            transitions: 0,
            question: 1,
        };
        no_net.refused(Fault::WrongSize.at(Layer::Net, 0, 0))
    }

    fn of(net: &Net, used: usize, taken: usize) -> Report {
        Report {
            used,
            taken,
            byte: 0,
            count: 0,
            standing: net.standing().bits(),
            support: net.support().bits(),
            number: 0,
            layer: 0,
            transitions: net.transitions() as u32,
            question: net.question().number(),
        }
    }

    fn refused(self, refusal: Refusal) -> Report {
        Report {
            byte: refusal.byte,
            count: refusal.count,
            number: refusal.number,
            layer: refusal.layer as u32,
            ..self
        }
    }
}

/// Starts a draft on the sheet and reads a net stream into it.
pub fn read(net: &[u8], sheet: &mut [u32]) -> Report {
    let Ok(mut draft) = Net::start(sheet) else {
        return Report::wrong_size();
    };
    match stream::read(&mut draft, net) {
        Ok(used) => Report::of(&draft, used, 0),
        Err(refusal) => Report::of(&draft, 0, 0).refused(refusal),
    }
}

/// The same, then opens a session on the net and feeds it the steps.
pub fn reduce(net: &[u8], steps: &[u8], sheet: &mut [u32]) -> Report {
    let Ok(mut draft) = Net::start(sheet) else {
        return Report::wrong_size();
    };
    let used = match stream::read(&mut draft, net) {
        Ok(used) => used,
        Err(refusal) => return Report::of(&draft, 0, 0).refused(refusal),
    };
    match session::feed(&mut draft, steps) {
        Ok(taken) => Report::of(&draft, used, taken),
        Err(refusal) => Report::of(&draft, used, refusal.count).refused(refusal),
    }
}
