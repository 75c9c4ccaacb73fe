//! Sessions: steps taken in a row.

use super::fault::{Fault, Layer, Refusal};
use super::net::Net;
use super::steps::Step;

/// Takes the steps until the bytes end or one is refused, and answers how many were taken.
pub fn feed(net: &mut Net, bytes: &[u8]) -> Result<usize, Refusal> {
    let mut at = 0;
    let mut count = 0;
    while at < bytes.len() {
        at += take_first(net, &bytes[at..]).map_err(|fault| fault.at(layer(fault), at, count))?;
        count += 1;
    }
    Ok(count)
}

/// Takes the step at the start of the bytes and answers how many of them it has.
fn take_first(net: &mut Net, bytes: &[u8]) -> Result<usize, Fault> {
    let (step, size) = Step::parse(bytes)?;
    step.take(net)?;
    Ok(size)
}

fn layer(fault: Fault) -> Layer {
    if fault.is_of_bytes() {
        Layer::Session
    } else {
        Layer::Book
    }
}
