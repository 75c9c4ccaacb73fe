//! The fifteen steps and their bytes.

use super::fault::Fault;
use super::net::Net;
use super::places::PlaceSet;
use super::{basics, merges, moves, sets};

/// A step with its operands: transitions t u v a b, places p q, the factor k, a set of places.
#[derive(Clone, Copy, Debug, PartialEq, Eq)]
pub enum Step {
    DropDominated { t: u8, u: u8 },
    DropMultiple { t: u8, u: u8, k: u16 },
    DropComposed { t: u8, u: u8, v: u8 },
    DropDraining { t: u8 },
    DropStarved { t: u8, p: u8 },
    KeepSourceless { t: u8 },
    RemovePlentiful { p: u8 },
    RemoveImplied { p: u8, q: u8, k: u16 },
    DropSiphon { set: PlaceSet },
    LimitTo { set: PlaceSet },
    PostAgglomerate { p: u8 },
    PreAgglomerate { p: u8 },
    FreeAgglomerate { p: u8 },
    FireAhead { t: u8, k: u16 },
    FusePlaces { p: u8, q: u8, a: u8, b: u8 },
}

impl Step {
    /// The step at the start of the bytes, and how many of them it has.
    pub fn parse(bytes: &[u8]) -> Result<(Step, usize), Fault> {
        let &first = bytes.first().ok_or(Fault::Short)?;
        let size = size(first).ok_or(Fault::Unknown)?;
        let step = bytes.get(..size).ok_or(Fault::Short)?;
        Ok((Step::from_bytes(step)?, size))
    }

    /// The step that these bytes are, all of them.
    fn from_bytes(bytes: &[u8]) -> Result<Step, Fault> {
        Ok(match *bytes {
            [0x20, t, u] => Step::DropDominated { t, u },
            [0x21, t, u, high, low] => Step::DropMultiple {
                t,
                u,
                k: u16::from_be_bytes([high, low]),
            },
            [0x22, t, u, v] => Step::DropComposed { t, u, v },
            [0x23, t] => Step::DropDraining { t },
            [0x24, t, p] => Step::DropStarved { t, p },
            [0x25, t] => Step::KeepSourceless { t },
            [0x26, p] => Step::RemovePlentiful { p },
            [0x27, p, q, high, low] => Step::RemoveImplied {
                p,
                q,
                k: u16::from_be_bytes([high, low]),
            },
            [0x28, ref set @ ..] => Step::DropSiphon { set: members(set)? },
            [0x29, ref set @ ..] => Step::LimitTo { set: members(set)? },
            [0x2A, p] => Step::PostAgglomerate { p },
            [0x2B, p] => Step::PreAgglomerate { p },
            [0x2C, p] => Step::FreeAgglomerate { p },
            [0x2D, t, high, low] => Step::FireAhead {
                t,
                k: u16::from_be_bytes([high, low]),
            },
            [0x2E, p, q, a, b] => Step::FusePlaces { p, q, a, b },
            _ => return Err(Fault::Unknown),
        })
    }

    /// Takes the step, or leaves the net as it is and answers the first check that fails.
    pub fn take(self, net: &mut Net) -> Result<(), Fault> {
        match self {
            Step::DropDominated { t, u } => basics::drop_dominated(net, t, u),
            Step::DropMultiple { t, u, k } => basics::drop_multiple(net, t, u, k),
            Step::DropComposed { t, u, v } => basics::drop_composed(net, t, u, v),
            Step::DropDraining { t } => basics::drop_draining(net, t),
            Step::DropStarved { t, p } => basics::drop_starved(net, t, p),
            Step::KeepSourceless { t } => basics::keep_sourceless(net, t),
            Step::RemovePlentiful { p } => basics::remove_plentiful(net, p),
            Step::RemoveImplied { p, q, k } => basics::remove_implied(net, p, q, k),
            Step::DropSiphon { set } => sets::drop_siphon(net, set),
            Step::LimitTo { set } => sets::limit_to(net, set),
            Step::PostAgglomerate { p } => merges::post_agglomerate(net, p),
            Step::PreAgglomerate { p } => merges::pre_agglomerate(net, p),
            Step::FreeAgglomerate { p } => merges::free_agglomerate(net, p),
            Step::FireAhead { t, k } => moves::fire_ahead(net, t, k),
            Step::FusePlaces { p, q, a, b } => moves::fuse_places(net, p, q, a, b),
        }
    }
}

/// The number of bytes of the step with this first byte.
fn size(first: u8) -> Option<usize> {
    Some(match first {
        0x23 | 0x25 | 0x26 | 0x2A | 0x2B | 0x2C => 2,
        0x20 | 0x24 => 3,
        0x22 | 0x2D => 4,
        0x21 | 0x27 | 0x2E => 5,
        0x28 | 0x29 => 9,
        _ => return None,
    })
}

/// The set that 8 bytes tell: bit j of byte i stands for place 8 × i + j.
fn members(bytes: &[u8]) -> Result<PlaceSet, Fault> {
    let bytes = bytes.try_into().map_err(|_| Fault::Short)?;
    Ok(PlaceSet::from_bits(u64::from_le_bytes(bytes)))
}
