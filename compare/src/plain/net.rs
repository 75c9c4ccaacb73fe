//! A net on its sheet, and the calls that draft one.

use super::fault::{ensure, Fault};
use super::places::PlaceSet;

/// The most places that a net can have.
pub const PLACES: usize = 64;
/// The most transitions that a net can have.
pub const TRANSITIONS: usize = 96;
/// The numbers of a transition on the sheet: what it takes, then what it puts.
pub const ROW: usize = 2 * PLACES;
/// The numbers of a sheet.
pub const SHEET: usize = PLACES + TRANSITIONS * ROW;
/// The largest weight.
pub const MAX_WEIGHT: u32 = 65_535;

/// What is asked about a net.
#[derive(Clone, Copy, Debug, PartialEq, Eq)]
pub enum Question {
    Reach = 1,
    Standstill = 2,
    Both = 3,
}

impl Question {
    pub fn number(self) -> u32 {
        self as u32
    }
}

/// A net. The sheet holds the start marks and a row for each transition.
pub struct Net<'a> {
    sheet: &'a mut [u32],
    transitions: usize,
    standing: PlaceSet,
    support: PlaceSet,
    question: Question,
}

impl<'a> Net<'a> {
    /// The empty net. A sheet of another size than `SHEET` is left as it is.
    pub fn start(sheet: &'a mut [u32]) -> Result<Net<'a>, Fault> {
        ensure(sheet.len() == SHEET, Fault::WrongSize)?;
        let mut net = Net {
            sheet,
            transitions: 0,
            standing: PlaceSet::default(),
            support: PlaceSet::default(),
            question: Question::Reach,
        };
        net.clear();
        Ok(net)
    }

    /// Makes it the empty net again.
    pub fn clear(&mut self) {
        self.sheet.fill(0);
        self.transitions = 0;
        self.standing = PlaceSet::default();
        self.support = PlaceSet::default();
        self.question = Question::Reach;
    }

    pub fn place(&mut self, mark: u32, flag: u8) -> Result<(), Fault> {
        let place = self.standing.len();
        ensure(place < PLACES, Fault::TooManyPlaces)?;
        ensure(flag <= 1, Fault::BadFlag)?;
        self.sheet[place] = mark;
        self.standing.insert(place);
        if flag == 1 {
            self.support.insert(place);
        }
        Ok(())
    }

    pub fn transition(&mut self) -> Result<(), Fault> {
        ensure(self.transitions < TRANSITIONS, Fault::TooManyTransitions)?;
        self.transitions += 1;
        Ok(())
    }

    pub fn arc_in(&mut self, t: u8, p: u8, weight: u16) -> Result<(), Fault> {
        let t = self.named_transition(t)?;
        let p = self.named_place(p)?;
        self.arc(row_start(t) + p, weight)
    }

    pub fn arc_out(&mut self, t: u8, p: u8, weight: u16) -> Result<(), Fault> {
        let t = self.named_transition(t)?;
        let p = self.named_place(p)?;
        self.arc(row_start(t) + PLACES + p, weight)
    }

    fn arc(&mut self, at: usize, weight: u16) -> Result<(), Fault> {
        ensure(weight != 0, Fault::BadWeight)?;
        ensure(self.sheet[at] == 0, Fault::ArcExists)?;
        self.sheet[at] = weight.into();
        Ok(())
    }

    pub fn ask(&mut self, number: u8) -> Result<(), Fault> {
        self.question = match number {
            0 | 1 => Question::Reach,
            2 => Question::Standstill,
            3 => Question::Both,
            _ => return Err(Fault::BadQuestion),
        };
        Ok(())
    }

    pub fn transitions(&self) -> usize {
        self.transitions
    }

    pub fn standing(&self) -> PlaceSet {
        self.standing
    }

    pub fn support(&self) -> PlaceSet {
        self.support
    }

    pub fn question(&self) -> Question {
        self.question
    }

    /// The transition of this number, if it stands.
    pub fn named_transition(&self, t: u8) -> Result<usize, Fault> {
        let t = usize::from(t);
        ensure(t < self.transitions, Fault::NoTransition)?;
        Ok(t)
    }

    /// The place of this number, if it stands.
    pub fn named_place(&self, p: u8) -> Result<usize, Fault> {
        let p = usize::from(p);
        ensure(self.standing.contains(p), Fault::NoPlace)?;
        Ok(p)
    }

    pub fn mark(&self, p: usize) -> u32 {
        self.sheet[p]
    }

    pub fn set_mark(&mut self, p: usize, mark: u32) {
        self.sheet[p] = mark;
    }

    /// What the transition takes from each place.
    pub fn takes(&self, t: usize) -> &[u32] {
        let start = row_start(t);
        &self.sheet[start..start + PLACES]
    }

    /// What the transition puts into each place.
    pub fn puts(&self, t: usize) -> &[u32] {
        let start = row_start(t) + PLACES;
        &self.sheet[start..start + PLACES]
    }

    pub fn take(&self, t: usize, p: usize) -> u32 {
        self.sheet[row_start(t) + p]
    }

    pub fn put(&self, t: usize, p: usize) -> u32 {
        self.sheet[row_start(t) + PLACES + p]
    }

    pub fn set_take(&mut self, t: usize, p: usize, weight: u32) {
        self.sheet[row_start(t) + p] = weight;
    }

    pub fn set_put(&mut self, t: usize, p: usize, weight: u32) {
        self.sheet[row_start(t) + PLACES + p] = weight;
    }

    /// What a firing of the transition adds to the place.
    pub fn effect(&self, t: usize, p: usize) -> i64 {
        i64::from(self.put(t, p)) - i64::from(self.take(t, p))
    }

    /// The places that the transition takes from.
    pub fn inputs(&self, t: usize) -> impl Iterator<Item = usize> + '_ {
        nonzero(self.takes(t))
    }

    /// The places that the transition puts into.
    pub fn outputs(&self, t: usize) -> impl Iterator<Item = usize> + '_ {
        nonzero(self.puts(t))
    }

    /// The transitions that put into the place.
    pub fn feeders(&self, p: usize) -> impl Iterator<Item = usize> + '_ {
        (0..self.transitions).filter(move |&t| self.put(t, p) > 0)
    }

    /// The transitions that take from the place.
    pub fn consumers(&self, p: usize) -> impl Iterator<Item = usize> + '_ {
        (0..self.transitions).filter(move |&t| self.take(t, p) > 0)
    }

    /// Whether the transition is the only one that takes from the place.
    pub fn is_only_consumer(&self, t: usize, p: usize) -> bool {
        self.consumers(p).eq([t])
    }

    pub fn drop_transition(&mut self, t: usize) {
        let end = row_start(self.transitions);
        self.sheet.copy_within(row_start(t + 1)..end, row_start(t));
        self.transitions -= 1;
        self.sheet[row_start(self.transitions)..end].fill(0);
    }

    /// Drops all transitions but those that are to be kept.
    pub fn retain_transitions(&mut self, keep: impl Fn(&Net, usize) -> bool) {
        let mut kept = 0;
        for t in 0..self.transitions {
            if keep(self, t) {
                let start = row_start(t);
                self.sheet.copy_within(start..start + ROW, row_start(kept));
                kept += 1;
            }
        }
        self.sheet[row_start(kept)..row_start(self.transitions)].fill(0);
        self.transitions = kept;
    }

    /// Puts a transition with these weights behind the others. There must be room for it.
    pub fn append_transition(&mut self, row: &[u32; ROW]) {
        let start = row_start(self.transitions);
        self.sheet[start..start + ROW].copy_from_slice(row);
        self.transitions += 1;
    }

    /// Takes the place out of the net.
    pub fn remove_place(&mut self, p: usize) {
        self.set_mark(p, 0);
        for t in 0..self.transitions {
            self.set_take(t, p, 0);
            self.set_put(t, p, 0);
        }
        self.standing.remove(p);
    }
}

fn row_start(t: usize) -> usize {
    PLACES + t * ROW
}

/// Where the weights are not 0.
fn nonzero(weights: &[u32]) -> impl Iterator<Item = usize> + '_ {
    weights
        .iter()
        .enumerate()
        .filter(|(_, &weight)| weight > 0)
        .map(|(place, _)| place)
}
