//! The checker of reduction steps on Petri nets, from its proved static library.
//!
//! Both calls answer on every input, whatever the bytes and the size of the sheet. Nothing is allocated and nothing is kept between
//! calls.

use std::mem::{align_of, offset_of, size_of};

#[cfg(not(all(target_arch = "x86_64", target_pointer_width = "64")))]
compile_error!("the static library is built for x86-64");

/// The numbers of a sheet.
pub const SHEET_SIZE: usize = 12_352;

/// What a call tells beside the numbers of the sheet.
#[repr(C)]
#[derive(Clone, Copy, Debug, Default, PartialEq, Eq)]
pub struct Report {
    /// Bytes of the net stream that were used, the end command included; 0 where the net was refused.
    pub used: usize,
    /// Steps taken.
    pub taken: usize,
    /// The byte where the refused command or step starts; 0 where nothing was refused.
    pub byte: usize,
    /// The commands or steps before the refused one; 0 where nothing was refused.
    pub count: usize,
    /// The set of standing places: bit p is that of place p.
    pub standing: u64,
    /// The set of support places.
    pub support: u64,
    /// The number of the refusal; 0 where nothing was refused.
    pub number: u32,
    /// The number of the layer that refused; 0 where nothing was refused.
    pub layer: u32,
    /// The count of transitions.
    pub transitions: u32,
    /// The question: 1, 2 or 3.
    pub question: u32,
}

// The layout that the library writes. Nothing else compares it with this one.
const _: () = {
    assert!(size_of::<Report>() == 64 && align_of::<Report>() == 8);
    assert!(offset_of!(Report, used) == 0 && offset_of!(Report, taken) == 8);
    assert!(offset_of!(Report, byte) == 16 && offset_of!(Report, count) == 24);
    assert!(offset_of!(Report, standing) == 32 && offset_of!(Report, support) == 40);
    assert!(offset_of!(Report, number) == 48 && offset_of!(Report, layer) == 52);
    assert!(offset_of!(Report, transitions) == 56 && offset_of!(Report, question) == 60);
};

/// The layer that raised a refusal.
#[derive(Clone, Copy, Debug, PartialEq, Eq)]
pub enum Layer {
    Net,
    Reader,
    Book,
    Session,
}

impl Layer {
    fn of(number: u32) -> Option<Layer> {
        match number {
            1 => Some(Layer::Net),
            2 => Some(Layer::Reader),
            3 => Some(Layer::Book),
            4 => Some(Layer::Session),
            _ => None,
        }
    }
}

/// Why a command or a step was refused, and where.
#[derive(Clone, Copy, Debug, PartialEq, Eq)]
pub struct Refusal {
    pub number: u32,
    pub layer: Layer,
    pub byte: usize,
    pub count: usize,
}

impl Report {
    /// The refusal, where there is one. Its byte counts from the first byte of the net where net or reader refused, else from the first
    /// byte of the steps.
    pub fn refusal(&self) -> Option<Refusal> {
        Layer::of(self.layer).map(|layer| Refusal {
            number: self.number,
            layer,
            byte: self.byte,
            count: self.count,
        })
    }

    /// Whether the place stands.
    pub fn stands(&self, place: u32) -> bool {
        place < 64 && self.standing >> place & 1 == 1
    }

    /// Whether the place is in the support.
    pub fn supports(&self, place: u32) -> bool {
        place < 64 && self.support >> place & 1 == 1
    }
}

mod library {
    use super::Report;

    // A slice passes as a pointer and then a length.
    extern "C" {
        pub fn puffinwire_read(
            net: *const u8,
            net_length: usize,
            sheet: *mut u32,
            sheet_length: usize,
            told: *mut Report,
        );

        pub fn puffinwire_reduce(
            net: *const u8,
            net_length: usize,
            steps: *const u8,
            steps_length: usize,
            sheet: *mut u32,
            sheet_length: usize,
            told: *mut Report,
        );
    }
}

/// Reads a net stream into the sheet.
///
/// A refused stream leaves the empty net. A sheet of another size than `SHEET_SIZE` is left as it is.
pub fn read(net: &[u8], sheet: &mut [u32]) -> Report {
    let mut told = Report::default();
    // SAFETY: the library asks for pointers that are aligned and not null, for memory that is there and initialized, and that nobody
    // else uses the sheet and the report during the call. References and slices are all that, empty ones too, and that no two of them
    // overlap is what `&mut` says. The library keeps none of them.
    unsafe {
        library::puffinwire_read(
            net.as_ptr(),
            net.len(),
            sheet.as_mut_ptr(),
            sheet.len(),
            &mut told,
        );
    }
    told
}

/// Reads a net stream into the sheet, and takes steps on the net in a row until they end or one is refused.
///
/// The sheet is left with the net that stands then. Of a refused net no step is looked at, and the empty net is left. A sheet of another
/// size than `SHEET_SIZE` is left as it is.
pub fn reduce(net: &[u8], steps: &[u8], sheet: &mut [u32]) -> Report {
    let mut told = Report::default();
    // SAFETY: as in `read`.
    unsafe {
        library::puffinwire_reduce(
            net.as_ptr(),
            net.len(),
            steps.as_ptr(),
            steps.len(),
            sheet.as_mut_ptr(),
            sheet.len(),
            &mut told,
        );
    }
    told
}

#[cfg(test)]
mod tests {
    use super::*;

    // Three places in a row, joined by two transitions; the last place is in the support. The question is reach.
    const RELAY: [u8; 42] = [
        0x10, 0, 0, 0, 1, 0, 0x10, 0, 0, 0, 0, 0, 0x10, 0, 0, 0, 0, 1, 0x11, 0x11, 0x12, 0, 0, 0,
        1, 0x13, 0, 1, 0, 1, 0x12, 1, 1, 0, 1, 0x13, 1, 2, 0, 1, 0x1f, 1,
    ];

    const TAKES: usize = 64;
    const PUTS: usize = 128;

    #[test]
    fn a_net_is_read() {
        let mut sheet = [7; SHEET_SIZE];
        let told = read(&RELAY, &mut sheet);
        assert_eq!(told.refusal(), None);
        assert_eq!((told.used, told.taken), (42, 0));
        assert_eq!((told.standing, told.support), (0b111, 0b100));
        assert_eq!((told.transitions, told.question), (2, 1));
        assert_eq!(sheet[..3], [1, 0, 0]);
        assert_eq!(sheet.iter().sum::<u32>(), 5);
    }

    #[test]
    fn a_step_is_taken() {
        let mut sheet = [7; SHEET_SIZE];
        let told = reduce(&RELAY, &[0x2b, 1], &mut sheet);
        assert_eq!(told.refusal(), None);
        assert_eq!((told.used, told.taken, told.transitions), (42, 1, 1));
        assert!(told.stands(0) && !told.stands(1) && told.stands(2) && !told.stands(64));
        assert!(told.supports(2) && !told.supports(0) && !told.supports(200));
        assert_eq!(sheet[0], 1);
        assert_eq!((sheet[TAKES], sheet[PUTS + 2]), (1, 1));
        assert_eq!(sheet.iter().sum::<u32>(), 3);
    }

    #[test]
    fn a_refused_step_is_told() {
        let mut sheet = [0; SHEET_SIZE];
        let told = reduce(&RELAY, &[0x2b, 1, 0x2a, 0], &mut sheet);
        let refusal = Refusal {
            number: 17,
            layer: Layer::Book,
            byte: 2,
            count: 1,
        };
        assert_eq!(told.refusal(), Some(refusal));
        assert_eq!((told.taken, told.transitions), (1, 1));
        let told = reduce(&RELAY, &[0x2b], &mut sheet);
        assert_eq!((told.number, told.layer, told.byte), (2, 4, 0));
    }

    #[test]
    fn a_refused_net_is_told() {
        let mut sheet = [7; SHEET_SIZE];
        let told = reduce(&RELAY[..20], &[0x2b, 1], &mut sheet);
        let refusal = Refusal {
            number: 2,
            layer: Layer::Reader,
            byte: 20,
            count: 5,
        };
        assert_eq!(told.refusal(), Some(refusal));
        assert_eq!((told.used, told.standing, told.transitions), (0, 0, 0));
        assert!(sheet.iter().all(|&number| number == 0));
    }

    #[test]
    fn empty_and_short_slices_are_answered() {
        let mut sheet = [7; SHEET_SIZE + 1];
        for size in [0, 1, SHEET_SIZE - 1, SHEET_SIZE + 1] {
            let told = reduce(&RELAY, &[], &mut sheet[..size]);
            let refusal = Refusal {
                number: 1,
                layer: Layer::Net,
                byte: 0,
                count: 0,
            };
            assert_eq!(told.refusal(), Some(refusal));
            assert_eq!(read(&[], &mut sheet[..size]), told);
        }
        assert!(sheet.iter().all(|&number| number == 7));
        let told = read(&[], &mut sheet[..SHEET_SIZE]);
        assert_eq!(
            (told.number, told.layer, told.byte, told.count),
            (2, 2, 0, 0)
        );
        assert_eq!(sheet[SHEET_SIZE - 1..], [0, 7]);
    }
}
