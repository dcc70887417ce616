//! The archive's referee, by its C header.

use model::referee::{Kind, Verdict};

extern "C" {
    fn held_size() -> usize;
    fn held_fresh(referee: *mut u64, name: *const u8) -> u32;
    fn held_feed(referee: *mut u64, bytes: *const u8, length: usize, words: *mut u64);
    fn held_end(referee: *const u64, words: *mut u64);
    fn held_due(referee: *const u64, due: *mut *const u8, length: *mut usize);
}

/// A referee in memory of its own: whole words, drawn before fresh.
pub struct Archive {
    state: Vec<u64>,
}

fn verdict(words: [u64; 4]) -> Verdict {
    let [kind, number, place, good] = words;
    let kinds = [Kind::InOrder, Kind::Call, Kind::Unknown, Kind::Cut];
    let kind = usize::try_from(kind).ok().and_then(|kind| kinds.get(kind));
    Verdict { kind: *kind.unwrap_or_else(|| panic!("no kind of a verdict: {words:?}")), number, place, good }
}

impl Archive {
    /// How many bytes a referee takes.
    pub fn size() -> usize {
        // SAFETY: it reads nothing.
        unsafe { held_size() }
    }

    /// A referee of this name, and the house number.
    pub fn fresh(name: &[u8; 32]) -> (Archive, u32) {
        let mut made = Archive { state: vec![0xA5A5_5A5A_0F0F_F0F0; Archive::size().div_ceil(8)] };
        // SAFETY: the state has the struct's bytes and its alignment, and the name is 32 bytes.
        let refused = unsafe { held_fresh(made.state.as_mut_ptr(), name.as_ptr()) };
        (made, refused)
    }

    pub fn feed(&mut self, bytes: &[u8]) -> Verdict {
        let mut words = [0; 4];
        // SAFETY: the state came from fresh; the bytes live through the call.
        unsafe { held_feed(self.state.as_mut_ptr(), bytes.as_ptr(), bytes.len(), words.as_mut_ptr()) };
        verdict(words)
    }

    pub fn end(&self) -> Verdict {
        let mut words = [0; 4];
        // SAFETY: the state came from fresh, and is read.
        unsafe { held_end(self.state.as_ptr(), words.as_mut_ptr()) };
        verdict(words)
    }

    /// A copy of what is still due.
    pub fn due(&self) -> Vec<u8> {
        let (mut due, mut length) = (std::ptr::null(), 0);
        // SAFETY: as above; what it points to are bytes of the state.
        unsafe {
            held_due(self.state.as_ptr(), &mut due, &mut length);
            match length {
                0 => Vec::new(),
                length => std::slice::from_raw_parts(due, length).to_vec(),
            }
        }
    }
}
