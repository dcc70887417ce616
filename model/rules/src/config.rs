//! Configuration on request (02, CR 6): the Hardware_Config of an Init_Request, kept for its connection, the
//! two map sections that the caller lends, and GetConfig_Request over them. And what is read of the one on air (CR 5).

use crate::bytes::{Record, What};
use crate::descriptors::AVERAGE;
use crate::state::{Maps, Splicer};

/// "house number 10 for a lent section over 1,024 bytes"
pub const MOST_SECTION: usize = 1_024;

/// What is kept where no Init was good: Length 0.
pub fn nothing() -> Vec<u8> {
    vec![0, 0]
}

/// "house number 10 for a lent section over 1,024 bytes, in the message call after 7"
pub fn long_section(maps: &Maps) -> bool {
    maps.primary.len() > MOST_SECTION || maps.insertion.len() > MOST_SECTION
}

/// "A later Init that gets 100 replaces it".
pub fn keep_hardware(s: &mut Splicer, conn: u8, result: u16, hardware: &[u8]) {
    if result == 100 {
        s.hardware[usize::from(conn)] = hardware.to_vec();
    }
}

/// "Our card passes the map of the feed that is on air": the insertion's while a session is on air, of whatever connection.
pub fn insertion(s: &Splicer) -> bool {
    s.on_air().is_some()
}

impl Splicer {
    /// "and gets back the one on air, as part of what was lent"
    pub fn map<'m>(&self, maps: &Maps<'m>) -> &'m [u8] {
        match self.insertion() {
            true => maps.insertion,
            false => maps.primary,
        }
    }
}

/// "Servers ask with GetConfig_Request (0x000A, no data) and expect ChannelName, the Hardware_Config of their
/// Init_Request and the output channel's program map section."
pub fn config(s: &mut Splicer, conn: u8, maps: &Maps, out: &mut Vec<Record>) {
    let (hardware, map) = (s.hardware[usize::from(conn)].clone(), s.map(maps).to_vec());
    out.push(Record { conn, what: What::Config { result: 100, name: s.name, hardware, map } });
}

/// 02, CR 5: "the caller can read that of the one on air, 5 with none".
pub fn mux(s: &Splicer) -> u8 {
    s.on_air().map_or(AVERAGE, |session| session.mux)
}
