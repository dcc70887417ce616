//! Writing captures: IPv4 and TCP packets without a link layer, in the classic format of pcap.

/// The splicer, and the servers from .10 on, in the addresses that are kept for examples (RFC 5737).
pub const NET: [u8; 3] = [192, 0, 2];
pub const SPLICER: u8 = 1;
pub const SERVERS: u8 = 10;
pub const PORT: u16 = 5168;

const FIN: u8 = 1;
const SYN: u8 = 2;
const PUSH: u8 = 8;
const ACK: u8 = 16;

/// A TCP connection: its server's number and port, and the next byte's number on each side.
#[derive(Clone, Copy)]
pub struct Flow {
    server: u8,
    port: u16,
    from_server: u32,
    from_splicer: u32,
}

pub struct Writer {
    pub bytes: Vec<u8>,
    pub clock: (u32, u32),
    pieces: usize,
    opened: u16,
}

/// The ones' complement sum of TCP and IP.
fn sum(parts: &[&[u8]]) -> u16 {
    let mut total = 0u32;
    for part in parts {
        for two in part.chunks(2) {
            let low = two.get(1).copied().unwrap_or(0);
            total += u32::from(u16::from_be_bytes([two[0], low]));
        }
    }
    while total > 0xFFFF {
        total = (total & 0xFFFF) + (total >> 16);
    }
    !(total as u16)
}

impl Writer {
    pub fn new(pieces: usize) -> Writer {
        // magic number of microseconds, version 2.4, zone, accuracy, length, raw IP
        let words = [0xA1B2_C3D4, 0x0002_0004, 0, 0, 65_535, 101];
        let bytes = words.iter().flat_map(|w: &u32| w.to_be_bytes()).collect();
        Writer {
            bytes,
            clock: (0, 0),
            pieces,
            opened: 0,
        }
    }

    /// A server connects: three packets.
    pub fn open(&mut self, conn: u8) -> Flow {
        self.opened += 1;
        let mut flow = Flow {
            server: SERVERS + conn,
            port: 40_000 + self.opened % 20_000,
            from_server: 1_000,
            from_splicer: 2_000,
        };
        self.packet(&flow, true, SYN, &[]);
        flow.from_server += 1;
        self.packet(&flow, false, SYN | ACK, &[]);
        flow.from_splicer += 1;
        self.packet(&flow, true, ACK, &[]);
        flow
    }

    pub fn data(&mut self, flow: &mut Flow, from_server: bool, bytes: &[u8]) {
        for piece in bytes.chunks(self.pieces) {
            self.packet(flow, from_server, PUSH | ACK, piece);
            match from_server {
                true => flow.from_server += piece.len() as u32,
                false => flow.from_splicer += piece.len() as u32,
            }
        }
    }

    /// The server goes: three packets.
    pub fn close(&mut self, mut flow: Flow) {
        self.packet(&flow, true, FIN | ACK, &[]);
        flow.from_server += 1;
        self.packet(&flow, false, FIN | ACK, &[]);
        flow.from_splicer += 1;
        self.packet(&flow, true, ACK, &[]);
    }

    fn packet(&mut self, flow: &Flow, from_server: bool, flags: u8, data: &[u8]) {
        let (server, splicer) = ((flow.server, flow.port), (SPLICER, PORT));
        let (from, to, sequence, acknowledged) = match from_server {
            true => (server, splicer, flow.from_server, flow.from_splicer),
            false => (splicer, server, flow.from_splicer, flow.from_server),
        };
        let address = |of: u8| [NET[0], NET[1], NET[2], of];
        let mut tcp = [from.1.to_be_bytes(), to.1.to_be_bytes()].concat();
        tcp.extend(sequence.to_be_bytes());
        let acknowledged = if flags == SYN { 0 } else { acknowledged };
        tcp.extend(acknowledged.to_be_bytes());
        tcp.extend([5 << 4, flags, 0xFF, 0xFF, 0, 0, 0, 0]);
        let length = (tcp.len() + data.len()) as u16;
        let (source, target) = (address(from.0), address(to.0));
        let pseudo = [&source[..], &target, &[0, 6], &length.to_be_bytes()].concat();
        let check = sum(&[&pseudo, &tcp, data]);
        tcp[16..18].copy_from_slice(&check.to_be_bytes());
        let mut ip = vec![0x45, 0];
        ip.extend((length + 20).to_be_bytes());
        ip.extend([0, 0, 0x40, 0, 64, 6, 0, 0]);
        ip.extend([source, target].concat());
        let check = sum(&[&ip]);
        ip[10..12].copy_from_slice(&check.to_be_bytes());
        let whole = [&ip[..], &tcp, data].concat();
        let size = whole.len() as u32;
        for word in [self.clock.0, self.clock.1, size, size] {
            self.bytes.extend(word.to_be_bytes());
        }
        self.bytes.extend(whole);
    }
}
