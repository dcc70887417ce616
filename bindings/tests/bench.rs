//! The wrapper of the checker, on the recordings whose findings were worked out by hand; that of the
//! engine that only remembers, with values by hand from documents 01 and 02; and their numbers and
//! declarations beside those of the header.
#![cfg(feature = "bench")]

use splicer::bench::{check, raw, Finding, Recall, Refused, LOG, RECORDING, VERSION};
use splicer::{message_id, name, records, Handled, Maps, Refusal, Splicer, MAP_SECTION, OUT};
use std::fs;
use std::path::Path;

const HEADER: &str = include_str!("../../include/splicer_bench.h");
const SOURCES: [&str; 2] = [
    include_str!("../src/bench.rs"),
    include_str!("../src/bench/raw.rs"),
];

/// The line that the checker program writes.
fn line(found: Finding) -> String {
    match found {
        Finding::Longer => "refused 15".to_string(),
        Finding::Unknown(at) => format!("refused 14 at {at}"),
        Finding::Differs(call) => format!("call {call}"),
        Finding::None => "none".to_string(),
    }
}

/// Each row of a list is a file of its folder and the line that is wanted of it. Gives how many.
fn held_to(folder: &Path, list: &str) -> usize {
    let rows = fs::read_to_string(folder.join(list)).unwrap();
    for row in rows.lines() {
        let (file, wanted) = row.split_once(' ').unwrap();
        let recording = fs::read(folder.join(file)).unwrap();
        assert_eq!(line(check(&recording)), wanted, "{file}");
    }
    rows.lines().count()
}

#[test]
fn findings_by_hand() {
    let folder = Path::new(env!("CARGO_MANIFEST_DIR")).join("../examples/recordings");
    assert!(held_to(&folder, "findings") > 20);
}

/// Of a folder that the second program wrote (`model recordings --out`), if SPLICER_RECORDINGS names one.
#[test]
fn findings_of_the_second_program() {
    if let Some(folder) = std::env::var_os("SPLICER_RECORDINGS") {
        assert!(held_to(Path::new(&folder), "lines.txt") > 100);
    }
}

#[test]
fn lengths() {
    let opens = [0x4F, 0].repeat(RECORDING / 2 + 1);
    assert_eq!(check(&[]), Finding::None);
    assert_eq!(check(&opens[..RECORDING]), Finding::Differs(2));
    assert_eq!(check(&opens[..RECORDING + 1]), Finding::Longer);
    assert_eq!(check(&opens[..RECORDING + 1]).house_number(), 15);
}

/// The archive of the card stands beside it in one program.
#[test]
fn beside_the_card() {
    let (mut channel, made) = Splicer::fresh(&name(b"CH1"));
    assert_eq!(made, Ok(()));
    assert_eq!(check(&[0x4F, 0]), Finding::None);
    assert!(channel.open(0).is_ok());
    assert_eq!(check(&[0x4F, 0, 0x45, 6]), Finding::Differs(1));
    assert!(channel.open(0).is_err());
}

#[test]
fn numbers_of_the_header() {
    assert!(HEADER.contains(&format!("SPLICER_RECORDING = {RECORDING},")));
    let unknown = Finding::Unknown(0).house_number();
    assert!(HEADER.contains(&format!("SPLICER_UNKNOWN_MARK = {unknown},")));
    let longer = Finding::Longer.house_number();
    assert!(HEADER.contains(&format!("SPLICER_LONG_RECORDING = {longer} ")));
    assert!(HEADER.contains(&format!("SPLICER_LOG = {LOG},")));
    let full = Refused::Full.number();
    assert!(HEADER.contains(&format!("SPLICER_LOG_FULL = {full} ")));
    assert!(HEADER.contains(&format!("#define SPLICER_BENCH_VERSION {VERSION}\n")));
}

/// What stands in the parentheses behind a text, part by part.
fn parts<'t>(text: &'t str, before: &str) -> Vec<&'t str> {
    let (_, rest) = text.split_once(before).expect(before);
    let (_, list) = rest.split_once('(').expect(before);
    let list = list.split_once(')').expect(before).0;
    let list = list.split(',').map(str::trim).filter(|p| !p.is_empty());
    list.collect()
}

#[test]
fn the_functions_are_declared_as_in_the_header() {
    let own = SOURCES.concat();
    let mut calls: Vec<String> = Vec::new();
    calls
        .extend(["fresh", "open", "close", "message", "tick"].map(|call| format!("recall_{call}")));
    calls.extend(["fresh", "feed", "end", "due"].map(|call| format!("referee_{call}")));
    for call in [&["check".to_string()], &calls[..]].concat() {
        let linked = format!("splicer_bench_{VERSION}_{call}");
        let kind = |part: &str| {
            let of = part.split_once(": ").expect(part).1;
            of.replace("*const u8", "const uint8_t *")
                .replace("*const u64", "const uint64_t *")
                .replace("*mut u8", "uint8_t *")
                .replace("*mut u64", "uint64_t *")
                .replace("u32", "uint32_t ")
                .replace("usize", "size_t ")
        };
        let here = parts(&own, &format!("#[link_name = \"{linked}\"]"));
        let declared = parts(HEADER, &format!("void {linked}"));
        assert_eq!(here.len(), declared.len(), "{call}");
        for (here, declared) in here.into_iter().map(kind).zip(declared) {
            let name = declared.strip_prefix(&here);
            let named = name.is_some_and(|n| n.chars().all(|c| c.is_alphabetic() || c == '_'));
            assert!(named, "{call}: {here} {declared}");
        }
    }
    assert_eq!(own.matches("link_name").count(), 1 + calls.len());
    assert_eq!(HEADER.matches("\nvoid ").count(), 1 + calls.len());
}

// ---- the engine that only remembers

const ALIVE: [u8; 16] = [0, 5, 0, 8, 255, 255, 255, 255, 0, 0, 0, 0, 0, 0, 0, 0];
/// General_Response 103 to connection 0: it is not initialised.
const DENIED: [u8; 10] = [0x52, 0, 0, 0, 0, 0, 0, 103, 0xFF, 0xFF];

fn card(refusal: Refusal) -> Refused {
    Refused::Card(refusal)
}

/// A log with these calls, zeros behind them.
fn log_of(calls: &[u8]) -> Vec<u8> {
    let mut log = calls.to_vec();
    log.resize(LOG, 0);
    log
}

fn message(id: u16, data: &[u8]) -> Vec<u8> {
    let size = data.len() as u16;
    let head = [id.to_be_bytes(), size.to_be_bytes()].concat();
    [&head[..], &[0xFF; 4], data].concat()
}

/// An Init_Request with the Hardware_Config 00 02 07 and a last byte.
fn init(last: u8) -> Vec<u8> {
    let names = [name(b"CH1"), name(b"SERVER")].concat();
    message(
        message_id::INIT_REQUEST,
        &[&[0, 2], &names[..], &[0, 2, 7, last]].concat(),
    )
}

/// A Splice_Request, timed, or linked to a session; SpliceEventID 77.
fn splice(id: u32, prior: Option<u32>, start: u32, ticks: u32, access: u8, over: u8) -> Vec<u8> {
    let mut data = Vec::new();
    for word in [id, prior.unwrap_or(u32::MAX), start, 0] {
        data.extend(word.to_be_bytes());
    }
    data.extend([0, 1]);
    for word in [ticks, 77, 0] {
        data.extend(word.to_be_bytes());
    }
    data.extend([access, over, 1]);
    message(message_id::SPLICE_REQUEST, &data)
}

fn abort(id: u32) -> Vec<u8> {
    message(message_id::ABORT_REQUEST, &id.to_be_bytes())
}

fn extended(id: u32) -> Vec<u8> {
    let data = [id.to_be_bytes(), [0xFF; 4]].concat();
    message(message_id::EXTENDED_DATA_REQUEST, &data)
}

/// A message with MessageID 0x0000, which gets no answer, and a MessageSize.
fn quiet(size: usize) -> Vec<u8> {
    message(message_id::GENERAL_RESPONSE, &vec![0xEE; size])
}

/// A message as it is kept.
fn kept(connection: u8, message: &[u8]) -> Vec<u8> {
    [&[0x4D, connection], message].concat()
}

#[test]
fn the_whole_case_of_01_is_remembered() {
    let mut out = [0xAA; OUT];
    let mut bench = Recall::new();
    assert_eq!(bench.log(), log_of(&[]));
    assert_eq!(bench.open(0), Ok(()));
    let handled = bench.message(0, &ALIVE, &mut out).unwrap();
    let wanted = Handled {
        consumed: 16,
        written: &DENIED,
        moved: 0,
    };
    assert_eq!(handled, wanted);
    assert!(out[10..].iter().all(|b| *b == 0xAA));
    assert_eq!(bench.close(0, &mut out), Ok(&b""[..]));
    assert_eq!(bench.close(0, &mut out), Err(card(Refusal::NotOpen)));
    // The refused one is not kept.
    let calls = [&[0x4F, 0], &kept(0, &ALIVE)[..], &[0x43, 0]].concat();
    assert_eq!(bench.log(), log_of(&calls));
    assert_eq!(Recall::from_log(bench.log()), Some(bench));
}

/// What a message call is lent, a section among it, and its house number.
type Lent<'l> = (u32, &'l [u8], &'l [u8], usize, u8);

#[test]
fn each_refusal_of_the_card_leaves_the_log() {
    let mut out = [0xAA; OUT];
    let mut bench = Recall::new();
    bench.open(0).unwrap();
    bench.message(0, &init(9), &mut out).unwrap();
    bench.tick(1000, 0, &mut out).unwrap();
    let before = bench.clone();
    out.fill(0xAA);
    assert_eq!(bench.open(4), Err(card(Refusal::NoConnection)));
    assert_eq!(bench.open(u32::MAX), Err(card(Refusal::NoConnection)));
    assert_eq!(bench.open(0), Err(card(Refusal::AlreadyOpen)));
    let closes = [(4, 0, 1), (1, OUT - 1, 2), (1, OUT, 7)];
    for (connection, room, number) in closes {
        let reply = bench.close(connection, &mut out[..room]);
        assert_eq!(reply.unwrap_err().number(), number);
    }
    let ticks = [
        (0, 9_999_999, 0, 2),
        (0, 1_000_000, OUT, 8),
        (999, 999_999, OUT, 3),
    ];
    for (seconds, micros, room, number) in ticks {
        let reply = bench.tick(seconds, micros, &mut out[..room]);
        assert_eq!(reply.unwrap_err().number(), number);
    }
    let huge = [0, 5, 0x0F, 0xF9, 0, 0, 0, 0];
    let long = [0; MAP_SECTION + 1];
    let messages: [Lent; 8] = [
        (256, &huge, &long, 0, 1),
        (1, &huge, &long, OUT - 1, 2),
        (1, &huge, &long, OUT, 7),
        (0, &[], &long, OUT, 10),
        (0, &[], &[], OUT, 5),
        (0, &huge[..7], &long[1..], OUT, 5),
        (0, &huge, &[], OUT, 4),
        (0, &ALIVE[..15], &[], OUT, 5),
    ];
    for (connection, read, section, room, number) in messages {
        let feeds = [(section, &[][..]), (&[], section)];
        for (primary, insertion) in feeds {
            let maps = Maps { primary, insertion };
            let reply = bench.message_with(connection, read, maps, &mut out[..room]);
            assert_eq!(reply.unwrap_err().number(), number);
        }
    }
    assert_eq!(bench, before, "a refused call is not kept");
    assert!(out.iter().all(|b| *b == 0xAA));
}

/// All calls that it has, each good or refused by the card with another number.
fn refused_as_full(bench: &mut Recall) {
    let before = bench.clone();
    let mut out = [0xAA; OUT];
    for connection in [0, 1, 2, 3, 4, u32::MAX] {
        assert_eq!(bench.open(connection), Err(Refused::Full));
        for room in [0, OUT - 1, OUT] {
            let lent = &mut out[..room];
            assert_eq!(bench.close(connection, lent), Err(Refused::Full));
            for read in [&b""[..], &ALIVE, &[0, 5, 0xFF, 0xFF, 0, 0, 0, 0]] {
                let reply = bench.message(connection, read, lent);
                assert_eq!(reply, Err(Refused::Full));
            }
            assert_eq!(bench.tick(0, 0, lent), Err(Refused::Full));
            assert_eq!(bench.tick(0, 1_000_000, lent), Err(Refused::Full));
            assert_eq!(bench.tick(u32::MAX, 0, lent), Err(Refused::Full));
        }
    }
    assert_eq!(*bench, before, "13 leaves the log");
    assert!(out.iter().all(|b| *b == 0xAA), "and writes nothing");
}

#[test]
fn the_256th_call_is_answered_and_the_next_gets_13() {
    let mut out = [0; OUT];
    let mut bench = Recall::new();
    for _ in 0..127 {
        assert_eq!(bench.open(0), Ok(()));
        assert_eq!(bench.close(0, &mut out), Ok(&b""[..]));
        assert_eq!(bench.open(4), Err(card(Refusal::NoConnection)));
    }
    assert_eq!(bench.open(0), Ok(()));
    // 255 are kept, and connection 0 is open: what is refused is still the card's to refuse.
    assert_eq!(bench.open(0), Err(card(Refusal::AlreadyOpen)));
    assert_eq!(bench.open(4), Err(card(Refusal::NoConnection)));
    let handled = bench.message(0, &ALIVE, &mut out).unwrap();
    assert_eq!(handled.written, DENIED);
    let pairs = [0x4F, 0, 0x43, 0].repeat(127);
    let calls = [&pairs, &[0x4F, 0][..], &kept(0, &ALIVE)].concat();
    assert_eq!(bench.log(), log_of(&calls));
    refused_as_full(&mut bench);
    // Fresh forgets what is kept.
    bench.fresh();
    assert_eq!(bench.log(), log_of(&[]));
    assert_eq!(bench.open(0), Ok(()));
}

/// Connection 0 is open, and quiet messages fill the log but for 4,098 bytes and `more`:
/// 2 + 14 * 4,098 + 10 + 4,054 = 61,438 = 65,536 - 4,098.
fn nearly_full(more: isize) -> (Recall, Vec<u8>) {
    let last = 4054usize.checked_add_signed(-more).unwrap();
    let mut calls = vec![0x4F, 0];
    let mut out = [0; OUT];
    let mut bench = Recall::new();
    bench.open(0).unwrap();
    for size in [[4088; 14].as_slice(), &[last]].concat() {
        let handled = bench.message(0, &quiet(size), &mut out).unwrap();
        assert_eq!(handled.consumed, 8 + size);
        assert_eq!(handled.written, b"");
        calls.extend(kept(0, &quiet(size)));
    }
    assert_eq!(calls.len() as isize, 61_438 - more);
    assert_eq!(bench.log(), log_of(&calls));
    (bench, calls)
}

#[test]
fn the_largest_message_fills_the_log_to_its_last_byte() {
    let mut out = [0; OUT];
    let (mut bench, calls) = nearly_full(0);
    assert_eq!(bench.open(0), Err(card(Refusal::AlreadyOpen)));
    let handled = bench.message(0, &quiet(4088), &mut out).unwrap();
    assert_eq!((handled.consumed, handled.written), (4096, &b""[..]));
    let all = [calls, kept(0, &quiet(4088))].concat();
    assert_eq!(all.len(), LOG);
    assert_eq!(bench.log(), all, "no zero behind the last");
    refused_as_full(&mut bench);
    bench.fresh();
    assert_eq!(bench, Recall::new());
    // One byte more: there the zero stands.
    let (mut bench, calls) = nearly_full(1);
    bench.message(0, &quiet(4088), &mut out).unwrap();
    assert_eq!(
        bench.log(),
        log_of(&[calls, kept(0, &quiet(4088))].concat())
    );
    refused_as_full(&mut bench);
    // The shortest call takes two bytes of the 4,098.
    let (mut bench, calls) = nearly_full(0);
    assert_eq!(bench.open(3), Ok(()));
    assert_eq!(bench.log(), log_of(&[&calls[..], &[0x4F, 3]].concat()));
    refused_as_full(&mut bench);
}

#[test]
fn below_4098_free_bytes_no_call_is_kept() {
    let (mut bench, _) = nearly_full(-1);
    refused_as_full(&mut bench);
}

#[test]
fn a_log_of_another_length_gets_13() {
    let mut out = [0xAA; OUT];
    for length in [0, 1, LOG - 1, LOG + 1, 2 * LOG] {
        for first in [0x4F, 0] {
            let mut log = vec![0; length];
            log.iter_mut().take(1).for_each(|b| *b = first);
            let before = log.clone();
            assert_eq!(raw::fresh(&mut log), Err(Refused::Full));
            assert_eq!(raw::open(&mut log, 0), Err(Refused::Full));
            assert_eq!(raw::open(&mut log, 4), Err(Refused::Full));
            assert_eq!(raw::close(&mut log, 0, &mut out), Err(Refused::Full));
            let handled = raw::message(&mut log, 0, &ALIVE, Maps::default(), &mut out);
            assert_eq!(handled, Err(Refused::Full));
            assert_eq!(raw::tick(&mut log, 0, 0, &mut []), Err(Refused::Full));
            assert_eq!(log, before, "{length} bytes");
            assert_eq!(Recall::from_log(&log), None);
        }
    }
    assert!(out.iter().all(|b| *b == 0xAA));
    let mut log = vec![0xEE; LOG];
    assert_eq!(raw::fresh(&mut log), Ok(()));
    assert_eq!(log, vec![0; LOG]);
}

#[test]
fn of_what_was_read_the_first_message_is_kept() {
    let mut out = [0; OUT];
    let mut bench = Recall::new();
    bench.open(2).unwrap();
    // A second message and a piece of a third stand behind it.
    let read = [&init(9)[..], &ALIVE, &[0, 5, 0]].concat();
    let handled = bench.message(2, &read, &mut out).unwrap();
    assert_eq!(handled.consumed, 8 + 70);
    assert_eq!(records(handled.written).count(), 1);
    let calls = [&[0x4F, 2], &kept(2, &init(9))[..]].concat();
    assert_eq!(bench.log(), log_of(&calls));
    let handled = bench.message(2, &read[78..], &mut out).unwrap();
    assert_eq!(handled.consumed, 16);
    // Alive_Response 100: State 1, no session, clock 0.
    let alive = [
        0x52, 2, 0, 6, 0, 16, 0, 100, 255, 255, 0, 0, 0, 1, 255, 255, 255, 255,
    ];
    assert_eq!(handled.written, [&alive[..], &[0; 8]].concat());
    let short = bench.message(2, &read[94..], &mut out);
    assert_eq!(short, Err(card(Refusal::Short)));
    assert_eq!(bench.log(), log_of(&[calls, kept(2, &ALIVE)].concat()));
}

/// GetConfig_Response to connection 0: the name, what is kept, a section.
fn config(hardware: &[u8], section: &[u8]) -> Vec<u8> {
    let data = [&name(b"CH1")[..], hardware, section].concat();
    let size = (data.len() as u16).to_be_bytes();
    [&[0x52, 0, 0, 11], &size[..], &[0, 100, 0xFF, 0xFF], &data].concat()
}

#[test]
fn the_configuration_is_that_of_the_latest_good_init() {
    let mut out = [0; OUT];
    let mut bench = Recall::new();
    bench.open(0).unwrap();
    let maps = Maps {
        primary: &[2, 0xB0, 1],
        insertion: &[2, 0xB1],
    };
    let asks = message(message_id::GET_CONFIG_REQUEST, &[]);
    let mut wrong = init(5);
    wrong[9] = 3;
    // Revision 3 gets 102, and then what was kept before is still kept.
    for (request, hardware) in [(init(9), 9), (init(8), 8), (wrong, 8)] {
        bench.message(0, &request, &mut out).unwrap();
        let answer = bench.message_with(0, &asks, maps, &mut out).unwrap();
        assert_eq!(answer.written, config(&[0, 2, 7, hardware], maps.primary));
    }
    bench.tick(1000, 0, &mut out).unwrap();
    let request = splice(1, None, 1003, 90_000, 1, 0);
    bench.message(0, &request, &mut out).unwrap();
    bench.tick(1003, 0, &mut out).unwrap();
    let answer = bench.message_with(0, &asks, maps, &mut out).unwrap();
    assert_eq!(answer.written, config(&[0, 2, 7, 8], maps.insertion));
    let none = bench.message(0, &asks, &mut out).unwrap();
    assert_eq!(none.written, config(&[0, 2, 7, 8], &[]));
    // A close forgets it.
    bench.close(0, &mut out).unwrap();
    bench.open(0).unwrap();
    let denied = bench.message(0, &asks, &mut out).unwrap();
    assert_eq!(denied.written, DENIED);
}

/// A record of a session to connection 0, without its size: MessageID, result and data.
fn told(written: &[u8]) -> Vec<(u16, u16, Vec<u8>)> {
    let mut walk = records(written);
    let list = walk.by_ref();
    let list = list.map(|r| (r.message_id, r.result, r.data.to_vec()));
    let list = list.collect();
    assert_eq!(walk.rest(), b"", "all bytes are records");
    list
}

#[test]
fn sessions_that_are_only_remembered_start_and_end() {
    let mut out = [0; OUT];
    let mut bench = Recall::new();
    bench.open(0).unwrap();
    bench.message(0, &init(9), &mut out).unwrap();
    bench.tick(1000, 0, &mut out).unwrap();
    let splices = [
        // P9 and P10: start 1,003 s, 30 s, and two behind it, link by link.
        splice(1, None, 1003, 2_700_000, 4, 0),
        splice(2, Some(1), 0, 90_000, 4, 0),
        splice(3, Some(2), 0, 90_000, 4, 0),
        // Higher, from 1,005 s for 2 s.
        splice(9, None, 1005, 180_000, 5, 1),
    ];
    // CR 11: when 9 is accepted, 2 and 3 wait and start later.
    for (request, moved) in splices.iter().zip([0, 0, 0, 2]) {
        let handled = bench.message(0, request, &mut out).unwrap();
        let id = request[8..12].to_vec();
        assert_eq!(told(handled.written), [(8, 100, id)]);
        assert_eq!(handled.moved, moved);
    }
    let written = bench.tick(1013, 0, &mut out).unwrap();
    let complete = |result, id, flag, ticks: u32| {
        let data = [&[0, 0, 0, id, flag, 0, 0, 0, 0], &ticks.to_be_bytes()[..]].concat();
        (9, result, data)
    };
    let instants = [
        complete(100, 1, 0, 0),
        complete(100, 9, 0, 0),
        complete(100, 9, 1, 180_000),
    ];
    assert_eq!(told(written), instants);
    // On air from 1,003 s to 1,005 s and from 1,007 s to 1,013 s: 8 s, 720,000 ticks.
    let handled = bench.message(0, &abort(1), &mut out).unwrap();
    let ends = [
        (15, 100, vec![0, 0, 0, 1]),
        complete(116, 1, 1, 720_000),
        (8, 116, vec![0, 0, 0, 2]),
        (8, 116, vec![0, 0, 0, 3]),
    ];
    assert_eq!(told(handled.written), ends);
    // CR 8: 720,000 is 0x000AFC80; tag 1, length 14, "CARD", SpliceEventID 77, 116.
    let handled = bench.message(0, &extended(1), &mut out).unwrap();
    let found = [
        0, 0, 0, 1, 1, 14, 0x43, 0x41, 0x52, 0x44, 0, 0, 0, 77, 0, 116, 0, 10, 0xFC, 0x80,
    ];
    assert_eq!(told(handled.written), [(4, 100, found.to_vec())]);
}

#[test]
fn at_one_instant_ends_come_before_the_start() {
    let mut out = [0; OUT];
    let mut bench = Recall::new();
    bench.open(0).unwrap();
    bench.message(0, &init(9), &mut out).unwrap();
    // Two of a second each, the second one linked: its start is the first one's end.
    for request in [
        splice(1, None, 1003, 90_000, 4, 0),
        splice(2, Some(1), 0, 90_000, 4, 0),
    ] {
        bench.message(0, &request, &mut out).unwrap();
    }
    let written = bench.tick(1005, 0, &mut out).unwrap();
    let told = told(written).into_iter();
    // Result, SessionID and flag.
    let told: Vec<_> = told.map(|(_, result, d)| (result, d[3], d[4])).collect();
    assert_eq!(told, [(100, 1, 0), (100, 1, 1), (100, 2, 0), (100, 2, 1)]);
}

/// Feeds the calls of a log to the card, as the card program reads them.
fn fed(log: &[u8]) -> Splicer {
    let (mut channel, named) = Splicer::fresh(&name(b"CH1"));
    assert_eq!(named, Ok(()));
    let mut out = [0; OUT];
    let mut at = 0;
    let word = |at: usize| u32::from_be_bytes(log[at..at + 4].try_into().unwrap());
    while at < log.len() {
        let connection = u32::from(log[at + 1]);
        match log[at] {
            0x4F => channel.open(connection).unwrap(),
            0x43 => assert!(channel.close(connection, &mut out).is_ok()),
            0x54 => assert!(channel.tick(word(at + 2), word(at + 6), &mut out).is_ok()),
            0x4D => {
                let size = 8 + usize::from(u16::from_be_bytes([log[at + 4], log[at + 5]]));
                let read = &log[at + 2..at + 2 + size];
                assert!(channel.message(connection, read, &mut out).is_ok());
                at += size;
            }
            mark => {
                assert_eq!(mark, 0, "behind the last stands a zero");
                return channel;
            }
        }
        at += if log[at] == 0x54 { 10 } else { 2 };
    }
    channel
}

/// The same question to both: the same answer, and the same bytes in the whole buffer.
fn asked(bench: &mut Recall, channel: &mut Splicer, connection: u32, read: &[u8]) {
    let (mut ours, mut theirs) = ([0x33; OUT], [0x33; OUT]);
    let answer = bench.message(connection, read, &mut ours);
    let wanted = channel.message(connection, read, &mut theirs);
    assert_eq!(answer, wanted.map_err(card));
    assert_eq!(ours, theirs);
}

#[test]
fn the_card_fed_with_the_log_answers_alike() {
    let mut out = [0; OUT];
    let mut bench = Recall::new();
    for connection in [0, 1, 3] {
        bench.open(connection).unwrap();
        bench.message(connection, &init(9), &mut out).unwrap();
    }
    bench.close(3, &mut out).unwrap();
    bench.tick(1000, 500_000, &mut out).unwrap();
    // One on air, one covered, one that waits with two followers, and two that have ended.
    for (connection, request) in [
        (0, splice(1, None, 1004, 9_000_000, 3, 0)),
        (1, splice(1, None, 1006, 4_500_000, 6, 1)),
        (0, splice(2, None, 1008, 90_000, 2, 0)),
        (1, splice(5, None, 1200, 90_000, 4, 0)),
        (1, splice(6, Some(5), 0, 90_000, 4, 0)),
        (1, splice(7, Some(6), 0, 90_000, 4, 0)),
        (0, splice(3, None, 1300, 90_000, 4, 0)),
        (0, abort(3)),
    ] {
        bench.message(connection, &request, &mut out).unwrap();
    }
    assert_eq!(bench.open(0), Err(card(Refusal::AlreadyOpen)));
    bench.tick(1010, 0, &mut out).unwrap();
    let mut channel = fed(bench.log());
    assert_eq!(channel.waiting(), [0, 3, 0, 0]);
    let asks = message(message_id::GET_CONFIG_REQUEST, &[]);
    let evicts = splice(8, None, 1200, 90_000, 5, 0);
    for read in [
        &ALIVE[..],
        &extended(2),
        &extended(3),
        &asks,
        &evicts,
        &abort(1),
    ] {
        for connection in [0, 1, 3] {
            asked(&mut bench, &mut channel, connection, read);
        }
    }
    for seconds in [1010, 1009, 1199, 2000] {
        let (mut ours, mut theirs) = ([0x33; OUT], [0x33; OUT]);
        let answer = bench.tick(seconds, 0, &mut ours);
        let wanted = channel.tick(seconds, 0, &mut theirs);
        assert_eq!(answer, wanted.map_err(card), "{seconds} s");
        assert_eq!(ours, theirs);
    }
    // The log of all calls feeds a card that has come to the same.
    assert_eq!(fed(bench.log()), channel);
}

#[test]
fn any_bytes_are_a_log() {
    let mut out = [0; OUT];
    // No call: a good one is put over them, and the zero behind it.
    let mut bench = Recall::from_log(&vec![0xEE; LOG]).unwrap();
    assert_eq!(bench.close(0, &mut out), Err(card(Refusal::NotOpen)));
    assert_eq!(bench.open(0), Ok(()));
    let left = [&[0x4F, 0, 0], &vec![0xEE; LOG - 3][..]].concat();
    assert_eq!(bench.log(), left);
    // A message header with MessageSize above 4,088 ends the list.
    let huge = [0x4D, 0, 0, 5, 0x0F, 0xF9, 0, 0, 0, 0, 0x4F, 1];
    let mut bench = Recall::from_log(&log_of(&[&[0x4F, 0], &huge[..]].concat())).unwrap();
    assert_eq!(bench.open(1), Ok(()));
    assert_eq!(bench.log()[..5], [0x4F, 0, 0x4F, 1, 0]);
    // Calls that the card refuses change no state, and each is one of the 256.
    for (refused, wanted) in [(255, Ok(())), (256, Err(Refused::Full))] {
        let mut bench = Recall::from_log(&log_of(&[0x4F, 9].repeat(refused))).unwrap();
        assert_eq!(bench.open(0), wanted);
        refused_as_full(&mut bench);
    }
}

#[test]
fn thirteen_is_no_number_of_the_card() {
    assert_eq!(Refusal::of(13), None);
    for number in (0..=12).chain(14..=20) {
        assert_eq!(Refused::of(number), Refusal::of(number).map(Refused::from));
    }
    assert_eq!(Refused::of(13), Some(Refused::Full));
    let words = "log of the remembering engine full or of another size";
    assert_eq!(Refused::Full.text(), words);
    assert_eq!(Refused::Full.to_string(), format!("refused 13: {words}"));
    let short = card(Refusal::Short).to_string();
    assert_eq!(short, "refused 5: not yet a whole message");
    assert_eq!(card(Refusal::Short).text(), Refusal::Short.text());
}
