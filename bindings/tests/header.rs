//! The crate's numbers and its declarations of the archive's functions are those of
//! `include/splicer.h`.

use splicer::{message_id, result, Refusal, State};

const HEADER_TEXT: &str = include_str!("../../include/splicer.h");
const DOOR_TEXT: &str = include_str!("../src/door.rs");
const CALLS: [&str; 14] = [
    "fresh", "open", "close", "message", "tick", "waiting", "primary", "mux", "cue", "ended",
    "map", "air", "due", "sessions",
];
/// Those of the card with a rolling counter alone.
const ROLLING: [&str; 4] = ["rolling_fresh", "instant", "reading", "rolling_due"];
/// No calls on a splicer.
const LISTS: [&str; 2] = ["read_streams", "write_streams"];

/// Every `SPLICER_NAME = number` of the header's enums.
fn of_header() -> Vec<(String, u32)> {
    let mut found = Vec::new();
    for line in HEADER_TEXT.lines() {
        let Some((name, rest)) = line.trim().split_once(" = ") else {
            continue;
        };
        let digits = rest.split([',', ' ']).next().unwrap_or(rest);
        let number = match digits.strip_prefix("0x") {
            Some(hex) => u32::from_str_radix(hex, 16),
            None => digits.parse(),
        };
        if let (Some(name), Ok(number)) = (name.strip_prefix("SPLICER_"), number) {
            found.push((name.to_string(), number));
        }
    }
    found
}

fn sizes() -> Vec<(&'static str, u32)> {
    let list = [
        ("CONNECTIONS", splicer::CONNECTIONS),
        ("NAME", splicer::NAME),
        ("HEADER", splicer::HEADER),
        ("MESSAGE", splicer::MESSAGE),
        ("OUT", splicer::OUT),
        ("MARK", splicer::MARK),
        ("WORDS", splicer::WORDS),
        ("BYTES", splicer::BYTES),
        ("REPLY", reply_words()),
        ("MAP_SECTION", splicer::MAP_SECTION),
        ("STREAMS", splicer::STREAMS),
        ("STREAM_WORDS", splicer::STREAM_WORDS),
        ("KEPT", splicer::KEPT),
        ("MUX_AVERAGE", splicer::MUX_AVERAGE as usize),
        ("CUE_SECTION", splicer::CUE_SECTION),
        ("ROWS", splicer::ROWS),
        ("ENDED", splicer::ENDED),
        ("ENDED_WORDS", splicer::ENDED_WORDS),
        ("LONGEST_STEP", splicer::LONGEST_STEP as usize),
        ("SESSIONS", splicer::SESSIONS),
        ("SESSION_WORDS", splicer::SESSION_WORDS),
        ("ON_AIR", State::OnAir as usize),
        ("COVERED", State::Covered as usize),
        ("WAITING", State::Waiting as usize),
    ];
    list.map(|(name, size)| (name, size as u32)).to_vec()
}

/// It is private, so it is read in the source.
fn reply_words() -> usize {
    let number = between(DOOR_TEXT, "const REPLY: usize = ", ";");
    number.parse().expect("a number")
}

/// What stands between two texts, the first place where it does.
fn between<'t>(text: &'t str, before: &str, behind: &str) -> &'t str {
    let (_, rest) = text.split_once(before).expect(before);
    rest.split_once(behind).expect(behind).0
}

fn refusals() -> Vec<(&'static str, u32)> {
    let list = [
        ("NO_CONNECTION", Refusal::NoConnection),
        ("NO_ROOM", Refusal::NoRoom),
        ("CLOCK_BACK", Refusal::ClockBack),
        ("OVERSIZE", Refusal::Oversize),
        ("SHORT", Refusal::Short),
        ("ALREADY_OPEN", Refusal::AlreadyOpen),
        ("NOT_OPEN", Refusal::NotOpen),
        ("BAD_MICROS", Refusal::BadMicros),
        ("BAD_NAME", Refusal::BadName),
        ("LONG_SECTION", Refusal::LongSection),
        ("BAD_SECTION", Refusal::BadSection),
        ("COUNTER", Refusal::Counter),
        ("NOT_SIXTEEN", Refusal::NotSixteen),
    ];
    list.map(|(name, r)| (name, u32::from(r.number()))).to_vec()
}

fn ids_and_results() -> Vec<(&'static str, u32)> {
    let list = [
        ("GENERAL_RESPONSE", message_id::GENERAL_RESPONSE),
        ("INIT_REQUEST", message_id::INIT_REQUEST),
        ("INIT_RESPONSE", message_id::INIT_RESPONSE),
        ("EXTENDED_DATA_REQUEST", message_id::EXTENDED_DATA_REQUEST),
        ("EXTENDED_DATA_RESPONSE", message_id::EXTENDED_DATA_RESPONSE),
        ("ALIVE_REQUEST", message_id::ALIVE_REQUEST),
        ("ALIVE_RESPONSE", message_id::ALIVE_RESPONSE),
        ("SPLICE_REQUEST", message_id::SPLICE_REQUEST),
        ("SPLICE_RESPONSE", message_id::SPLICE_RESPONSE),
        (
            "SPLICE_COMPLETE_RESPONSE",
            message_id::SPLICE_COMPLETE_RESPONSE,
        ),
        ("CUE_REQUEST", message_id::CUE_REQUEST),
        ("CUE_RESPONSE", message_id::CUE_RESPONSE),
        ("GET_CONFIG_REQUEST", message_id::GET_CONFIG_REQUEST),
        ("GET_CONFIG_RESPONSE", message_id::GET_CONFIG_RESPONSE),
        ("ABORT_REQUEST", message_id::ABORT_REQUEST),
        ("ABORT_RESPONSE", message_id::ABORT_RESPONSE),
        ("SUCCESSFUL", result::SUCCESSFUL),
        ("INVALID_VERSION", result::INVALID_VERSION),
        ("ACCESS_DENIED", result::ACCESS_DENIED),
        ("UNKNOWN_CHANNEL", result::UNKNOWN_CHANNEL),
        ("COLLISION", result::COLLISION),
        ("TOO_LATE", result::TOO_LATE),
        ("QUEUE_FULL", result::QUEUE_FULL),
        ("ABORTED", result::ABORTED),
        ("INVALID_CUE", result::INVALID_CUE),
        ("UNKNOWN_MESSAGE", result::UNKNOWN_MESSAGE),
        ("INVALID_SESSION", result::INVALID_SESSION),
        ("INVALID_DATA", result::INVALID_DATA),
        ("OVERRIDDEN", result::OVERRIDDEN),
    ];
    list.map(|(name, n)| (name, u32::from(n))).to_vec()
}

#[test]
fn every_number_of_the_header_is_here() {
    let good = vec![("GOOD", 0)];
    let here = [sizes(), good, refusals(), ids_and_results()].concat();
    let header = of_header();
    assert_eq!(header.len(), here.len());
    for (name, number) in header {
        let own = here.iter().find(|(own, _)| *own == name);
        assert_eq!(own.map(|(_, n)| *n), Some(number), "{name}");
    }
}

/// The macros, which a preprocessor can compare, and the crate's own version.
#[test]
fn the_versions_are_one() {
    let version = splicer::VERSION;
    let defined = |text: &str| assert!(HEADER_TEXT.contains(text), "{text}");
    defined(&format!("\n#define SPLICER_VERSION {version}\n"));
    let own = env!("CARGO_PKG_VERSION");
    let minor = between(HEADER_TEXT, "#define SPLICER_VERSION_MINOR ", "\n");
    assert_eq!(own, format!("{version}.{minor}.0"));
    let number: u64 = minor.parse().expect("a number");
    assert_eq!(
        splicer::archive_version(),
        1000 * u64::from(version) + number
    );
    assert!(HEADER_TEXT.contains(&format!("\nuint64_t splicer_{version}_version(void);\n")));
    assert!(DOOR_TEXT.contains(&format!(
        "\"splicer_{version}_version\"]\n    pub fn version() -> u64;"
    )));
    defined(&format!(
        "\n#define SPLICER_VERSION_STRING \"{version}.{minor}\"\n"
    ));
}

#[test]
fn the_sizes_are_those_that_the_header_asserts() {
    let asserted = |text: &str| assert!(HEADER_TEXT.contains(text), "{text}");
    let size = size_of::<splicer::Splicer>();
    asserted(&format!("sizeof(struct splicer) == {size}"));
    let align = align_of::<splicer::Splicer>();
    asserted(&format!("SPLICER_ALIGN(struct splicer) == {align}"));
    let words = splicer::WORDS * size_of::<u64>();
    asserted(&format!("SPLICER_OFFSET(struct splicer, bytes) == {words}"));
    assert_eq!(words + splicer::BYTES, size);
    let list = size_of::<splicer::Streams>();
    asserted(&format!("sizeof(struct splicer_streams) == {list}"));
    let row = size_of::<splicer::Row>();
    asserted(&format!("sizeof(struct splicer_row) == {row}"));
}

/// A function's parameters as the header declares them, in Rust's words.
fn of_header_call(name: &str) -> Vec<&'static str> {
    let version = splicer::VERSION;
    let list = between(HEADER_TEXT, &format!(" splicer_{version}_{name}("), ")");
    let kinds = [
        ("const uint64_t *", "*const u64"),
        ("const uint8_t *", "*const u8"),
        ("const uint32_t *", "*const u32"),
        ("uint8_t *", "*mut u8"),
        ("uint64_t *", "*mut u64"),
        ("struct splicer_row *", "*mut Row"),
        ("struct splicer_session *", "*mut Held"),
        ("uint32_t ", "u32"),
        ("size_t ", "usize"),
    ];
    let kind = |text: &str| {
        let found = kinds.iter().find(|(c, _)| text.trim().starts_with(c));
        found.unwrap_or_else(|| panic!("{name}: {text}")).1
    };
    list.split(',').map(kind).collect()
}

/// Those that this crate declares under the function's link name.
fn of_door_call(name: &str) -> Vec<&'static str> {
    let version = splicer::VERSION;
    let linked = format!("#[link_name = \"splicer_{version}_{name}\"]\n    pub fn {name}(");
    let list = between(DOOR_TEXT, &linked, ")");
    let parts = list.split(',').map(str::trim).filter(|p| !p.is_empty());
    parts
        .map(|part| part.split_once(": ").expect(name).1)
        .collect()
}

/// Whether it is declared to return a number.
fn numbers(text: &str, name: &str) -> bool {
    let version = splicer::VERSION;
    let header = format!("uint64_t splicer_{version}_{name}(");
    let own = text.split_once(&format!("pub fn {name}("));
    let door = own.map(|(_, rest)| rest.split_once(')').expect(name).1.starts_with(" -> u64;"));
    door.unwrap_or_else(|| text.contains(&header))
}

#[test]
fn the_functions_are_declared_as_in_the_header() {
    let all = [&CALLS[..], &ROLLING, &LISTS].concat();
    for name in &all {
        assert_eq!(of_door_call(name), of_header_call(name), "{name}");
        assert_eq!(
            numbers(DOOR_TEXT, name),
            numbers(HEADER_TEXT, name),
            "{name}"
        );
    }
    // and `version`, which takes nothing
    assert_eq!(DOOR_TEXT.matches("link_name").count(), all.len() + 1);
    // and `replied` and `numbered`
    assert_eq!(DOOR_TEXT.matches("pub fn ").count(), all.len() + 3);
}

/// Each is declared once and called once, by the inline function of its name, and nothing else of
/// the header is left to the linker.
#[test]
fn the_header_refers_to_versioned_names_only() {
    let version = splicer::VERSION;
    for name in CALLS.iter().chain(&ROLLING) {
        let call = format!("splicer_{version}_{name}(");
        assert_eq!(HEADER_TEXT.matches(&call).count(), 2, "{call}");
        // The one without sections calls the one with them.
        let inline = match *name {
            "message" => "splicer_call_message_maps(".to_string(),
            _ => format!("splicer_call_{name}("),
        };
        let body = between(HEADER_TEXT, &inline, "\n}");
        // A call that only reads takes the splicer as const.
        let lent = body.trim_start_matches("const ");
        let own = if ROLLING.contains(name) {
            "struct splicer_rolling *r"
        } else {
            "struct splicer *s"
        };
        assert!(lent.starts_with(own), "{name}");
        let made = ["", "return ", "return (uint32_t)", "if ("]
            .iter()
            .any(|how| body.contains(&format!("    {how}{call}")));
        assert!(made, "{name}");
    }
    let functions = HEADER_TEXT.lines().filter(|line| {
        let first = line.starts_with(|c: char| c.is_ascii_lowercase());
        first && line.contains('(') && !line.starts_with("static inline ")
    });
    // and `version`
    let calls = CALLS.len() + ROLLING.len() + LISTS.len();
    assert_eq!(functions.count(), calls + 1);
    for name in LISTS {
        let call = format!("return splicer_{version}_{name}(");
        let body = between(HEADER_TEXT, &format!("splicer_call_{name}("), "\n}");
        assert!(body.contains(&call), "{name}");
    }
}

#[test]
fn a_house_number_names_its_refusal() {
    for number in (1..=12).chain([16]) {
        let refusal = Refusal::of(number).expect("1 to 12, 16");
        assert_eq!(u32::from(refusal.number()), number);
        let said = format!("refused {number}: {}", refusal.text());
        assert_eq!(refusal.to_string(), said);
    }
    assert_eq!(Refusal::of(0), None);
    assert_eq!(Refusal::of(13), None);
}
