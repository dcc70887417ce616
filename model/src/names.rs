//! The rules' names, as the modules of this package use them.

pub use ::rules::{descriptors, streams};

/// 01's names, as the modules here use them.
pub mod rules {
    pub use ::rules::state::{Rules, Said, Session, Splicer, State, LARGEST_SIZE, ROOM};
    pub use ::rules::times::{ninths, MICROSECOND, NONE, SECOND, TICK};
}

/// 02, CR 6.
pub mod config {
    pub use ::rules::config::{nothing, MOST_SECTION};
    pub use ::rules::reading::MOST_HARDWARE;
    pub use ::rules::state::Maps;
}

/// 02, CR 8.
pub mod lately {
    pub use ::rules::lately::{KEPT, NOT_SIXTEEN};
    pub use ::rules::state::{By, Ended, Row};
}

/// Reading by the right rules.
pub mod reading {
    pub use ::rules::requests::{Read, Request, SpliceFields, Tail, Why};
    use ::rules::right::READING;

    pub fn read(id: u16, data: &[u8]) -> Read {
        READING.read(id, data)
    }

    /// The fields of a readable Splice_Request.
    pub fn splice(bytes: &[u8]) -> Option<SpliceFields> {
        let id = u16::from_be_bytes([bytes[0], bytes[1]]);
        match read(id, &bytes[8..]) {
            Ok(Request::Splice(fields)) if id == 0x0007 => Some(fields),
            _ => None,
        }
    }

    pub fn tail_of(data: &[u8]) -> Result<Tail<'_>, Why> {
        READING.tail(data)
    }
}

/// The words of the command line. One that is no text is wrong input.
pub fn words() -> Result<Vec<String>, String> {
    let words = std::env::args_os().skip(1).map(|word| word.into_string());
    words.map(|word| word.map_err(|own| format!("no text: {own:?}"))).collect()
}

/// Output that nobody takes any more, or that no disk holds: one line and status 2, where `println!` would panic.
pub fn unwritten(program: &'static str) {
    let usual = std::panic::take_hook();
    std::panic::set_hook(Box::new(move |panic| match panic.payload().downcast_ref::<String>() {
        Some(text) if text.starts_with("failed printing to stdout") => {
            eprintln!("{program}: {text}");
            std::process::exit(2);
        }
        _ => usual(panic),
    }));
}

/// Takes `--name value` out of the arguments.
pub fn option(args: &mut Vec<String>, name: &str) -> Result<Option<String>, String> {
    let Some(place) = args.iter().position(|a| a == name) else {
        return Ok(None);
    };
    if place + 1 >= args.len() {
        return Err(format!("{name} needs a value"));
    }
    args.remove(place);
    Ok(Some(args.remove(place)))
}
