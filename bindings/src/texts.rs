//! Words for the numbers of a record and of a refusal, those of `include/splicer_text.h`.

/// House numbers of documents 01 and 02.
const REFUSALS: [&str; 17] = [
    "good",
    "connection above 3",
    "output buffer below 4,096 bytes",
    "clock earlier than the present one",
    "MessageSize above 4,088",
    "not yet a whole message",
    "already open",
    "not open",
    "MicroSeconds above 999,999",
    "name without a zero byte",
    "lent section over 1,024 bytes",
    "section of another length than it says, under 20 or over 512 bytes",
    "step of the counter too long or past the last second, or no instant or a second one given",
    "log of the remembering engine full or of another size",
    "unknown mark in the recording",
    "recording longer than 65,536 bytes",
    "other than sixteen rows",
];

/// Result codes, J.280, Appendix I, from 100 on.
const RESULTS: [&str; 36] = [
    "Successful Response",
    "Unknown Failure",
    "Invalid Version",
    "Access Denied",
    "Invalid/Unknown ChannelName",
    "Invalid Physical Connection",
    "No Configuration Found",
    "Invalid Configuration",
    "Splice Failed - Unknown Failure",
    "Splice Collision",
    "No Insertion Channel Found",
    "No Primary Channel Found",
    "Splice_Request Was Too Late",
    "No Splice Point Was Found",
    "Splice Queue Full",
    "Session Playback Suspect",
    "Insertion Aborted",
    "Invalid Cue Message",
    "Splicing Device Does Not Exist",
    "Init_Request Refused",
    "Unknown MessageID",
    "Invalid SessionID",
    "Session Did Not Complete",
    "Invalid Request Message data( )",
    "Descriptor Not Implemented",
    "Channel Override",
    "Insertion Channel Started Early",
    "Playback Rate Below Threshold",
    "PMT changed",
    "Invalid message size",
    "Invalid message syntax",
    "Port Collision Error",
    "Splice Failed - EAS active",
    "Insertion Component Not Found",
    "Resources Not Available",
    "Component Mismatch",
];

/// MessageIDs, J.280, Table 7-2.
const MESSAGES: [&str; 18] = [
    "General_Response",
    "Init_Request",
    "Init_Response",
    "ExtendedData_Request",
    "ExtendedData_Response",
    "Alive_Request",
    "Alive_Response",
    "Splice_Request",
    "Splice_Response",
    "SpliceComplete_Response",
    "GetConfig_Request",
    "GetConfig_Response",
    "Cue_Request",
    "Cue_Response",
    "Abort_Request",
    "Abort_Response",
    "TearDownFeed_Request",
    "TearDownFeed_Response",
];

/// The State of an Alive_Response, J.280, Table 7-11.
const STATES: [&str; 3] = ["no output", "primary channel", "insertion"];

const fn of(words: &[&'static str], number: u32, other: &'static str) -> &'static str {
    if (number as usize) < words.len() {
        words[number as usize]
    } else {
        other
    }
}

/// A house number, in words.
pub const fn refusal(number: u32) -> &'static str {
    of(&REFUSALS, number, "no house number")
}

/// A result code, in words.
pub const fn result(result: u16) -> &'static str {
    of(
        &RESULTS,
        (result as u32).wrapping_sub(100),
        "no result code of J.280",
    )
}

/// The name of a MessageID.
pub const fn message(id: u16) -> &'static str {
    of(&MESSAGES, id as u32, "no message of J.280")
}

/// A State, in words.
pub const fn state(state: u32) -> &'static str {
    of(&STATES, state, "no state of J.280")
}
