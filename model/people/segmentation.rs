//! A segmentation_descriptor() of SCTE 35 in words: what its type, its UPID's type and its duration mean. The core does not
//! read it (02, CR 7: descriptors pass as they are).

/// segmentation_type_id.
const TYPES: &[(u64, &str)] = &[
    (0x00, "Not Indicated"),
    (0x01, "Content Identification"),
    (0x10, "Program Start"),
    (0x11, "Program End"),
    (0x12, "Program Early Termination"),
    (0x13, "Program Breakaway"),
    (0x14, "Program Resumption"),
    (0x15, "Program Runover Planned"),
    (0x16, "Program Runover Unplanned"),
    (0x17, "Program Overlap Start"),
    (0x18, "Program Blackout Override"),
    (0x19, "Program Join"),
    (0x20, "Chapter Start"),
    (0x21, "Chapter End"),
    (0x22, "Break Start"),
    (0x23, "Break End"),
    (0x24, "Opening Credit Start"),
    (0x25, "Opening Credit End"),
    (0x26, "Closing Credit Start"),
    (0x27, "Closing Credit End"),
    (0x30, "Provider Advertisement Start"),
    (0x31, "Provider Advertisement End"),
    (0x32, "Distributor Advertisement Start"),
    (0x33, "Distributor Advertisement End"),
    (0x34, "Provider Placement Opportunity Start"),
    (0x35, "Provider Placement Opportunity End"),
    (0x36, "Distributor Placement Opportunity Start"),
    (0x37, "Distributor Placement Opportunity End"),
    (0x38, "Provider Overlay Placement Opportunity Start"),
    (0x39, "Provider Overlay Placement Opportunity End"),
    (0x3A, "Distributor Overlay Placement Opportunity Start"),
    (0x3B, "Distributor Overlay Placement Opportunity End"),
    (0x3C, "Provider Promo Start"),
    (0x3D, "Provider Promo End"),
    (0x3E, "Distributor Promo Start"),
    (0x3F, "Distributor Promo End"),
    (0x40, "Unscheduled Event Start"),
    (0x41, "Unscheduled Event End"),
    (0x42, "Alternate Content Opportunity Start"),
    (0x43, "Alternate Content Opportunity End"),
    (0x44, "Provider Ad Block Start"),
    (0x45, "Provider Ad Block End"),
    (0x46, "Distributor Ad Block Start"),
    (0x47, "Distributor Ad Block End"),
    (0x50, "Network Start"),
    (0x51, "Network End"),
];

/// segmentation_upid_type.
const UPIDS: &[(u64, &str)] = &[
    (0x00, "Not Used"),
    (0x01, "User Defined"),
    (0x02, "ISCI"),
    (0x03, "Ad-ID"),
    (0x04, "UMID"),
    (0x05, "ISAN, deprecated"),
    (0x06, "ISAN"),
    (0x07, "TID"),
    (0x08, "AiringID"),
    (0x09, "ADI"),
    (0x0A, "EIDR"),
    (0x0B, "ATSC Content Identifier"),
    (0x0C, "MPU()"),
    (0x0D, "MID()"),
    (0x0E, "ADS Information"),
    (0x0F, "URI"),
    (0x10, "UUID"),
    (0x11, "SCR"),
];

/// The types of UPID that are text.
const TEXT: [u64; 7] = [0x01, 0x02, 0x03, 0x07, 0x09, 0x0E, 0x0F];

fn named(table: &[(u64, &'static str)], number: u64) -> &'static str {
    table.iter().find(|(own, _)| *own == number).map_or("reserved", |(_, name)| name)
}

pub fn type_name(number: u64) -> &'static str {
    named(TYPES, number)
}

pub fn upid_name(number: u64) -> &'static str {
    named(UPIDS, number)
}

/// Whether sub_segment_num and sub_segments_expected may stand behind: for the starts of placement opportunities,
/// advertisements and ad blocks.
pub fn has_parts(kind: u64) -> bool {
    matches!(kind, 0x30 | 0x32 | 0x34 | 0x36 | 0x38 | 0x3A | 0x44 | 0x46)
}

/// A UPID that is text, and can be shown.
pub fn upid_text(kind: u64, bytes: &[u8]) -> Option<String> {
    let text = std::str::from_utf8(bytes).ok().filter(|text| !text.is_empty() && !text.contains(char::is_control))?;
    TEXT.contains(&kind).then(|| format!("\"{text}\""))
}

/// Ticks of 90 kHz as seconds, rounded down to a microsecond.
pub fn seconds(ticks: u64) -> String {
    let micros = ticks * 100 / 9;
    format!("{}.{:06} s", micros / 1_000_000, micros % 1_000_000)
}
