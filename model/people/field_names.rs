//! The names of a section's fields, as `model cue --fields` takes them.

/// All that `shown.rs` gives.
#[rustfmt::skip]
const NAMES: &[&str] = &[
    "CRC_32", "alignment_stuffing", "archive_allowed_flag", "auto_return", "avail_num", "avails_expected", "command",
    "component_count", "component_tag", "cw_index", "delivery_not_restricted_flag", "descriptor_bytes", "descriptor_length",
    "descriptor_loop_length", "descriptors", "device_restrictions", "duration", "duration_flag", "encrypted_packet",
    "encryption_algorithm", "identifier", "no_regional_blackout_flag", "not_read", "out_of_network_indicator", "private_indicator",
    "program_segmentation_flag", "program_splice_flag", "protocol_version", "pts_adjustment", "pts_offset", "pts_time", "reserved",
    "section_length", "section_syntax_indicator", "segment_num", "segmentation_component_count", "segmentation_component_tag",
    "segmentation_duration", "segmentation_duration_flag", "segmentation_event_cancel_indicator", "segmentation_event_id",
    "segmentation_type_id", "segmentation_upid", "segmentation_upid_length", "segmentation_upid_type", "segments_expected",
    "splice_command_length", "splice_command_type", "splice_descriptor_tag", "splice_event_cancel_indicator", "splice_event_id",
    "splice_immediate_flag", "sub_segment_num", "sub_segments_expected", "table_id", "tier", "time_specified_flag",
    "unique_program_id", "web_delivery_allowed_flag",
];

/// The names of a list with commas between them. One that no section can have is wrong input; what a section lacks is empty.
pub fn of_list(list: &str) -> Result<Vec<String>, String> {
    let known = |name: &str| match NAMES.contains(&name) {
        true => Ok(name.to_string()),
        false => Err(format!("--fields: no field {name}")),
    };
    list.split(',').map(known).collect()
}

#[cfg(test)]
mod tests {
    use super::*;
    use std::collections::BTreeSet;

    #[test]
    fn they_are_those_that_sections_are_shown_with() {
        let source = include_str!("shown.rs").split("/// \"CUEI\"").next().expect("a part");
        let words = source.split('"').skip(1).step_by(2).filter(|word| word.chars().all(|c| c.is_alphanumeric() || c == '_'));
        let given: BTreeSet<&str> = words.chain(["not_read", "CRC_32"]).collect();
        assert_eq!(NAMES.iter().copied().collect::<BTreeSet<_>>(), given);
        assert!(of_list("tier,nosuch").is_err() && of_list("").is_err());
    }
}
