//! The right rules: each name with the function of its module.

use crate::requests::Reading;
use crate::state::{Rules, Splicer};
use crate::{answers, calls, config, cue, descriptors, ends, instants, lately, reading, sections, sleep, splice, streams};

macro_rules! right {
    ($kind:ident { $($field:ident: $value:expr,)* } $($module:ident: $($name:ident)*;)*) => {
        $kind { $($field: $value,)* $($($name: $module::$name,)*)* }
    };
}

pub const READING: Reading = right! {
    Reading {}
    reading: read read_init read_alive read_splice read_abort tail fields check hardware read_config read_extended;
    descriptors: formed is_mux mux_value mux_of;
    streams: streams stream;
};

pub const RULES: Rules = right! {
    Rules { reading: READING, sections: sections::RIGHT, }
    calls: open opened close closed message_with tick tick_refused;
    answers: answer first_answer read_and_obey obey init same_name alive;
    splice: splice splice_result wrong_number too_late collides queue_full accept start_of evict;
    instants: work_through next_instant instant ends ending end on_air_again time_on_air start may_start fail;
    instants: end_equal go_on_air pass;
    ends: followers end_followers abort aborted_end end_all_of;
    config: mux keep_hardware insertion config;
    cue: cue cue_refused cue_to;
    lately: remember unshown latest_ended extended page;
    sleep: air due sessions;
};

pub static RIGHT: Rules = RULES;

impl Splicer {
    /// Fresh by the right rules.
    pub fn fresh(name: &[u8; 32]) -> (Splicer, Option<u8>) {
        calls::fresh(name, &RIGHT)
    }
}
