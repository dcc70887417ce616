//! The faults of the rules: each changes one of them.

use super::mistakes::{dashed, mistakes};
use super::{answers::*, instants::*, reading::*, sleep::*};
use rules::bytes::word;
use rules::calls::text_of;
use rules::config::nothing;
use rules::descriptors::{AVERAGE, SAPI};
use rules::ends::complete;
use rules::reading::MOST_HARDWARE;
use rules::requests::{Request, SpliceFields};
use rules::right::RULES;
use rules::state::{First, Rules, Session, State};
use rules::streams::{LARGEST_PID, LEAST, MOST};
use rules::times::{wire, HORIZON, MICROSECOND, NONE, SECOND, TICK};
use rules::{answers, calls, config, descriptors, ends, instants, lately, reading, sleep, splice};
use std::sync::OnceLock;

// on a command line `OnlyDirectFollower` is `only-direct-follower`
mistakes! { Fault, FAULTS, Rules, RULES;
    LowestEndsFirst: "ends at one instant from the lowest AccessType up",
        |r| r.ending = |s, time| { let mut all = instants::ending(s, time); all.reverse(); all };
    OnlyDirectFollower: "only the direct follower ends",
        |r| r.followers = |s, of| { let mut all = ends::followers(s, of); all.retain(|session| session.prior == of.id); all };
    CountedAfterEviction: "114 counted after the eviction", |r| r.queue_full = counted_after_eviction;
    EqualStartsWithoutFlag: "an equal AccessType wins at a start with OverridePlaying 0",
        |r| r.may_start = equal_starts_without_flag;
    PlayedInMicroseconds: "PlayedDuration through whole microseconds",
        |r| r.time_on_air = |s, session, time| instants::time_on_air(s, session, time) / MICROSECOND * MICROSECOND;
    StartBeforeEnds: "the start before the ends at one instant", |r| r.instant = start_before_ends;
    ThreeSecondsTooLate: "3 s exactly is too late",
        |r| r.too_late = |s, conn, fields| fields.prior == NONE && s.start_of(conn, fields) <= s.clock + 3 * SECOND;
    WholeNameCompared: "all 32 bytes of a name compared", |r| r.same_name = |s, name| name == &s.name;
    OwnCollisionsOnly: "109 looks at its own connection only", |r| r.collides = own_collisions_only;
    CoveredAbortCompletes: "a covered session's abort gives SpliceComplete", |r| r.aborted_end = covered_abort_completes;
    CloseWaitingFirst: "close writes the waiting before the started", |r| r.end_all_of = close_waiting_first;
    CoveredEnd100: "a covered end gives 100", |r| r.end = covered_end_100;
    NeverOnAirAgain: "the covered one is not on air again", |r| r.on_air_again = |_, _| false;
    OnePool: "one pool of 64 without reserved places", |r| r.queue_full = one_pool;
    TwentyOneWaiting: "21 waiting allowed", |r| r.queue_full = |s, conn, _| full_by(s.waiting_counts(), conn, 21, 10);
    LinkedMicrosChecked: "MicroSeconds checked in a linked request", |r| r.reading.check = linked_micros_checked;
    Descriptor255: "descriptor length 255 accepted", |r| r.reading.formed = descriptor_255;
    AliveWholeSeconds: "Alive shows whole seconds only", |r| r.alive = alive_whole_seconds;
    EvictedAfterAnswer: "the evicted written after the 100", |r| r.splice = evicted_after_answer;
    FollowersElsewhere: "followers across connections",
        |r| r.followers = |s, of| followers_by(s, of, |other, _| other.state == State::Waiting);
    FollowersOfStarted: "followers also through a started session's PriorSession",
        |r| r.followers = |s, of| followers_by(s, of, |other, of| other.conn == of.conn);
    FailedInitUndoes: "a failed later Init un-initialises", |r| r.read_and_obey = failed_init_undoes;
    CueSilentBeforeInit: "0x000D unanswered also before Init",
        |r| r.first_answer = |s, conn, id| match id { 0x000D => First::Silence, _ => answers::first_answer(s, conn, id) };
    LateBeforeNumbers: "112 before 121",
        |r| r.splice_result = |s, conn, fields| if s.too_late(conn, fields) { 112 } else { splice::splice_result(s, conn, fields) };
    CollisionBeforeLate: "109 before 112", |r| r.splice_result = collision_before_late;
    EvictionLeavesFollowers: "an eviction leaves the followers waiting", |r| r.evict = eviction_leaves_followers;
    AbortedFollowers109: "followers end with 109 after an abort",
        |r| r.end_followers = |s, of, _, out| { ends::end_followers(s, of, 109, out); };
    CoveredTimePlayed: "covered time counts as played", |r| r.time_on_air = |_, session, time| time - session.start;
    ReopenedInitialised: "a connection opened again is still initialised",
        |r| r.opened = |s, conn| { s.open[usize::from(conn)] = true; };
    FollowersLastFirst: "followers end from the last start back",
        |r| r.followers = |s, of| { let mut all = ends::followers(s, of); all.reverse(); all };
    ClockBeforeMicros: "tick looks at 3 before 8", |r| r.tick_refused = clock_before_micros;
    NextStructureTooFar: "the next structure one too far",
        |r| r.reading.streams = |r, bytes| list_by(r, bytes, LARGEST_PID, MOST as u64, 1);
    Length20Taken: "a structure of Length 20 taken",
        |r| r.reading.stream = |_, bytes| one_by(bytes, LEAST - 1, LARGEST_PID, 0xFFFE);
    PidCountUnchecked: "PIDCount unchecked",
        |r| r.reading.streams = |r, bytes| list_by(r, bytes, LARGEST_PID, u64::MAX, 0);
    TailAt18: "the tail read at 18, with separate PIDs too", |r| r.reading.tail = tail_at_18;
    PcrPidUnchecked: "PcrPID 0x2000 taken", |r| r.reading.streams = |r, bytes| list_by(r, bytes, u64::MAX, MOST as u64, 0);
    PidUnchecked: "PID 0x2000 taken", |r| r.reading.stream = |_, bytes| one_by(bytes, LEAST, u64::MAX, 0xFFFE);
    StreamTypeUnchecked: "StreamType 0xFFFF taken",
        |r| r.reading.stream = |_, bytes| one_by(bytes, LEAST, LARGEST_PID, u64::MAX);
    UnknownRateRefused: "a rate of 0xFFFFFFFF refused", |r| r.reading.stream = unknown_rate_refused;
    SeparatePids110: "110 for separate PIDs", |r| r.splice_result = separate_pids_110;
    MuxValue0: "muxpriority value 0 taken",
        |r| r.reading.mux_value = |r, body| match body { [_, _, _, _, 0] => Ok(0), _ => descriptors::mux_value(r, body) };
    MuxValue11: "muxpriority value 11 taken",
        |r| r.reading.mux_value = |r, body| match body { [_, _, _, _, 11] => Ok(11), _ => descriptors::mux_value(r, body) };
    MuxLength6: "muxpriority length 6 taken", |r| r.reading.mux_value = mux_length_6;
    MuxAnyIdentifier: "tag 0x02 under any identifier is muxpriority", |r| r.reading.is_mux = |_, tag, _| tag == 2;
    MuxTag3: "tag 0x03 under SAPI is muxpriority", |r| r.reading.is_mux = |_, tag, body| tag == 3 && body.starts_with(&SAPI);
    MuxBadBeforeGood: "a bad muxpriority before a good one let pass", |r| r.reading.mux_of = mux_bad_before_good;
    MuxFirstWins: "the first muxpriority wins",
        |r| r.reading.mux_of = |r, bytes| Ok(values(r, bytes)?.first().copied().unwrap_or(AVERAGE));
    MuxWithoutOne0: "without a muxpriority the value is 0",
        |r| r.reading.mux_of = |r, bytes| Ok(values(r, bytes)?.last().copied().unwrap_or(0));
    MuxLostAtOverride: "a covered session loses its muxpriority", |r| r.go_on_air = mux_lost_at_override;
    MuxZeroWithNone: "0 read with nothing on air", |r| r.mux = |s| s.on_air().map_or(0, |session| session.mux);
    MuxOfTheLowest: "the value of the lowest of the started read", |r| r.mux = mux_of_the_lowest;
    LowestOnAirAgain: "the lowest covered one is on air again", |r| r.on_air_again = lowest_on_air_again;
    EqualPassesWithoutFlag: "an equal AccessType passes d with OverridePlaying 0",
        |r| r.collides = |s, conn, fields| splice::collides(s, conn, &SpliceFields { overrides: 1, ..fields.clone() });
    OthersNumbersHeld: "SessionIDs held by other connections give 121", |r| r.wrong_number = others_numbers_held;
    CloseByNewState: "close takes each started one by what it has become", |r| r.end_all_of = close_by_new_state;
    Descriptor3: "descriptor length below 4 accepted", |r| r.reading.formed = descriptor_3;
    AliveOwnOnly: "Alive shows only its own connection's session", |r| r.alive = alive_own_only;
    InstantLeftOver: "an instant at the tick's very time waits for the next tick",
        |r| r.next_instant = |s, until| until.checked_sub(1).and_then(|before| instants::next_instant(s, before));
    PresentTimeRefused: "a tick to the present time is refused", |r| r.tick_refused = present_time_refused;
    FailureLeavesFollowers: "a failed start leaves its followers waiting",
        |r| r.fail = |s, session, out| { complete(s, session, (0, 109), 0, out); s.remove(session); };
    ElevenReserved: "the reserved places are 11",
        |r| r.queue_full = |s, conn, _| full_by(s.waiting_counts(), conn, 20, 11);
    LinkedThreeSeconds: "a linked request is held to the 3 s",
        |r| r.too_late = |s, conn, fields| s.start_of(conn, fields) < s.clock + 3 * SECOND;
    CoveredEndMoves: "a covered session's end moves", |r| r.on_air_again = covered_end_moves;
    FullBeforeCollision: "114 before 109", |r| r.splice_result = full_before_collision;
    CollisionInMicroseconds: "109 compares starts in whole microseconds", |r| r.collides = collision_in_microseconds;
    LinkedStartRounded: "a linked start is rounded down to a microsecond", |r| r.start_of = linked_start_rounded;
    NothingAfterClose: "after a close no covered one is on air again", |r| r.end_all_of = nothing_after_close;
    ZeroAnsweredBeforeInit: "0x0000 before Init gives 103", |r| r.first_answer = zero_answered_before_init;
    NameBeginsAlike: "a name that only begins like the channel's is taken",
        |r| r.same_name = |s, name| text_of(name).starts_with(text_of(&s.name));
    EqualRefused: "an equal AccessType gets 109 at d with OverridePlaying 1",
        |r| r.collides = |s, conn, fields| splice::collides(s, conn, &SpliceFields { overrides: 0, ..fields.clone() });
    EqualEvicted125: "an equal one that is evicted ends with 125", |r| r.evict = equal_evicted_125;
    EqualFailsAtStart: "an equal AccessType fails at its start with OverridePlaying 1",
        |r| r.may_start = equal_fails_at_start;
    EqualCovered: "the equal one on air is covered by the start", |r| r.end_equal = equal_covered;
    EqualResumed: "the equal one ended by a start is on air again later", |r| r.end_equal = equal_resumed;
    EqualFollowers109: "followers of the equal one ended by a start get 109", |r| r.end_equal = equal_followers_109;
    EqualLeavesFollowers: "followers of the equal one ended by a start stay waiting",
        |r| r.end_equal = equal_leaves_followers;
    EqualEnds100: "the equal one ended by a start gets 100", |r| r.end_equal = equal_ends_100;
    EqualEndsBehindStart: "the start's record before the end of the equal one", |r| r.start = equal_ends_behind_start;
    EqualPlayedToItsEnd: "the equal one ended by a start has played to its end time",
        |r| r.end_equal = equal_played_to_its_end;
    AbortPlayedToItsEnd: "an aborted one has played to its end time", |r| r.aborted_end = abort_played_to_its_end;
    PrimaryWhileOnAir: "the primary channel's time goes on while one is on air",
        |r| r.pass = |s, from, to| { s.primary += to - from; };
    PrimaryLastStretch: "the primary channel's time behind a tick's last instant is forgotten",
        |r| r.work_through = primary_last_stretch;
    PrimaryFromTickStart: "the primary channel's time counts from the tick's start",
        |r| r.pass = |s, _, to| { instants::pass(s, s.clock, to); };
    PrimaryInTicks: "the primary channel's time is counted in ticks",
        |r| r.pass = |s, from, to| { instants::pass(s, from, from + (to - from) / TICK * TICK); };
    PrimaryNotWhileWaiting: "the primary channel has no time while one waits",
        |r| r.pass = |s, from, to| if s.sessions.is_empty() { instants::pass(s, from, to); };
    FifteenKept: "15 ended ones kept",
        |r| r.remember = |s, session, _, result, played| { keep(s, session, result, played, 15); };
    SeventeenKept: "17 ended ones kept",
        |r| r.remember = |s, session, _, result, played| { keep(s, session, result, played, 17); };
    SixteenOfEach: "16 ended ones kept of each connection", |r| r.remember = sixteen_of_each;
    NewestDropped: "with 16 kept, a new end is not", |r| r.remember = newest_dropped;
    RefusedKept: "a refused request is kept as an end", |r| r.splice = refused_kept;
    FailedNotKept: "a failed start is not kept", |r| r.remember = failed_not_kept;
    WaitedNotKept: "ends of those that waited are not kept", |r| r.remember = waited_not_kept;
    EndedAnswersResult: "an ended one has its request's result",
        |r| r.remember = |s, session, by, _, played| { lately::remember(s, session, by, 100, played); };
    CoveredPlayedLost: "a covered one's time on air lost at its abort", |r| r.unshown = |_, _| 0;
    EvictedKeptLast: "an evicted one kept behind its followers", |r| r.evict = evicted_kept_last;
    CloseDropsEnded: "close drops what ended on its connection",
        |r| r.closed = |s, conn| { calls::closed(s, conn); s.ended.retain(|ended| ended.conn != conn); };
    OpenDropsEnded: "open drops what ended on its connection",
        |r| r.opened = |s, conn| { calls::opened(s, conn); s.ended.retain(|ended| ended.conn != conn); };
    EventAt22: "SpliceEventID read at 22, with separate PIDs too",
        |r| r.reading.fields = |r, data, tail| SpliceFields { event: word(data, 22), ..reading::fields(r, data, tail) };
    AnothersEndFound: "another connection's end of that number shown",
        |r| r.latest_ended = |s, _, id| s.ended.iter().rev().find(|ended| ended.id == id).cloned();
    OldestEndFound: "the oldest end of a number shown",
        |r| r.latest_ended = |s, conn, id| s.ended.iter().find(|ended| ended.conn == conn && ended.id == id).cloned();
    HeldAgain121: "121 for a number held again, its end kept",
        |r| r.latest_ended = |s, conn, id| match s.held(conn, id) { Some(_) => None, None => lately::latest_ended(s, conn, id) };
    EmptyDescriptor121: "121 with an empty descriptor", |r| r.extended = empty_descriptor_121;
    Extended9Taken: "an ExtendedData_Request of 9 bytes taken",
        |r| r.reading.read_extended = |r, data| reading::read_extended(r, data.get(..8).unwrap_or(data));
    AnyTypeTaken: "any ExtendedDataType taken", |r| r.reading.read_extended = any_type_taken;
    RowsFromTheOldest: "the page from the oldest up",
        |r| r.page = |s, rows| { lately::page(s, rows)?; rows[..s.ended.len()].reverse(); Ok(()) };
    Init66Taken: "an Init of 66 or 67 bytes taken",
        |r| r.reading.hardware = |r, data| match data.len() { 0..68 => Ok(nothing()), _ => reading::hardware(r, data) };
    HardwareAt64: "Hardware_Config read at 64", |r| r.reading.hardware = |_, data| hardware_by(data, 64, MOST_HARDWARE);
    Length255Taken: "a Hardware_Config of Length 255 taken",
        |r| r.reading.hardware = |_, data| hardware_by(data, 66, MOST_HARDWARE + 1);
    Length254Refused: "a Hardware_Config of Length 254 refused",
        |r| r.reading.hardware = |_, data| hardware_by(data, 66, MOST_HARDWARE - 1);
    LengthNotCounted: "a Hardware_Config of 256 bytes behind its Length taken",
        |r| r.reading.hardware = |_, data| hardware_by(data, 66, MOST_HARDWARE + 2);
    HardwareToTheEnd: "all behind the names kept as Hardware_Config",
        |r| r.reading.hardware = |r, data| reading::hardware(r, data).map(|_| data[66..].to_vec());
    HardwarePastTheEnd: "a Hardware_Config past the message's end taken", |r| r.reading.hardware = hardware_past_the_end;
    FailedInitKept: "the Hardware_Config of a failed Init kept",
        |r| r.keep_hardware = |s, conn, _, hardware| { s.hardware[usize::from(conn)] = hardware.to_vec(); };
    FirstHardwareKept: "a later Init does not replace the Hardware_Config", |r| r.keep_hardware = first_hardware_kept;
    OneHardware: "one Hardware_Config for all connections",
        |r| r.keep_hardware = |s, _, result, hardware| for conn in 0..4 { config::keep_hardware(s, conn, result, hardware); };
    LengthLeftOut: "GetConfig_Response without the Length", |r| r.config = length_left_out;
    ConfigDataTaken: "a GetConfig_Request with data answered", |r| r.reading.read_config = |_, _| Ok(Request::Config);
    MapAlwaysPrimary: "the primary's map always", |r| r.insertion = |_| false;
    MapWhileWaiting: "the insertion's map while one waits", |r| r.insertion = |s| !s.sessions.is_empty();
    AirBeforeTheLastChange: "time on air read without what has passed since the last change",
        |r| r.air = |s| s.on_air().map(|session| Session { since: s.clock, ..session.clone() });
    AirOfTheLowest: "the lowest of the started read as on air", |r| r.air = air_of_the_lowest;
    DueWithoutStarts: "starts are not read as due",
        |r| r.due = |s| due_of(s, |session| session.state != State::Waiting, HORIZON);
    DueWithoutCovered: "a covered one's end is not read as due",
        |r| r.due = |s| due_of(s, |session| session.state != State::Covered, HORIZON);
    DueBeforeTheLastSecond: "no tick reaches an instant of the last second",
        |r| r.due = |s| due_of(s, |_| true, HORIZON - SECOND);
    DueRoundedDown: "the tick read is the one before an instant between two microseconds",
        |r| r.due = |s| sleep::due(s).map(|(instant, _)| (instant, (instant < HORIZON).then(|| wire(instant))));
    SessionsOneFewer: "one of the sessions is not read", |r| r.sessions = |s| { let mut all = sleep::sessions(s); all.pop(); all };
    SessionsCoveredOnAir: "a covered session read as on air", |r| r.sessions = sessions_covered_on_air;
    SessionsByNumber: "the sessions read in order of their numbers",
        |r| r.sessions = |s| { let mut all = sleep::sessions(s); all.sort_by_key(|session| session.id); all };
    SessionsAllTimed: "a linked session read as timed",
        |r| r.sessions = |s| sleep::sessions(s).into_iter().map(|session| Session { prior: NONE, ..session }).collect();
}

impl Fault {
    /// Its name on a command line.
    pub fn name(self) -> String {
        dashed(&format!("{self:?}"))
    }

    pub fn named(name: &str) -> Option<Fault> {
        let mut all = FAULTS.iter().map(|(fault, _)| *fault);
        all.find(|fault| fault.name() == name)
    }

    pub fn rules(self) -> &'static Rules {
        self.made()
    }
}
