//! Figures for Prometheus.

use crate::channel::Channel;
use crate::hall::Hall;
use crate::time::SECOND;

/// A label's value: a backslash, a quote and a line's end are escaped.
fn label(text: &str) -> String {
    text.replace('\\', "\\\\").replace('"', "\\\"").replace('\n', "\\n")
}

/// A figure of each channel: its name, kind, help and value.
type Figure<'f> = (&'f str, &'f str, &'f str, &'f dyn Fn(&Channel) -> u64);

pub fn of(hall: &mut Hall) -> String {
    let now = hall.now();
    let mut text = String::new();
    let gauges: [Figure<'_>; 6] = [
        ("splicer_calls_total", "counter", "Calls of the core.", &|c| c.counts.calls),
        ("splicer_waiting", "gauge", "Sessions that wait.", &|c| c.splicer.waiting().iter().sum()),
        ("splicer_on_air", "gauge", "1 while a session is on air.", &|c| u64::from(c.at(now).air().is_some())),
        ("splicer_connections", "gauge", "Connections that hold a number.", &|c| c.seats.iter().flatten().count() as u64),
        ("splicer_referee_differs", "gauge", "1 once the referee found a difference.", &|c| u64::from(c.referee.differs())),
        ("splicer_referee_judges", "gauge", "1 while every call is judged.", &|c| u64::from(c.referee.judges())),
    ];
    for (name, kind, help, value) in gauges {
        text += &format!("# HELP {name} {help}\n# TYPE {name} {kind}\n");
        for channel in &hall.channels {
            text += &format!("{name}{{channel=\"{}\"}} {}\n", label(&channel.shown), value(channel));
        }
    }
    text + &refusals(hall) + &lateness(hall)
}

fn refusals(hall: &Hall) -> String {
    let name = "splicer_refusals_total";
    let mut text =
        format!("# HELP {name} House numbers, and results other than 100 of a message's own answer.\n# TYPE {name} counter\n");
    for channel in &hall.channels {
        for ((kind, code), count) in &channel.counts.refusals {
            text += &format!("{name}{{channel=\"{}\",kind=\"{kind}\",code=\"{code}\"}} {count}\n", label(&channel.shown));
        }
    }
    text
}

fn lateness(hall: &Hall) -> String {
    let name = "splicer_tick_lateness_seconds";
    let seconds = |micros: u64| micros as f64 / SECOND as f64;
    let late = &hall.lateness;
    format!(
        "# HELP {name} How long behind its instant a due tick was made; quantile 1 is the latest since the start.\n\
         # TYPE {name} summary\n{name}{{quantile=\"1\"}} {}\n{name}_sum {}\n{name}_count {}\n",
        seconds(late.most),
        seconds(late.sum),
        late.count
    )
}
