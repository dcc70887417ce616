//! `desk timeline --html`: the day as one page that needs nothing else. Bars are placed in parts of
//! the day's width, so that zooming is one number; the words of each stand in its title.

use crate::asrun;
use crate::day::{Row, Span, State};
use crate::json::Value;
use crate::lines::{self, Told};
use crate::message;
use crate::recording::items;
use crate::ruled::{aside, Step};
use crate::time::{SECOND, TICK};
use crate::view::View;

/// Pixels from one row of a lane to the next.
const STEP: usize = 22;
/// The part of the day's width that a label takes, in hundredths, so that none covers another.
const LABEL: f64 = 9.5;

fn escaped(text: &str) -> String {
    let text = text.replace('&', "&amp;").replace('<', "&lt;");
    text.replace('>', "&gt;").replace('"', "&quot;")
}

/// Places in the day, in hundredths of its width.
struct Place {
    from: u64,
    to: u64,
}

impl Place {
    fn of(&self, at: u64) -> f64 {
        let length = (self.to - self.from).max(1) as f64;
        (at.clamp(self.from, self.to) - self.from) as f64 / length * 100.0
    }

    fn bar(&self, span: &Span, class: &str, top: usize, more: &str) -> String {
        let (left, right) = (self.of(span.from), self.of(span.to));
        let width = right - left;
        if span.to <= self.from || span.from >= self.to {
            return String::new();
        }
        format!("<div class=\"bar {class}\" style=\"left:{left:.4}%;width:{width:.4}%;top:{top}px\" {more}></div>\n")
    }
}

fn class(state: State) -> &'static str {
    match state {
        State::None => "primary",
        State::Waiting => "waiting",
        State::OnAir => "air",
        State::Covered => "covered",
    }
}

/// What hovering over a request says.
fn title(view: &View, row: &Row) -> String {
    let time = |at: Option<u64>| at.map_or("-".to_string(), |at| view.clock.text(at));
    let session = row.asked.session.map_or("-".to_string(), |s| s.to_string());
    let event = row.asked.event.filter(|e| *e != u32::MAX);
    let event = event.map_or("-".to_string(), |e| e.to_string());
    let length = row.asked.duration.map_or(0, |d| u64::from(d) * TICK);
    let mut text = format!(
        "connection {}, SessionID {session}, event {event}, service {}, AccessType {}\n\
         asked {} (call {})\nscheduled {}, {} s\non air {}\n{}",
        row.conn,
        lines::source(row),
        row.asked.access,
        view.clock.text(row.asked_at),
        row.call,
        time(row.start),
        crate::time::seconds(length),
        lines::times(row, view.clock),
        lines::outcome(row),
    );
    if let Some(result) = lines::result(row) {
        text += &format!(" ({result})");
    }
    if let Some(other) = lines::other(row, &view.ruled) {
        text += &format!(
            "\nBY THE RULES: {}; {}",
            lines::outcome(other),
            lines::times(other, view.clock)
        );
    }
    escaped(&text)
}

/// A lane: what it is by, its head, its height in pixels and what stands in it.
fn section(by: &str, head: &str, height: usize, inside: &str) -> String {
    let track = format!("<div class=\"track\" style=\"height:{height}px\">\n{inside}</div>");
    format!("<section class=\"lane\" {by}>{head}{track}</section>\n")
}

fn output(view: &View, place: &Place) -> String {
    let mut text = String::new();
    for (span, row) in view.found.output(place.from, place.to) {
        let (class, title) = match row.map(|row| &view.found.rows[row]) {
            Some(row) => (format!("air k{}", row.conn % 4), title(view, row)),
            None => {
                let (from, to) = (view.clock.text(span.from), view.clock.text(span.to));
                (
                    "primary".to_string(),
                    format!("primary channel\n{from} to {to}"),
                )
            }
        };
        text += &place.bar(&span, &class, 2, &format!("title=\"{title}\""));
    }
    section("id=\"output\"", "<h2>output channel</h2>", 20, &text)
}

/// A request's bars, and behind them its SessionID and result.
fn request(view: &View, place: &Place, row: &Row, top: usize) -> String {
    let title = title(view, row);
    let session = row.asked.session.map_or("-".to_string(), |s| s.to_string());
    let result = lines::result(row).map_or(String::new(), |r| r.to_string());
    let own = numbers(row);
    let data = format!(
        "data-call=\"{}\" {own} data-result=\"{result}\" title=\"{title}\"",
        row.call
    );
    let mut text = String::new();
    for span in &row.spans {
        let class = format!("{} k{}", class(span.state), row.conn % 4);
        text += &place.bar(span, &class, top, &data);
    }
    if !row.accepted() {
        let left = place.of(row.asked_at);
        text +=
            &format!("<i class=\"refused\" style=\"left:{left:.4}%;top:{top}px\" {data}></i>\n");
    }
    let mut bad = "";
    if let Some(other) = lines::other(row, &view.ruled) {
        bad = " bad";
        for span in other.spans.iter().filter(|s| s.state != State::Waiting) {
            text += &place.bar(span, "ruled", top, &format!("title=\"{title}\""));
        }
    }
    let left = place.of(last(row));
    let gap = if row.accepted() { 0 } else { 7 };
    // at the right edge it stands on its bar
    let (edge, side) = match left + LABEL > 100.0 {
        true => (" edge", "right:2px".to_string()),
        false => ("", format!("left:calc({left:.4}% + {gap}px)")),
    };
    text + &format!("<span class=\"label{edge}{bad}\" style=\"{side};top:{top}px\" {own} title=\"{title}\">{session} {result}</span>\n")
}

/// What a request is found by: SessionID and SpliceEventID.
fn numbers(row: &Row) -> String {
    let number = |n: Option<u32>| n.map_or(String::new(), |n| n.to_string());
    let (session, event) = (number(row.asked.session), number(row.asked.event));
    format!("data-session=\"{session}\" data-event=\"{event}\"")
}

/// Where a request's bars end.
fn last(row: &Row) -> u64 {
    row.spans.last().map_or(row.asked_at, |span| span.to)
}

/// A connection's requests, one below the other where bars or labels would touch.
fn lane(view: &View, place: &Place, conn: u8) -> Option<String> {
    let rows: Vec<&Row> = view.rows().filter(|row| row.conn == conn).collect();
    let (mut ends, mut inside): (Vec<f64>, String) = (Vec::new(), String::new());
    for row in &rows {
        let first = row.spans.first().map_or(row.asked_at, |span| span.from);
        let (left, right) = (place.of(first), place.of(last(row)) + LABEL);
        let free = ends.iter().position(|end| *end <= left);
        let at = free.unwrap_or_else(|| {
            ends.push(0.0);
            ends.len() - 1
        });
        ends[at] = right;
        inside += &request(view, place, row, at * STEP + 2);
    }
    let height = ends.len() * STEP + 2;
    let by = format!("data-connection=\"{conn}\"");
    let head = format!("<h2>connection {conn}</h2>");
    (!rows.is_empty()).then(|| section(&by, &head, height, &inside))
}

/// What was due and what was found, of a call that breaks the rules.
fn broken(view: &View, call: usize) -> String {
    let entry = view.held.recording.entry(call);
    let found = view.held.recording.found(call);
    let due = items(view.held.due(call), 0);
    let told = |item| lines::record(item, view.clock).line();
    let mut text = format!(
        "call {call}: {}",
        lines::call(entry.call(), view.clock).line()
    );
    for step in aside(&due, &found) {
        match step {
            Step::Same { .. } => {}
            Step::Missing { due: place } => text += &format!("\ndue: {}", told(&due[place])),
            Step::Extra { found: place } => text += &format!("\nfound: {}", told(&found[place])),
        }
    }
    text
}

fn breaks(view: &View, place: &Place) -> String {
    if view.good() {
        return String::new();
    }
    let mut text = String::new();
    for call in &view.held.broken {
        let left = place.of(view.clock_of(*call));
        let title = escaped(&broken(view, *call));
        text += &format!("<i class=\"break\" style=\"left:{left:.4}%;top:2px\" data-call=\"{call}\" title=\"{title}\"></i>\n");
    }
    let head = "<h2 class=\"broken\">rules broken</h2>";
    section("id=\"breaks\"", head, 16, &text)
}

/// Cues, names and lent sections, each where it came.
fn marks(view: &View, place: &Place) -> String {
    let recording = &view.held.recording;
    let mut text = String::new();
    let mut mark = |call: usize, class: &str, told: Told| {
        let at = view.clock_of(call);
        let (left, title) = (place.of(at), escaped(&told.line()));
        let time = view.clock.text(at);
        let style = format!("left:{left:.4}%;top:3px");
        text += &format!("<i class=\"mark {class}\" style=\"{style}\" data-call=\"{call}\" title=\"{time}\n{title}\"></i>\n");
    };
    for aside in &recording.asides {
        mark(aside.call, "lent", lines::aside(&aside.bytes));
    }
    for call in (1..recording.count()).filter(|call| recording.entry(*call).bytes[0] == 0x51) {
        let told = lines::call(recording.entry(call).call(), view.clock);
        mark(call, "cue", told);
    }
    match text.is_empty() {
        true => text,
        false => section("id=\"marks\"", "<h2>cues and sections</h2>", 16, &text),
    }
}

/// The calls that break the rules, side by side.
fn breaks_table(view: &View) -> String {
    if view.good() {
        return String::new();
    }
    let mut text = "<table id=\"broken\"><thead><tr><th>time</th><th>call</th>\
                    <th class=\"words\">due and found</th></tr></thead><tbody>\n"
        .to_string();
    for call in &view.held.broken {
        let clock = view.clock_of(*call);
        let time = timed(Some(clock), &Value::Text(view.clock.text(clock)));
        let words = escaped(&broken(view, *call)).replace('\n', "<br>");
        text += &format!(
            "<tr class=\"bad\">{time}<td>{call}</td><td class=\"words\">{words}</td></tr>\n"
        );
    }
    text + "</tbody></table>\n"
}

/// An instant in seconds, for the page's script.
fn at(instant: Option<u64>) -> String {
    let seconds = |at: u64| format!(" data-at=\"{:.6}\"", at as f64 / SECOND as f64);
    instant.map_or(String::new(), seconds)
}

fn asrun_table(view: &View) -> String {
    let head = asrun::SHOWN.map(|(name, _)| format!("<th>{name}</th>"));
    let mut text = format!(
        "<table id=\"asrun\"><thead><tr>{}</tr></thead><tbody>\n",
        head.concat()
    );
    for (values, row) in asrun::table(view).rows.iter().zip(view.rows()) {
        let cell = |(name, column): (&str, usize)| match (&values[column], name) {
            (Value::None | Value::Number(0xFFFF_FFFF), _) => "<td></td>".to_string(),
            (value, "scheduled") => timed(row.start, value),
            (value, "began") => timed(row.began, value),
            (value, "ended") => timed(row.ended.map(|e| e.at), value),
            (value, _) => format!("<td>{}</td>", escaped(&value.plain())),
        };
        let cells = asrun::SHOWN.map(cell).concat();
        let own = numbers(row);
        let first = row.began.or(row.start).unwrap_or(row.asked_at);
        let first = at(Some(first));
        match &values[asrun::RULED] {
            Value::Text(ruled) => {
                let ruled = escaped(ruled);
                let ruled = format!("<td colspan=\"12\">by the rules: {ruled}</td>");
                text += &format!("<tr class=\"bad\" {own}{first}>{cells}</tr>\n<tr class=\"bad\" {own}>{ruled}</tr>\n");
            }
            _ => text += &format!("<tr {own}{first}>{cells}</tr>\n"),
        }
    }
    text + "</tbody></table>\n"
}

/// A time's cell; the script writes local time into it.
fn timed(instant: Option<u64>, value: &Value) -> String {
    format!("<td{}>{}</td>", at(instant), escaped(&value.plain()))
}

const LEGEND: &str = "<p class=\"legend\"><span><i class=\"bar waiting k0\"></i>waiting</span>\
<span><i class=\"bar air k0\"></i>on air</span>\
<span><i class=\"bar covered k0\"></i>covered</span><span><i class=\"bar primary\"></i>primary channel</span>\
<span><i class=\"refused\"></i>refused</span><span><i class=\"break\"></i>rules broken</span>\
<span><i class=\"mark cue\"></i>cue</span><span><i class=\"mark lent\"></i>name or section</span>\
<span><i class=\"bar ruled\" style=\"top:-7px\"></i>by the rules</span>behind each bar: SessionID and result</p>\n";

const NAV: &str = "<nav><span><button id=\"in\" title=\"zoom in\">+</button>\
<button id=\"out\" title=\"zoom out\">&minus;</button><button id=\"all\">all</button>\
<span id=\"zoom\"></span></span>\
<label>local time <select id=\"zone\"></select></label>\
<label>go to <input id=\"at\" placeholder=\"14:05, with Z in UTC\"></label>\
<label>find <input id=\"find\" placeholder=\"SessionID or event\" inputmode=\"numeric\"></label><span id=\"found\"></span>\
<button id=\"print\">print</button><span class=\"wide\">Ctrl and wheel zoom; hover gives the record</span></nav>\n";

pub fn page(view: &View) -> String {
    let (from, to) = view.reach();
    let place = Place { from, to };
    let name = escaped(&message::string(&view.name()));
    let class = if view.good() { "good" } else { "broken" };
    let verdict = escaped(&view.verdict());
    let sums: Vec<String> = asrun::summed(view)
        .iter()
        .map(|l| l.split_whitespace().collect::<Vec<_>>().join(" "))
        .collect();
    let sums = escaped(&sums.join(" · "));
    let lanes: String = (0..=255)
        .filter_map(|conn| lane(view, &place, conn))
        .collect();
    let (output, breaks) = (output(view, &place), breaks(view, &place));
    let marks = marks(view, &place);
    let (first, last) = (from as f64 / SECOND as f64, to as f64 / SECOND as f64);
    let raw = u8::from(view.options.raw);
    let (css, js) = (include_str!("page.css"), include_str!("page.js"));
    let tables = breaks_table(view) + &asrun_table(view);
    let date = view.clock.text(from);
    let zone = view.options.zone.as_deref().unwrap_or("");
    format!(
        "<!DOCTYPE html>\n<html lang=\"en\"><head><meta charset=\"utf-8\">\
         <meta name=\"viewport\" content=\"width=device-width, initial-scale=1\">\
         <title>{name} {date}</title>\n<style>\n{css}</style></head><body>\n\
         <h1>Channel {name}, {date}</h1>\n<p class=\"verdict {class}\">{verdict}</p>\n<p class=\"sums\">{sums}</p>\n\
         {NAV}<div id=\"scroll\"><div id=\"day\" data-from=\"{first:.6}\" data-to=\"{last:.6}\" data-raw=\"{raw}\" data-zone=\"{zone}\">\
         <div class=\"axis\" id=\"utc\"></div><div class=\"axis\" id=\"local\"></div><div id=\"cursor\" hidden></div>\n\
         {output}{marks}{breaks}{lanes}</div></div>\n{LEGEND}<div class=\"tables\">{tables}</div><script>\n{js}</script></body></html>\n"
    )
}
