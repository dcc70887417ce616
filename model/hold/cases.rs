//! Scenario files as tables of antt, which the prover holds the definitions to (crates/cases).

use crate::people::scenario::Step;
use crate::streams;

/// Longest piece of bytes in a table's line, in characters.
const WIDTH: usize = 110;

/// The lengths of a message's fields behind its header, as J.280's tables have them; what follows goes by fours.
fn fields(id: [u8; 2]) -> &'static [usize] {
    match id {
        [0x00, 0x01] => &[2, 32, 32, 2],
        [0x00, 0x02] => &[2, 32],
        [0x00, 0x04] => &[4, 1, 1, 4, 4, 2, 4],
        [0x00, 0x09] => &[4, 1, 4, 4],
        [0x00, 0x0B] => &[32, 2],
        _ => &[],
    }
}

/// The lengths of a Splice_Request's fields. With ServiceID 0xFFFF PcrPID, PIDCount and structures stand
/// in between, each with its kept bytes as one field (02, CR 1).
fn splice_fields(data: &[u8]) -> Vec<usize> {
    let (mut front, tail) = (vec![4, 4, 4, 4, 2], [4, 4, 4, 1, 1, 1]);
    if let Some([0xFF, 0xFF, more @ ..]) = data.get(16..) {
        front.extend([2, 4]);
        let (count, mut at) = (more.get(5).map_or(0, |b| usize::from(*b)), 6);
        for _ in 0..count.min(streams::MOST) {
            let length = more.get(at).map_or(0, |b| usize::from(*b));
            front.extend([1, 2, 2, 4, 4, 4, 2, 2]);
            front.extend(length.checked_sub(streams::LEAST).filter(|kept| *kept > 0));
            at += length.max(streams::LEAST);
        }
    }
    front.extend(tail);
    front
}

/// The length of the record at the start of the bytes, and of its parts.
fn record(bytes: &[u8]) -> (usize, Vec<usize>) {
    match bytes {
        [0x4D | 0x52, _, a, b, h, l, ..] => {
            let size = 10 + 256 * usize::from(*h) + usize::from(*l);
            let parts = match [*a, *b] {
                [0x00, 0x07] => splice_fields(bytes.get(10..size.min(bytes.len())).unwrap_or_default()),
                id => fields(id).to_vec(),
            };
            (size, [vec![2, 2, 2, 2, 2], parts].concat())
        }
        [0x54, ..] => (10, vec![2]),
        [0x43 | 0x45 | 0x4F, ..] => (2, vec![2]),
        _ => (bytes.len(), vec![]),
    }
}

/// Lines of bytes in hexadecimal: a record begins a line, a blank stands between two fields.
fn lines(bytes: &[u8]) -> Vec<String> {
    let mut list: Vec<String> = Vec::new();
    let mut rest = bytes;
    while !rest.is_empty() {
        let (size, parts) = record(rest);
        let (mut own, behind) = rest.split_at(size.min(rest.len()));
        let mut parts = parts.into_iter();
        let mut line = String::new();
        while !own.is_empty() {
            let (part, more) = own.split_at(parts.next().unwrap_or(4).min(own.len()));
            let text: String = part.iter().map(|b| format!("{b:02X}")).collect();
            if !line.is_empty() && line.len() + 1 + text.len() > WIDTH {
                list.push(std::mem::take(&mut line));
            }
            line += if line.is_empty() { "" } else { " " };
            line += &text;
            own = more;
        }
        list.push(line);
        rest = behind;
    }
    list
}

/// Bytes as one text, in the lines of a table.
fn text_of(bytes: &[u8]) -> String {
    let list: Vec<String> = lines(bytes).iter().map(|l| format!("\"{l}\"")).collect();
    match &list[..] {
        [] => "\"\"".to_string(),
        [one] => one.clone(),
        _ => format!("({})", list.join("\n    ++ ")),
    }
}

/// A call's line, cut where it is long.
fn title(text: &str) -> String {
    let short: String = text.chars().take(100).collect();
    let dots = if short.len() < text.len() { " .." } else { "" };
    format!("{short}{dots}").replace(['\\', '"'], "'")
}

/// A row: on one line if it is short.
fn row(step: &Step) -> String {
    let head = format!("row {} \"{}\"", step.line, title(&step.text));
    let (calls, wants) = (text_of(&step.input), text_of(&step.expected));
    let line = format!("{head} {calls} {wants}");
    if line.chars().count() <= WIDTH && !line.contains('\n') {
        return line;
    }
    format!("{head}\n    {calls}\n    {wants}")
}

/// The module's name of a scenario file: its words, each with a capital, without what stands between them.
pub fn module(file: &str) -> String {
    let stem = file.rsplit('/').next().unwrap_or(file);
    let words = stem.trim_end_matches(".txt").split(['-', '.']).map(|word| {
        let mut letters = word.chars();
        letters.next().map_or(String::new(), |first| first.to_ascii_uppercase().to_string() + letters.as_str())
    });
    format!("Case{}", words.collect::<String>())
}

/// The module of a scenario.
pub fn table(file: &str, text: &str, steps: &[Step]) -> String {
    let name = file.rsplit('/').next().unwrap_or(file);
    let head: Vec<String> =
        text.lines().take_while(|l| l.starts_with('#')).map(|l| l.replacen('#', "--", 1).trim_end().to_string()).collect();
    // A read is no call of the card program.
    let calls = steps.iter().filter(|step| !step.is_read());
    let rows = calls.map(row).collect::<Vec<String>>().join("\n    ∷ ");
    // Texts of several lines are put together.
    let strings = if rows.contains("\n    ++ ") { "use Prim.Native.String.{◌++◌}\n" } else { "" };
    format!(
        "-- model/scenarios/{name}, made by tools/cases.sh. Line numbers are that file's.\n{}\n\
         use Rattle.std.specs.Prelude.{{List, [], ◌∷◌}}\n\
         {strings}\
         use Rattle.cases.specs.Scenario.{{Row, row, Holds, holds}}\n\
         use Rattle.cases.specs.Computing.{{computing}}\n\n\
         unfoldable pub rows : List Row\n\
         rows =\n    {rows}\n    ∷ []\n\n\
         pub same : Holds rows\n\
         unfolding rows computing\n\
         same = holds rows (tt, tt)\n",
        head.join("\n")
    )
}

#[cfg(test)]
mod tests {
    use super::*;

    #[test]
    fn a_record_begins_a_line_and_fields_stand_apart() {
        let bytes =
            [0x4F, 0x00, 0x4D, 0x00, 0x00, 0x0E, 0x00, 0x04, 0xFF, 0xFF, 0xFF, 0xFF, 0x00, 0x00, 0x00, 0x07, 0x54, 0x00, 0x00];
        let wanted = ["4F00", "4D00 000E 0004 FFFF FFFF 00000007", "5400 00"];
        assert_eq!(lines(&bytes), wanted);
        assert_eq!(text_of(&[]), "\"\"");
        assert_eq!(text_of(&[0x45, 0x07]), "\"4507\"");
    }

    #[test]
    fn structures_stand_apart() {
        let line = "> splice 0 id=1 at=5 duration=1 pcr=1 stream=2:3:4:5:6:7:8:AABB stream=2:3:4:5:6:7:8";
        let steps = crate::people::scenario::parse(line).unwrap();
        let wanted = [
            "4D00 0007 0053 FFFF FFFF 00000001 FFFFFFFF 00000005 00000000 FFFF 0001 00000002 17 0002 0003 00000004 00000005",
            "00000006 0007 0008 AABB 15 0002 0003 00000004 00000005 00000006 0007 0008 00000001 FFFFFFFF 00000000 00 00 01",
        ];
        assert_eq!(lines(&steps[0].input), wanted);
        // A cut record, and one without data, are shown as far as they go.
        assert_eq!(lines(&[0x4D, 0, 0, 7, 0, 9, 1]), ["4D00 0007 0009 01"]);
        assert_eq!(lines(&[0x4D, 0, 0, 7, 0, 0, 1, 2, 3, 4]), ["4D00 0007 0000 0102 0304"]);
    }

    #[test]
    fn a_module_has_no_dot() {
        assert_eq!(module("a/6.2-first-come.txt"), "Case62FirstCome");
    }
}
