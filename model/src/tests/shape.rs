//! The shape of the sources: no circle between modules, modules under 400 lines, functions under 40, names that can be kept apart.

use std::collections::{BTreeMap, BTreeSet};
use std::fs::{read_dir, read_to_string};
use std::path::Path;

/// The Rust files below a folder: their paths from it, without `.rs`, and their texts.
fn files(dir: &Path, under: &str, list: &mut Vec<(String, String)>) {
    for entry in read_dir(dir).expect("a folder") {
        let path = entry.expect("an entry").path();
        let name = format!("{under}{}", path.file_stem().expect("a name").to_string_lossy());
        if path.is_dir() && name != "target" {
            files(&path, &format!("{name}/"), list);
        } else if path.extension().is_some_and(|end| end == "rs") {
            list.push((name, read_to_string(&path).expect("a text")));
        }
    }
}

fn sources() -> Vec<(String, String)> {
    let mut list = Vec::new();
    files(Path::new(env!("CARGO_MANIFEST_DIR")), "", &mut list);
    assert!(list.len() > 100, "{}", list.len());
    list
}

/// A package's modules, by their paths within it, and their texts in front of their tests. This one's stand in three folders.
fn modules(within: &str) -> BTreeMap<String, String> {
    let own = |name: &str| match within {
        "" => ["gen", "people", "hold"].iter().any(|dir| name.starts_with(dir)).then(|| name.to_string()),
        _ => name.strip_prefix(within).map(str::to_string),
    };
    let mut all = BTreeMap::new();
    for (name, text) in sources() {
        let Some(name) = own(&name).filter(|name| !name.ends_with("tests")) else { continue };
        let text = text.split("#[cfg(test)]").next().expect("a text");
        let code = text.lines().filter(|line| !line.trim_start().starts_with("//"));
        all.insert(name.trim_end_matches("/mod").replace('/', "::"), code.collect::<Vec<_>>().join("\n"));
    }
    all
}

/// All paths of a text that begins with one, its braces written out; and what is behind them.
fn paths<'t>(text: &'t str, front: &str, list: &mut Vec<String>) -> &'t str {
    let Some(mut rest) = text.strip_prefix('{') else {
        let end = text.find(|c: char| !c.is_alphanumeric() && c != '_').unwrap_or(text.len());
        let path = format!("{front}{}", &text[..end]);
        return match text[end..].strip_prefix("::") {
            Some(behind) => paths(behind, &format!("{path}::"), list),
            None => {
                list.push(path);
                &text[end..]
            }
        };
    };
    loop {
        rest = paths(rest.trim_start(), front, list).trim_start_matches(|c: char| c != ',' && c != '}' && c != '\n');
        match rest.trim_start().strip_prefix(',') {
            Some(behind) if !behind.trim_start().starts_with('}') => rest = behind,
            _ => return rest,
        }
    }
}

/// The modules that one names: by `crate::`, by `super::`, or those below it by their names.
fn named(own: &str, all: &BTreeMap<String, String>) -> BTreeSet<String> {
    let (above, mut list) = (own.rsplit_once("::").map_or(String::new(), |(above, _)| format!("{above}::")), Vec::new());
    let mut fronts = vec![("crate::".to_string(), String::new()), ("super::".to_string(), above)];
    let below = all.keys().filter_map(|other| other.strip_prefix(&format!("{own}::")));
    fronts.extend(below.filter(|name| !name.contains("::")).map(|name| (format!("{name}::"), format!("{own}::{name}::"))));
    for (word, front) in fronts {
        for (at, _) in all[own].match_indices(&word) {
            if !all[own][..at].ends_with(|c: char| c.is_alphanumeric() || c == '_' || c == ':') {
                paths(&all[own][at + word.len()..], &front, &mut list);
            }
        }
    }
    let holds = |path: &String, module: &String| *path == *module || path.starts_with(&format!("{module}::"));
    let longest = |path: &String| all.keys().filter(|module| holds(path, module)).max_by_key(|module| module.len()).cloned();
    list.iter().filter_map(longest).filter(|module| module != own).collect()
}

/// The modules from which a way over the names leads back to them.
fn in_circles(all: &BTreeMap<String, String>) -> Vec<String> {
    let names: BTreeMap<&String, BTreeSet<String>> = all.keys().map(|own| (own, named(own, all))).collect();
    let comes_back = |own: &&String| {
        let mut reached = names[own].clone();
        loop {
            let further: BTreeSet<String> = reached.iter().flat_map(|module| names[module].clone()).collect();
            if further.is_subset(&reached) {
                return reached.contains(*own);
            }
            reached.extend(further);
        }
    };
    all.keys().filter(comes_back).cloned().collect()
}

#[test]
fn no_module_reaches_one_that_reaches_it() {
    for (within, most) in [("rules/src/", 20), ("", 80), ("beside/src/", 20)] {
        let all = modules(within);
        assert!(all.len() > most, "{within}: {}", all.len());
        assert!(all.keys().any(|own| named(own, &all).len() > 2), "{within}: nothing is named");
        assert_eq!(in_circles(&all), [""; 0], "{within}");
    }
}

#[test]
fn a_circle_is_found() {
    let of = |text: &str| text.to_string();
    let mut all =
        BTreeMap::from([(of("a"), of("use crate::b::{self, C};")), (of("b"), of("use crate::{a::X, c};")), (of("c"), of(""))]);
    assert_eq!(in_circles(&all), ["a", "b"]);
    all.insert(of("b"), of("use crate::c;"));
    assert_eq!(in_circles(&all), [""; 0]);
}

#[test]
fn modules_and_functions_are_short() {
    for (name, text) in sources() {
        let lines: Vec<&str> = text.lines().collect();
        assert!(lines.len() < 400, "{name}: {} lines", lines.len());
        for (at, line) in lines.iter().enumerate() {
            assert!(line.chars().count() <= 140, "{name}:{}", at + 1);
            let inner = line.trim_start();
            let indent = &line[..line.len() - inner.len()];
            let front = inner.split('(').next().expect("a part");
            if inner.starts_with("//") || inner.ends_with(';') || !(front.starts_with("fn ") || front.contains(" fn ")) {
                continue;
            }
            let end = lines[at..].iter().position(|other| *other == format!("{indent}}}")).unwrap_or(0);
            assert!(end + 1 < 40, "{name}:{}: {} lines", at + 1, end + 1);
        }
    }
}

/// Whether two names differ by an ending only.
fn alike(one: &str, other: &str) -> bool {
    let same = one.bytes().zip(other.bytes()).take_while(|(a, b)| a == b).count();
    let ending = |name: &str| ["", "d", "e", "ed", "er", "ers", "es", "ing", "ings", "r", "s"].contains(&&name[same..]);
    one != other && same > 2 && ending(one) && ending(other)
}

#[test]
fn no_two_names_differ_by_an_ending_only() {
    let names: BTreeSet<String> = sources().iter().flat_map(|(path, _)| path.split('/')).map(str::to_string).collect();
    for one in &names {
        let other = names.iter().find(|other| alike(one, other));
        assert_eq!(other, None, "{one}");
    }
    for (one, other) in [("cue", "cues"), ("recording", "records"), ("check", "checker"), ("times", "time"), ("named", "names")] {
        assert!(alike(one, other), "{one} {other}");
    }
    assert!(!alike("card", "calls") && !alike("rolling", "rolling_streams"));
}
