//! The table of README, "Where each sentence stands": the places that it names are there, and every rule stands in it.

use std::fs::read_to_string;

fn file(path: &str) -> String {
    read_to_string(format!("{}/{path}", env!("CARGO_MANIFEST_DIR"))).expect(path)
}

/// A module of the rules, or of the referee beside them.
fn source(module: &str) -> String {
    let own = format!("{}/rules/src/{module}.rs", env!("CARGO_MANIFEST_DIR"));
    read_to_string(own).unwrap_or_else(|_| file(&format!("referee/{module}.rs")))
}

/// Module and name of each place in the right column: a name without its module is of the one before it in its row.
fn places() -> Vec<(String, String)> {
    let page = file("README.md");
    let table = page.split("## Where each sentence stands").nth(1).expect("its head");
    let table = table.split("\n## ").next().expect("its end");
    let mut list = Vec::new();
    for row in table.lines().filter(|line| line.starts_with('|')) {
        let right = row.rsplit('|').nth(1).expect("two columns");
        let mut module = String::new();
        for word in right.split('`').skip(1).step_by(2).filter(|word| !word.contains(['/', '.', ' '])) {
            // a type's name begins with a capital letter
            if let Some((own, _)) = word.split_once("::").filter(|(own, _)| own.starts_with(char::is_lowercase)) {
                module = own.to_string();
            }
            list.push((module.clone(), word.rsplit("::").next().expect("a name").to_string()));
        }
    }
    list
}

#[test]
fn every_place_is_there() {
    let kinds = ["fn", "struct", "enum", "const", "type"];
    for (module, name) in places().into_iter().filter(|(module, _)| !module.is_empty()) {
        let source = source(&module);
        let words: Vec<&str> = source.split(|c: char| !c.is_alphanumeric() && c != '_').collect();
        let declared = words.windows(2).any(|two| kinds.contains(&two[0]) && two[1] == name);
        let field = source.contains(&format!("pub {name}:"));
        assert!(declared || field, "{module}::{name}");
    }
}

#[test]
fn every_rule_has_its_sentence() {
    let (right, places) = (file("rules/src/right.rs"), places());
    let lines = right.lines().filter_map(|line| line.strip_prefix("    ")?.strip_suffix(';')?.split_once(": "));
    let rules: Vec<(&str, &str)> = lines.flat_map(|(module, names)| names.split(' ').map(move |name| (module, name))).collect();
    for (module, name) in &rules {
        assert!(places.iter().any(|(own, named)| own == module && named == name), "{module}::{name}");
    }
    assert!(rules.len() > 70, "{}", rules.len());
}
