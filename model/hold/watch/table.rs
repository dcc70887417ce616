//! How often each of some branches came, and the floor that it must reach.

use std::collections::BTreeMap;

#[derive(Clone, Debug, Default)]
pub struct Hits {
    hits: BTreeMap<&'static str, u64>,
}

/// The branches with their floors.
pub type Floors = [(&'static str, u64)];

impl Hits {
    pub fn hit(&mut self, name: &'static str) {
        self.more(name, 1);
    }

    pub fn more(&mut self, name: &'static str, hits: u64) {
        *self.hits.entry(name).or_insert(0) += hits;
    }

    pub fn add(&mut self, other: &Hits) {
        for (name, hits) in &other.hits {
            *self.hits.entry(name).or_insert(0) += hits;
        }
    }

    pub fn of(&self, name: &str) -> u64 {
        self.hits.get(name).copied().unwrap_or(0)
    }

    /// Those with a floor that were never taken.
    pub fn never(&self, floors: &[(&'static str, u64)]) -> Vec<&'static str> {
        floors.iter().map(|(name, _)| *name).filter(|name| self.of(name) == 0).collect()
    }

    /// The branches below their floors, and those that the table does not have.
    pub fn missing(&self, floors: &Floors) -> Vec<String> {
        let low = |(name, floor): &&(&str, u64)| self.of(name) < *floor;
        let line = |(name, floor): &(&str, u64)| format!("{name}: {} of {floor}", self.of(name));
        let mut lines: Vec<String> = floors.iter().filter(low).map(line).collect();
        let unknown = |name: &&&str| floors.iter().all(|(own, _)| own != *name);
        let others = self.hits.keys().filter(unknown);
        lines.extend(others.map(|name| format!("{name}: not in the table")));
        lines
    }

    /// Prints the table if it is asked for, and if `hold` the branches below their floors; whether there are none.
    pub fn reached(&self, floors: &Floors, table: bool, hold: bool) -> bool {
        if table {
            print!("{}", self.table(floors));
        }
        let missing = if hold { self.missing(floors) } else { Vec::new() };
        for line in &missing {
            println!("below its floor: {line}");
        }
        missing.is_empty()
    }

    /// The table in a line: how many branches it has, and how many of those with a floor were taken.
    pub fn totals(&self, floors: &Floors) -> String {
        let floored: Vec<_> = floors.iter().filter(|(_, floor)| *floor > 0).collect();
        let taken = floored.iter().filter(|(name, _)| self.of(name) > 0).count();
        format!("{} branches, {} with a floor, {taken} of these taken", floors.len(), floored.len())
    }

    pub fn table(&self, floors: &Floors) -> String {
        let line = |(name, floor): &(&str, u64)| format!("{:>9} {floor:>6}  {name}\n", self.of(name));
        let lines: String = floors.iter().map(line).collect();
        format!("     hits  floor  branch\n{lines}")
    }
}

#[cfg(test)]
mod tests {
    use super::*;

    #[test]
    fn floors_and_unknown_names() {
        let mut hits = Hits::default();
        hits.hit("a");
        assert_eq!(hits.missing(&[("a", 1)]), [""; 0]);
        assert_eq!(hits.missing(&[("a", 2)]), ["a: 1 of 2"]);
        assert_eq!(hits.missing(&[]), ["a: not in the table"]);
        let other = hits.clone();
        hits.add(&other);
        assert_eq!(hits.of("a"), 2);
    }

    #[test]
    fn the_totals_are_those_of_the_table() {
        let mut hits = Hits::default();
        let floors = [("a", 5), ("b", 0), ("c", 1)];
        assert_eq!(hits.totals(&floors), "3 branches, 2 with a floor, 0 of these taken");
        // b has no floor
        hits.hit("a");
        hits.hit("b");
        assert_eq!(hits.totals(&floors), "3 branches, 2 with a floor, 1 of these taken");
    }

    #[test]
    fn every_branch_of_the_rules_has_one_line() {
        let mut names: Vec<&str> = crate::hold::watch::floors::floors().into_iter().map(|(name, _)| name).collect();
        let all = names.len();
        names.sort();
        names.dedup();
        assert_eq!(names.len(), all);
    }
}
