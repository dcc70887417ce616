//! `law reach`: which worked cases come to which definition, for READING.

use crate::code::Def;
use crate::law::Law;
use crate::load::What;
use crate::mutate;

/// A line for each case, the shortest first, and one for each definition with the numbers of the cases that come to it.
pub fn all(law: &mut Law) -> Result<i32, String> {
    let known = mutate::cases(law);
    for (i, k) in known.iter().enumerate() {
        println!("case\t{i}\t{}", k.title());
    }
    for def in 0..law.prog.infos.len() {
        let info = &law.prog.infos[def];
        let What::Fun { clauses, .. } = &info.what else { continue };
        if law.prog.is_table(def as Def) {
            continue;
        }
        let regions: Vec<usize> = clauses.iter().filter_map(|c| law.regions.of.get(&c.body.id)).map(|r| *r as usize).collect();
        let reached = |i: &usize| regions.iter().any(|r| known[*i].comes_to(*r));
        let by: Vec<String> = (0..known.len()).filter(reached).map(|i| i.to_string()).collect();
        println!("reach\t{}\t{}\t{}", law.prog.modules[info.module].file, info.name, by.join(" "));
    }
    Ok(0)
}
