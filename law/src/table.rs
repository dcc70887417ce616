//! The kit's functions on a table of arguments, as statements for the prover: each value is the one computed here.

use crate::law::Law;
use crate::value::{self, V};

const HEAD: &str = "\
-- The kit's functions that are built into law/, on a table of arguments: made by `law kit`, for the prover to compute.
use Rattle.std.specs.Prelude.{◌≡◌, refl, Bool, true, false, cond, not, ◌&&◌, ◌||◌, List, [], ◌∷◌, ◌++◌, map}
use Rattle.std.specs.Prelude.{ℕ, zero, suc, ◌+◌, ◌-◌, ◌*◌, ◌/◌, ◌%◌, ◌^◌, max, min, eqb, ◌==◌, nat_eq, leb, nat_le, ltb, nat_lt}
use Rattle.std.specs.Prelude.{length, take, drop, get_or, set, replicate, bit_xor}
use Prim.Native.String
use Prim.Native.Char.{code}
use Rattle.std.proofs.Math.Seq.{slice}

abbrev none : List ℕ
none = []

abbrev one : List ℕ
one = 9 ∷ []

abbrev two : List ℕ
two = 9 ∷ 300 ∷ []

abbrev four : List ℕ
four = 1 ∷ 2 ∷ 3 ∷ 4 ∷ []
";

const NUMBERS: [&str; 11] = ["0", "1", "2", "3", "7", "16", "255", "256", "0x04C11DB7", "0xFFFFFFFF", "8589934592"];
const LISTS: [&str; 4] = ["none", "one", "two", "four"];
const TRUTHS: [&str; 2] = ["true", "false"];

fn pairs(out: &mut Vec<String>, make: impl Fn(&str, &str) -> String, xs: &[&str], ys: &[&str]) {
    out.extend(xs.iter().flat_map(|x| ys.iter().map(|y| make(x, y)).collect::<Vec<_>>()));
}

fn numeric(out: &mut Vec<String>) {
    for op in ["+", "-", "*", "/", "%", "=="] {
        pairs(out, |x, y| format!("{x} {op} {y}"), &NUMBERS, &NUMBERS);
    }
    for f in ["eqb", "nat_eq", "leb", "nat_le", "ltb", "nat_lt", "max", "min", "bit_xor"] {
        pairs(out, |x, y| format!("{f} {x} {y}"), &NUMBERS, &NUMBERS);
    }
    pairs(out, |x, y| format!("{x} ^ {y}"), &NUMBERS[..5], &NUMBERS[..5]);
    out.extend(NUMBERS.iter().map(|x| format!("suc {x}")));
}

fn lists(out: &mut Vec<String>) {
    let small = &NUMBERS[..5];
    out.extend(LISTS.iter().map(|l| format!("length {l}")));
    out.extend(LISTS.iter().map(|l| format!("map suc {l}")));
    pairs(out, |x, y| format!("take {x} {y}"), small, &LISTS);
    pairs(out, |x, y| format!("drop {x} {y}"), small, &LISTS);
    pairs(out, |x, y| format!("get_or {y} {x} 77"), small, &LISTS);
    pairs(out, |x, y| format!("set {y} {x} 77"), small, &LISTS);
    pairs(out, |x, y| format!("slice 1 {x} {y}"), small, &LISTS);
    pairs(out, |x, y| format!("slice {x} 2 {y}"), small, &LISTS);
    pairs(out, |x, y| format!("replicate {x} {y}"), small, &NUMBERS[..2]);
    pairs(out, |x, y| format!("{x} ++ {y}"), &LISTS, &LISTS);
    pairs(out, |x, y| format!("{x} ∷ {y}"), small, &LISTS);
}

fn truths(out: &mut Vec<String>) {
    out.extend(TRUTHS.iter().map(|x| format!("not {x}")));
    out.extend(TRUTHS.iter().map(|x| format!("cond {x} 1 2")));
    pairs(out, |x, y| format!("{x} && {y}"), &TRUTHS, &TRUTHS);
    pairs(out, |x, y| format!("{x} || {y}"), &TRUTHS, &TRUTHS);
}

fn kind(v: &V) -> &'static str {
    match v {
        V::Num(_) => "ℕ",
        V::Bool(_) => "Bool",
        _ => "(List ℕ)",
    }
}

fn written(v: &V) -> Result<String, String> {
    match v {
        V::Num(n) => Ok(n.to_string()),
        V::Bool(b) => Ok(b.to_string()),
        v if value::is_list(v) => {
            let parts = value::all(v).iter().map(written).collect::<Result<Vec<_>, _>>()?;
            Ok(format!("({})", parts.into_iter().chain(["[]".to_string()]).collect::<Vec<_>>().join(" ∷ ")))
        }
        _ => Err("a value that no table has".to_string()),
    }
}

/// The module for the prover, to standard output.
pub fn statements(law: &mut Law) -> Result<i32, String> {
    let module = law.text("kit", HEAD)?;
    let mut all = Vec::new();
    numeric(&mut all);
    lists(&mut all);
    truths(&mut all);
    println!("{HEAD}");
    for (i, line) in all.iter().enumerate() {
        let v = law.argument(module, line)?;
        println!("pub s{i} : ◌≡◌ {{A = {}}} ({line}) {}\ns{i} = refl\n", kind(&v), written(&v)?);
    }
    Ok(0)
}
