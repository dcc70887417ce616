//! The kit's functions that the definitions use, by their modules: the one table of what is built in.

use crate::code::Prim;
use crate::load::Res;

const PRELUDE: &str = "std.Prelude";

/// Each function of the kit: the module that definitions have it from, its name, how many arguments it takes.
pub const FUNCTIONS: [(&str, &str, Prim, usize); 40] = [
    (PRELUDE, "cond", Prim::Cond, 3),
    (PRELUDE, "not", Prim::Not, 1),
    (PRELUDE, "&&", Prim::And, 2),
    (PRELUDE, "||", Prim::Or, 2),
    (PRELUDE, "∷", Prim::Cons, 2),
    (PRELUDE, "++", Prim::Append, 2),
    (PRELUDE, "map", Prim::Map, 2),
    (PRELUDE, "suc", Prim::Suc, 1),
    (PRELUDE, "+", Prim::Add, 2),
    (PRELUDE, "-", Prim::Sub, 2),
    (PRELUDE, "*", Prim::Mul, 2),
    (PRELUDE, "/", Prim::Div, 2),
    (PRELUDE, "%", Prim::Mod, 2),
    (PRELUDE, "^", Prim::Pow, 2),
    (PRELUDE, "max", Prim::Max, 2),
    (PRELUDE, "min", Prim::Min, 2),
    (PRELUDE, "≤", Prim::Le, 2),
    (PRELUDE, "<", Prim::Lt, 2),
    (PRELUDE, "eqb", Prim::Eqb, 2),
    (PRELUDE, "==", Prim::Eqb, 2),
    (PRELUDE, "nat_eq", Prim::Eqb, 2),
    (PRELUDE, "leb", Prim::Leb, 2),
    (PRELUDE, "nat_le", Prim::Leb, 2),
    (PRELUDE, "ltb", Prim::Ltb, 2),
    (PRELUDE, "nat_lt", Prim::Ltb, 2),
    (PRELUDE, "T", Prim::T, 1),
    (PRELUDE, "length", Prim::Length, 1),
    (PRELUDE, "take", Prim::Take, 2),
    (PRELUDE, "drop", Prim::Drop, 2),
    (PRELUDE, "get_or", Prim::GetOr, 3),
    (PRELUDE, "set", Prim::Set, 3),
    (PRELUDE, "replicate", Prim::Replicate, 2),
    (PRELUDE, "bit_xor", Prim::BitXor, 2),
    ("std.proofs.Math.Seq", "slice", Prim::Slice, 3),
    ("Prim.Native.String", "∷", Prim::Cons, 2),
    ("Prim.Native.String", "++", Prim::Append, 2),
    ("Prim.Native.Char", "code", Prim::Code, 1),
    (PRELUDE, "≡", Prim::Eq, 2),
    ("", "×", Prim::Pair, 2),
    (PRELUDE, "⊎", Prim::Either, 2),
];

const TYPES: [(&str, &str); 7] = [
    (PRELUDE, "Bool"),
    (PRELUDE, "List"),
    (PRELUDE, "ℕ"),
    ("Prim.Native.String", "String"),
    ("Prim.Native.Char", "Char"),
    ("", "Type"),
    ("", "Set"),
];

/// The modules that pass a name on, or have it first; one name means one thing in all of them.
const ALIKE: [&str; 8] = [
    "std.proofs.Common",
    "std.Int.Bits",
    "mathlib.Core.Bool",
    "mathlib.Core.List",
    "mathlib.Core.Path",
    "Prim.Native.Nat",
    "lib.Dec",
    "lib.ListN",
];

/// The kit's types of cases that definitions use, as their crate declares them: the module that has them, and their declaration.
pub const ENUMS: [(&str, &str); 2] =
    [("std.declared.option", "Option<T> { Some(T), None }"), ("std.declared.result", "Result<T, E> { Ok(T), Err(E) }")];

/// The module in which a type of cases or one of its cases is declared, where a module that passes it on is named.
pub fn declared(module: &str, name: &str) -> Option<&'static str> {
    match name {
        _ if module != PRELUDE && !ALIKE.contains(&module) => None,
        "Option" => Some("std.declared.option.Option"),
        "Some" | "None" => Some("std.declared.option.Option.TheVariants"),
        "Result" => Some("std.declared.result.Result"),
        "Ok" | "Err" => Some("std.declared.result.Result.TheVariants"),
        _ => None,
    }
}

pub fn arity(prim: Prim) -> usize {
    FUNCTIONS.iter().find(|f| f.2 == prim).map_or(0, |f| f.3)
}

/// What a name of the kit stands for; a module "" has what needs no import.
pub fn kit(module: &str, name: &str) -> Option<Res> {
    let module = if ALIKE.contains(&module) { PRELUDE } else { module };
    match (module, name) {
        (PRELUDE, "true") => return Some(Res::Bool(true)),
        (PRELUDE, "false") => return Some(Res::Bool(false)),
        (PRELUDE | "Prim.Native.String", "[]") => return Some(Res::Nil),
        (PRELUDE, "zero") => return Some(Res::Zero),
        ("", "tt") => return Some(Res::Unit),
        ("", "Unit") => return Some(Res::Truth(true)),
        ("", "⊥") => return Some(Res::Truth(false)),
        // in proofs alone
        ("", "absurd" | "omega" | "_") => return Some(Res::Foreign(name.to_string())),
        _ => {}
    }
    if TYPES.contains(&(module, name)) {
        return Some(Res::Type);
    }
    FUNCTIONS.iter().find(|f| f.0 == module && f.1 == name).map(|f| Res::Prim(f.2))
}
