//! Values as text.

use crate::law::Law;
use crate::value::{self, Ty, V};

fn list(law: &mut Law, v: &V) -> Result<String, String> {
    if let (Some(b), true) = (value::as_bytes(v), value::len(v) > 0) {
        let digits: Vec<String> = b.iter().map(|b| format!("{b:02X}")).collect();
        return Ok(format!("hex:{}", digits.join("")));
    }
    let parts = value::all(v).iter().map(|x| text(law, x)).collect::<Result<Vec<_>, _>>()?;
    Ok(format!("[{}]", parts.join(", ")))
}

pub fn text(law: &mut Law, v: &V) -> Result<String, String> {
    let v = law.machine.force(v.clone()).map_err(|e| format!("{e:?}"))?;
    Ok(match &v {
        V::Unit => "tt".to_string(),
        V::Num(n) => n.to_string(),
        V::Bool(b) => b.to_string(),
        V::Con(def, args) => {
            let mut out = law.prog.infos[*def as usize].name.clone();
            for a in args.iter() {
                out += &format!(" {}", text(law, a)?);
            }
            if args.is_empty() {
                out
            } else {
                format!("({out})")
            }
        }
        V::Rec(r) => {
            let mut out = Vec::new();
            for (n, x) in r.names.iter().zip(&r.vals) {
                let name = law.machine.names[*n as usize].clone();
                out.push(format!("{name} = {}", text(law, x)?));
            }
            format!("{{ {} }}", out.join("; "))
        }
        V::Fun(_) => "a function".to_string(),
        V::Thunk(_) => "a value".to_string(),
        V::Ty(t) => match &**t {
            Ty::True => "Unit".to_string(),
            Ty::False => "⊥".to_string(),
            _ => match crate::cases::decide(law, &v).map_err(|e| format!("{e:?}"))? {
                Some(b) => format!("a statement that is {b}"),
                None => "a type".to_string(),
            },
        },
        list_like => list(law, list_like)?,
    })
}
