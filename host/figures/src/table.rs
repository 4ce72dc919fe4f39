//! The table of docs/BENCHMARKS.md.

use std::fmt::Write;

use crate::crates::Crate;

pub fn of(crates: &[Crate]) -> String {
    let mut out = String::from("| Crate | Code | Spec | Proof | Edits |\n|---|---|---|---|---|\n");
    for c in crates {
        let _ = writeln!(
            out,
            "| `{}` | {} | {} | {} | {} |",
            c.name, c.code, c.spec, c.proof, c.edits
        );
    }
    let sum = |f: fn(&Crate) -> usize| crates.iter().map(f).sum::<usize>();
    let _ = writeln!(
        out,
        "| all | {} | {} | {} | {} |",
        sum(|c| c.code),
        sum(|c| c.spec),
        sum(|c| c.proof),
        sum(|c| c.edits)
    );
    out
}
