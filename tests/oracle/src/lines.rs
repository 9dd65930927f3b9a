//! What the program `offercheck` is to print, by the original: document 01,
//! "Text".

use crate::decode::{answer, decode};
use crate::original::findings;
use std::io::{self, Write};

/// The words that the program lends; a finding takes five.
pub const LENT: usize = 16_380;

/// All that is printed for the bytes of standard input.
pub fn print(doc: &[u8], out: &mut impl Write) -> io::Result<()> {
    let decoded = decode(doc);
    let Ok(ir) = &decoded else {
        let (number, place) = answer(&decoded);
        return writeln!(out, "refused {number} at {place}");
    };
    let found = findings(ir);
    let all = found.errors.len() + found.warnings.len();
    if 5 * all > LENT {
        return writeln!(out, "refused 10 at {all}");
    }
    for error in &found.errors {
        writeln!(out, "{error}")?;
    }
    for warning in &found.warnings {
        writeln!(out, "warning: {warning}")?;
    }
    let (errors, warnings) = (found.errors.len(), found.warnings.len());
    writeln!(out, "{errors} errors, {warnings} warnings")
}
