//! Reads a document from standard input and prints what is found in it, as the
//! program offercheck does. It asks for one message at a time.

use offer::{findings, message, Refusal};
use std::io::{self, Read, Write};

fn print(doc: &[u8], out: &mut impl Write) -> io::Result<Result<(), Refusal>> {
    let counts = match findings(doc, &mut [0; 16_380]) {
        Ok(counts) => counts,
        Err(refusal) => return Ok(Err(refusal)),
    };
    let mut text = [0; 4096];
    for number in 0..counts.errors + counts.warnings {
        let line = match message(doc, number, &mut text) {
            Ok(line) => line,
            Err(refusal) => return Ok(Err(refusal)),
        };
        let mark = if number < counts.errors {
            ""
        } else {
            "warning: "
        };
        writeln!(out, "{mark}{line}")?;
    }
    let (errors, warnings) = (counts.errors, counts.warnings);
    writeln!(out, "{errors} errors, {warnings} warnings")?;
    Ok(Ok(()))
}

fn main() -> io::Result<()> {
    let mut doc = Vec::new();
    io::stdin().read_to_end(&mut doc)?;
    let mut out = io::stdout().lock();
    if let Err(Refusal { number, place }) = print(&doc, &mut out)? {
        writeln!(out, "refused {number} at {place}")?;
    }
    Ok(())
}
