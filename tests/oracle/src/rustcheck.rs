//! The program `offercheck` over the original Rust: what it is to print, and
//! how fast the original prints it.

mod decode;
mod json;
mod lines;
mod original;

/// The original sources, compiled where they stand.
#[allow(dead_code, clippy::all)]
mod lang {
    include!(concat!(env!("OUT_DIR"), "/lang.rs"));
}

use std::io::{self, BufWriter, Read, Write};

fn main() -> io::Result<()> {
    let mut doc = Vec::new();
    io::stdin().lock().read_to_end(&mut doc)?;
    let mut out = BufWriter::new(io::stdout().lock());
    lines::print(&doc, &mut out)?;
    out.flush()
}
