//! The original Rust checker behind a decoder for the byte form, and what is
//! compared with it.

mod bench;
mod causes;
mod compare;
mod crowds;
mod decode;
mod encode;
mod examples;
mod found;
mod generate;
mod json;
mod kept;
mod lines;
mod messages;
mod offer;
mod original;
mod rearranged;
mod samples;
mod shapes;
#[cfg(test)]
mod site_tests;
mod sites;
mod table;
#[cfg(test)]
mod tests;
mod told;
mod vectors;

/// The original sources, compiled where they stand.
#[allow(dead_code, clippy::all)]
mod lang {
    include!(concat!(env!("OUT_DIR"), "/lang.rs"));
}

use std::fs;
use std::path::Path;
use std::process::ExitCode;

const USAGE: &str = "usage:
  oracle vectors DIR        write DIR/vectors.bin and print its counts
  oracle same DIR           fail unless DIR/vectors.bin is what `vectors` writes
  oracle causes DIR         write DIR/vectors.bin with causes, and print counts
  oracle same-causes DIR    fail unless DIR/vectors.bin is what `causes` writes
  oracle sheets DIR         write DIR/findings.bin, and print counts
  oracle same-sheets DIR    fail unless DIR/findings.bin is what `sheets` writes
  oracle messages N SEED DIR
                            write DIR/messages.bin: N documents with all that
                            `offercheck` is to print for each
  oracle same-messages N SEED DIR
                            fail unless DIR/messages.bin is that
  oracle program PATH [N [SEED]]
                            what the program prints beside what it is to
                            print, on N documents
  oracle examples DIR       write the example documents to DIR/documents
  oracle items DIR N SEED   write DIR/vectors.bin with N other documents, and
                            print what the replay is to print
  oracle compare [N [SEED]] the library beside the decoder on N documents
  oracle findings [N [SEED]] its findings beside the original's on N documents
  oracle told [N [SEED]]     its messages beside the original's on N documents
  oracle sweep              the same on every small change of small documents
  oracle bench              time of the library beside the decoder
  oracle typing PROGRAM DIR time of typing beside reading, by the replay's program
  oracle programs PATH OTHER NOTHING
                            time of a program beside another and beside one that
                            does nothing, from start to end
  oracle write DIR          write the benchmark documents
  oracle table [N [SEED]]   what the original finds on N planted documents";

const NO_LIBRARY: &str = "this build has no library: \
build with `--features offer`; OFFER_LIB names the folder of liboffer.a";

fn main() -> ExitCode {
    let args: Vec<String> = std::env::args().skip(1).collect();
    let args: Vec<&str> = args.iter().map(String::as_str).collect();
    let done = match args[..] {
        ["vectors", dir] => write_vectors(Path::new(dir)),
        ["same", dir] => same_vectors(Path::new(dir)),
        ["causes", dir] => write_causes(Path::new(dir)),
        ["same-causes", dir] => same_causes(Path::new(dir)),
        ["sheets", dir] => write_sheets(Path::new(dir)),
        ["same-sheets", dir] => same_sheets(Path::new(dir)),
        ["messages", count, seed, dir] => {
            number(count).and_then(|n| write_messages(n, number(seed)?, Path::new(dir)))
        }
        ["same-messages", count, seed, dir] => {
            number(count).and_then(|n| same_messages(n, number(seed)?, Path::new(dir)))
        }
        ["program", path] => program(path, 20_000, 1),
        ["program", path, count] => number(count).and_then(|n| program(path, n, 1)),
        ["program", path, count, seed] => {
            number(count).and_then(|n| program(path, n, number(seed)?))
        }
        ["examples", dir] => write_examples(Path::new(dir)),
        ["items", dir, count, seed] => {
            number(count).and_then(|n| write_items(Path::new(dir), n, number(seed)?))
        }
        ["compare"] => compare(200_000, 1),
        ["compare", count] => number(count).and_then(|n| compare(n, 1)),
        ["compare", count, seed] => number(count).and_then(|n| compare(n, number(seed)?)),
        ["findings"] => found(100_000, 1),
        ["findings", count] => number(count).and_then(|n| found(n, 1)),
        ["findings", count, seed] => number(count).and_then(|n| found(n, number(seed)?)),
        ["told"] => told(20_000, 1),
        ["told", count] => number(count).and_then(|n| told(n, 1)),
        ["told", count, seed] => number(count).and_then(|n| told(n, number(seed)?)),
        ["sweep"] => sweep(),
        ["bench"] => library().and_then(|read| Ok(bench::bench(read, finder()?, teller()?))),
        ["typing", program, dir] => bench::typing(Path::new(program), Path::new(dir)),
        ["programs", path, other, nothing] => {
            bench::programs(Path::new(path), Path::new(other), Path::new(nothing))
        }
        ["write", dir] => write_samples(Path::new(dir)),
        ["table"] => table(20_000, 1),
        ["table", count] => number(count).and_then(|n| table(n, 1)),
        ["table", count, seed] => number(count).and_then(|n| table(n, number(seed)?)),
        _ => Err(USAGE.to_string()),
    };
    match done {
        Ok(()) => ExitCode::SUCCESS,
        Err(why) => {
            eprintln!("{why}");
            ExitCode::FAILURE
        }
    }
}

type Done = Result<(), String>;

fn number<T: std::str::FromStr>(digits: &str) -> Result<T, String> {
    digits.parse().map_err(|_| USAGE.to_string())
}

fn library() -> Result<offer::Reader, String> {
    offer::READER.ok_or(NO_LIBRARY.to_string())
}

fn agreed(all: bool) -> Done {
    match all {
        true => Ok(()),
        false => Err("the answers differ".to_string()),
    }
}

fn compare(count: usize, seed: u64) -> Done {
    agreed(compare::compare(library()?, count, seed))
}

fn finder() -> Result<offer::Finder, String> {
    offer::FINDER.ok_or(NO_LIBRARY.to_string())
}

fn teller() -> Result<offer::Teller, String> {
    offer::TELLER.ok_or(NO_LIBRARY.to_string())
}

fn found(count: usize, seed: u64) -> Done {
    agreed(found::compare(finder()?, count, seed))
}

fn told(count: usize, seed: u64) -> Done {
    let tell = teller()?;
    agreed(told::compare(tell, count, seed))
}

fn sweep() -> Done {
    agreed(compare::sweep(library()?))
}

fn write_vectors(dir: &Path) -> Done {
    let all = vectors::vectors();
    write_file(dir, vectors::FILE, &vectors::file(&all))?;
    vectors::report(&all);
    Ok(())
}

fn same_vectors(dir: &Path) -> Done {
    let all = vectors::vectors();
    same_file(dir, vectors::FILE, &vectors::file(&all))?;
    println!("{} vectors, the same", all.len());
    Ok(())
}

fn write_causes(dir: &Path) -> Done {
    let all = causes::records();
    write_file(dir, causes::FILE, &causes::file(&all))?;
    causes::report(&all);
    Ok(())
}

fn same_causes(dir: &Path) -> Done {
    let all = causes::records();
    same_file(dir, causes::FILE, &causes::file(&all))?;
    println!("{} documents with causes, the same", all.len());
    Ok(())
}

fn write_sheets(dir: &Path) -> Done {
    let all = kept::records();
    write_file(dir, kept::FILE, &kept::file(&all))?;
    kept::report(&all);
    Ok(())
}

fn same_sheets(dir: &Path) -> Done {
    let all = kept::records();
    same_file(dir, kept::FILE, &kept::file(&all))?;
    println!("{} documents with findings, the same", all.len());
    Ok(())
}

fn write_messages(count: usize, seed: u64, dir: &Path) -> Done {
    let all = messages::records(count, seed);
    write_file(dir, messages::FILE, &messages::file(&all))?;
    messages::report(&all);
    match count < 2_000 || messages::is_whole(&all) {
        true => Ok(()),
        false => Err("a kind of answer, a site or a cause is missing".to_string()),
    }
}

fn same_messages(count: usize, seed: u64, dir: &Path) -> Done {
    let all = messages::records(count, seed);
    same_file(dir, messages::FILE, &messages::file(&all))?;
    println!("{} documents with what is printed, the same", all.len());
    Ok(())
}

/// Each example with what is printed for it; a command runs in the folder.
fn write_examples(dir: &Path) -> Done {
    let documents = &dir.join("documents");
    for example in examples::examples() {
        let (name, sentence) = (example.name, example.sentence);
        let bytes = match example.made {
            examples::Made::Lines(lines) => {
                let file = examples::hex_file(sentence, &lines);
                write_file(documents, &format!("{name}.hex"), file.as_bytes())?;
                lines.into_iter().flat_map(|line| line.bytes).collect()
            }
            examples::Made::Command(command) => {
                let file = format!("# {sentence}\n{command}\n");
                write_file(documents, &format!("{name}.sh"), file.as_bytes())?;
                run_command(dir, command)?
            }
        };
        write_file(documents, &format!("{name}.out"), &messages::output(&bytes))?;
    }
    write_file(dir, "README.md", examples::readme().as_bytes())
}

/// What the command writes.
fn run_command(dir: &Path, command: &str) -> Result<Vec<u8>, String> {
    let mut shell = std::process::Command::new("sh");
    let output = shell.arg("-c").arg(command).current_dir(dir).output();
    output.map(|o| o.stdout).map_err(|e| e.to_string())
}

fn program(path: &str, count: usize, seed: u64) -> Done {
    messages::program(Path::new(path), count, seed).and_then(agreed)
}

fn write_items(dir: &Path, count: usize, seed: u64) -> Done {
    let all = causes::many(count, seed);
    let path = dir.join(causes::FILE);
    fs::create_dir_all(dir)
        .and_then(|()| fs::write(&path, causes::file(&all)))
        .map_err(|e| format!("{}: {e}", path.display()))?;
    println!("{}", causes::due_line(&all));
    Ok(())
}

/// The file must have just these bytes.
fn same_file(dir: &Path, name: &str, bytes: &[u8]) -> Done {
    let path = dir.join(name);
    let kept = fs::read(&path).map_err(|e| format!("{}: {e}", path.display()))?;
    match kept == bytes {
        true => Ok(()),
        false => Err(format!("{} is not what is made now", path.display())),
    }
}

fn table(count: usize, seed: u64) -> Done {
    let table = table::Table::of(count, seed);
    table.print();
    match table.is_whole() {
        true => Ok(()),
        false => Err("a site or cause is missing, or one is there that cannot be".to_string()),
    }
}

fn write_samples(dir: &Path) -> Done {
    let costly = [
        samples::deepest(),
        samples::longest_guard(),
        samples::roomiest(),
    ];
    for sample in samples::samples().into_iter().chain(costly) {
        write_file(dir, &format!("{}.cbor", sample.name), &sample.bytes)?;
    }
    Ok(())
}

fn write_file(dir: &Path, name: &str, bytes: &[u8]) -> Done {
    let path = dir.join(name);
    fs::create_dir_all(dir)
        .and_then(|()| fs::write(&path, bytes))
        .map_err(|e| format!("{}: {e}", path.display()))?;
    println!("{} ({} bytes)", path.display(), bytes.len());
    Ok(())
}
