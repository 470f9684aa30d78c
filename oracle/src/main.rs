//! The oracle: the published Rust run on the mill's sheets, and a plain
//! reference for the whole call beside it. See README.md.

mod bench_sheets;
mod boundary;
mod cases;
mod compare;
mod damage;
mod model;
mod outcome;
mod plan;
mod published;
mod random;
mod random_sheets;
mod reference;
mod rounds;
mod samples;
mod sheet;
mod survey;
mod vectors;
mod walks;

use std::error::Error;
use std::io::Read;
use std::path::Path;
use std::process::ExitCode;

const USAGE: &str = "usage: oracle compare | survey | vectors FOLDER SAMPLES | fresh FOLDER SEED \
                     | plan [WORD...] | bench-sheets FOLDER | rounds";

/// The sheet given as words, or else on standard input as bytes.
fn sheet_bytes(words: &[String]) -> Result<Vec<u8>, Box<dyn Error>> {
    let mut bytes = Vec::new();
    if words.is_empty() {
        std::io::stdin().read_to_end(&mut bytes)?;
    } else {
        let words: Vec<u32> = words.iter().map(|word| word.parse()).collect::<Result<_, _>>()?;
        bytes = sheet::bytes_of(&words);
    }
    Ok(bytes)
}

fn main() -> Result<ExitCode, Box<dyn Error>> {
    let arguments: Vec<String> = std::env::args().skip(1).collect();
    match arguments.split_first() {
        Some((command, [])) if command == "compare" => {
            return Ok(ExitCode::from(u8::from(compare::compare() > 0)));
        }
        Some((command, [])) if command == "survey" => survey::print_survey(),
        Some((command, [folder, samples])) if command == "vectors" => {
            vectors::write_vectors(Path::new(folder), Path::new(samples))?;
        }
        Some((command, [folder, seed])) if command == "fresh" => {
            vectors::write_fresh(Path::new(folder), seed.parse()?)?;
        }
        Some((command, [folder])) if command == "bench-sheets" => {
            bench_sheets::write_sheets(Path::new(folder))?;
        }
        Some((command, [])) if command == "rounds" => rounds::print_rounds(&sheet_bytes(&[])?),
        Some((command, words)) if command == "plan" => plan::print_plan(&sheet_bytes(words)?),
        _ => return Err(USAGE.into()),
    }
    Ok(ExitCode::SUCCESS)
}
