//! `oracle answer`: case lines in, answer lines out. `oracle cases LIST SEED`: a stored list of cases,
//! `plane`, `pattern`, `plan`, `direct`, `gradient`, `step` or `columns`.

use std::io::{self, BufWriter, Write};
use std::process::ExitCode;

fn main() -> ExitCode {
    let words: Vec<String> = std::env::args().skip(1).collect();
    let words: Vec<&str> = words.iter().map(String::as_str).collect();
    let done = match words[..] {
        ["answer"] => answer_all(),
        ["cases", "plane", seed] => write_cases(oracle::cases::plane, seed),
        ["cases", "pattern", seed] => write_cases(oracle::cases::pattern, seed),
        ["cases", "plan", seed] => write_cases(oracle::cases::plan, seed),
        ["cases", "direct", seed] => write_cases(oracle::cases::direct, seed),
        ["cases", "gradient", seed] => write_cases(oracle::cases::gradient, seed),
        ["cases", "step", seed] => write_cases(oracle::cases::step, seed),
        ["cases", "columns", seed] => write_cases(oracle::cases::columns, seed),
        _ => Err(
            "usage: oracle answer | oracle cases plane|pattern|plan|direct|gradient|step|columns SEED"
                .into(),
        ),
    };
    match done {
        Ok(()) => ExitCode::SUCCESS,
        Err(problem) => {
            eprintln!("oracle: {problem}");
            ExitCode::from(2)
        }
    }
}

fn answer_all() -> Result<(), Box<dyn std::error::Error>> {
    let mut out = BufWriter::new(io::stdout().lock());
    for line in io::stdin().lines() {
        let line = line?;
        let answer = oracle::answer::answer(&line).ok_or(format!("not a case: {line}"))?;
        writeln!(out, "{answer}")?;
    }
    Ok(out.flush()?)
}

fn write_cases(
    cases: fn(u64) -> Vec<String>,
    seed: &str,
) -> Result<(), Box<dyn std::error::Error>> {
    let mut out = BufWriter::new(io::stdout().lock());
    for line in cases(seed.parse()?) {
        writeln!(out, "{line}")?;
    }
    Ok(out.flush()?)
}
