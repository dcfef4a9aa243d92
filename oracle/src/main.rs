//! Calls to minikalman 0.8.1 and its answers, as lines of text. FORMAT.md says what a line holds.

mod calls;
mod check;
mod examples;
mod faults;
mod generate;
mod inputs;
mod model;
mod original;
mod selftest;

use calls::{write_line, Function, Tag, ALL};
use faults::Fault;
use generate::{asked_lines, Calls, Plan};
use std::io::{BufWriter, Write};
use std::process::ExitCode;

const USAGE: &str = "usage:
  oracle [--seed N] [--lines N] [--functions a,b,c]   a list, on standard output
  oracle --small [--seed N]                           the fixed list of checked examples and some
                                                      3,250 lines, mostly of small sizes
  oracle .. --fault NAME                              the same list with the answers of a program that makes
                                                      this mistake; --faults lists them
  oracle --check [FILE]                               reads a list (standard input if no file), runs the
                                                      original again, reports differences and counts
  oracle --self-test                                  the toolchain, the checked examples, agreement
  oracle --names                                      the functions, one a line
N is decimal; without --seed it is 1, without --lines 20000.";

const SMALL_LINES: usize = 2950;

fn fail(what: &str) -> ExitCode {
    eprintln!("oracle: {what}\n{USAGE}");
    ExitCode::from(2)
}

fn main() -> ExitCode {
    let mut seed = 1u64;
    let mut lines = None;
    let mut functions: Vec<Function> = ALL.to_vec();
    let mut small = false;
    let mut fault = None;
    let mut args = std::env::args().skip(1);
    while let Some(arg) = args.next() {
        match arg.as_str() {
            "--seed" | "--lines" => {
                let Some(n) = args.next().and_then(|n| n.parse::<u64>().ok()) else {
                    return fail(&format!("{arg} takes a number"));
                };
                match arg.as_str() {
                    "--seed" => seed = n,
                    _ => lines = Some(n as usize),
                }
            }
            "--functions" => {
                let names = args.next().unwrap_or_default();
                functions.clear();
                for name in names.split(',') {
                    match Function::named(name) {
                        Some(f) => functions.push(f),
                        None => return fail(&format!("no function '{name}'")),
                    }
                }
            }
            "--small" => small = true,
            "--fault" => {
                let name = args.next().unwrap_or_default();
                fault = faults::NAMES.iter().find(|(n, _)| *n == name).map(|(_, f)| *f);
                if fault.is_none() {
                    return fail(&format!("no fault '{name}'"));
                }
            }
            "--faults" => {
                faults::NAMES.iter().for_each(|(name, _)| println!("{name}"));
                return ExitCode::SUCCESS;
            }
            "--check" => {
                let ok = match args.next() {
                    None => check::run(std::io::stdin().lock()),
                    Some(path) => match std::fs::File::open(&path) {
                        Ok(file) => check::run(std::io::BufReader::new(file)),
                        Err(e) => return fail(&format!("{path}: {e}")),
                    },
                };
                return if ok {
                    ExitCode::SUCCESS
                } else {
                    ExitCode::FAILURE
                };
            }
            "--self-test" => {
                return if selftest::run() {
                    ExitCode::SUCCESS
                } else {
                    ExitCode::FAILURE
                };
            }
            "--names" => {
                ALL.iter().for_each(|f| println!("{}", f.name()));
                return ExitCode::SUCCESS;
            }
            _ => return fail(&format!("'{arg}' is no option")),
        }
    }
    if functions.is_empty() {
        return fail("no functions");
    }
    let plan = if small { Plan::Small } else { Plan::Even };
    let count = lines.unwrap_or(if small { SMALL_LINES } else { 20_000 });
    match list(plan, seed, count, &functions, fault) {
        Ok(()) => ExitCode::SUCCESS,
        Err(e) => {
            eprintln!("oracle: {e}");
            ExitCode::FAILURE
        }
    }
}

fn list(
    plan: Plan,
    seed: u64,
    count: usize,
    functions: &[Function],
    fault: Option<Fault>,
) -> Result<(), String> {
    let mut out = BufWriter::with_capacity(1 << 16, std::io::stdout().lock());
    let mut put = |line: &str| writeln!(out, "{line}").map_err(|e| e.to_string());
    put("# Calls and answers of minikalman 0.8.1 (f32, feature std) under the rules of docs/RULES.md; see oracle/FORMAT.md.")?;
    let names: Vec<_> = functions.iter().map(|f| f.name()).collect();
    let names = if functions.len() == ALL.len() {
        "all".into()
    } else {
        names.join(",")
    };
    let mode = if plan == Plan::Small { "--small " } else { "" };
    put(&format!(
        "# Made by: oracle {mode}--seed {seed} --lines {count}, functions: {names}"
    ))?;
    let mut line = String::new();
    let mut examples: Vec<_> = vec![];
    if plan == Plan::Small {
        examples.extend(examples::all().into_iter().map(|e| e.call));
        examples.extend(asked_lines(seed))
    }
    let examples = examples
        .into_iter()
        .filter(|c| functions.contains(&c.function));
    for call in examples.chain(Calls::new(plan, seed, functions).take(count)) {
        let (tag, answer) = match fault {
            Some(fault) => (Tag::Rust, faults::with(fault, || model::answer(&call)).0),
            None => original::answer(&call)
                .map_err(|e| format!("{} at sizes {:?}: {e}", call.function.name(), call.sizes))?,
        };
        write_line(&mut line, &call, tag, &answer);
        put(&line)?
    }
    out.flush().map_err(|e| e.to_string())
}
