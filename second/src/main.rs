use std::borrow::Cow;
use std::ffi::OsString;
use std::io::{self, BufWriter, Read, Write};
use std::process::ExitCode;

use second::makers::{
    cases, catalogues, chases, clerks, demo, headers, loads, make, random, random_chase,
    random_clerk, raw, stream,
};
use second::model::{chase, clerk, hunt, printout, program, trial, vectors};

const USAGE: &str = "usage: second vectors|trial|receive|chase|clerk|printout < input
       second hunt [K] < input
       second example|headers|cases|page|chases|chase-page|clerk-cases|clerk-page|demo
       second printout-sample
       second case|chase-case|clerk-case NAME
       second random|chase-random|clerk-random SEED COMMANDS
       second catalogue-random SEED
       second stream SEED FRAMES
       second raw SEED OCTETS
       second load NAME SIZE";

fn main() -> ExitCode {
    let words: Vec<OsString> = std::env::args_os().skip(1).collect();
    let words: Vec<Cow<str>> = words.iter().map(|word| word.to_string_lossy()).collect();
    let words: Vec<&str> = words.iter().map(Cow::as_ref).collect();
    let mut out = BufWriter::new(io::stdout().lock());
    if !carry_out(&words, &mut out) {
        let _ = writeln!(io::stderr(), "{USAGE}");
        return ExitCode::from(2);
    }
    let _ = out.flush();
    ExitCode::SUCCESS
}

/// Carries out a sub-command; false if the words are none.
fn carry_out(words: &[&str], out: &mut dyn Write) -> bool {
    run_program(words, out) || print_all(words, out) || make_one(words, out)
}

/// The programs, which read standard input.
fn run_program(words: &[&str], out: &mut dyn Write) -> bool {
    match words {
        ["vectors"] => vectors::run(&whole_input(), out),
        ["trial"] => trial::run(&whole_input(), out),
        ["receive"] => program::run(&mut io::stdin().lock(), out),
        ["chase"] => chase::run(&whole_input(), out),
        ["hunt", behind @ ..] => hunt::run(behind, &mut io::stdin().lock(), out, &mut io::stderr()),
        ["clerk"] => clerk::run(&whole_input(), out),
        ["printout"] => printout::run(&mut io::stdin().lock(), out),
        _ => return false,
    }
    true
}

/// What is always the same.
fn print_all(words: &[&str], out: &mut dyn Write) -> bool {
    match words {
        ["example"] => write_example(out),
        ["headers"] => headers::run(out),
        ["cases"] => cases::write_names(out),
        ["demo"] => demo::run(out),
        ["page"] => cases::write_page(out),
        ["chases"] => chases::write_names(out),
        ["chase-page"] => chases::write_page(out),
        ["clerk-cases"] => clerks::write_names(out),
        ["clerk-page"] => clerks::write_page(out),
        ["printout-sample"] => catalogues::write_sample(out),
        _ => return false,
    }
    true
}

/// What has a name, or a seed and a size.
fn make_one(words: &[&str], out: &mut dyn Write) -> bool {
    match words {
        ["case", name] => cases::write_case(name, out),
        ["chase-case", name] => chases::write_case(name, out),
        ["clerk-case", name] => clerks::write_case(name, out),
        ["random", seed, commands] => with_numbers(seed, commands, random::run, out),
        ["chase-random", seed, commands] => with_numbers(seed, commands, random_chase::run, out),
        ["clerk-random", seed, commands] => with_numbers(seed, commands, random_clerk::run, out),
        ["stream", seed, frames] => with_numbers(seed, frames, stream::run, out),
        ["raw", seed, octets] => with_numbers(seed, octets, raw::run, out),
        ["catalogue-random", seed] => match seed.parse() {
            Ok(seed) => {
                catalogues::run(seed, out);
                true
            }
            Err(_) => false,
        },
        ["load", name, size] => size.parse().is_ok_and(|size| loads::run(name, size, out)),
        _ => false,
    }
}

/// A sub-command with a seed and a size; false if they are no numbers.
fn with_numbers(
    seed: &str,
    size: &str,
    run: fn(u64, u64, &mut dyn Write),
    out: &mut dyn Write,
) -> bool {
    match (seed.parse(), size.parse()) {
        (Ok(seed), Ok(size)) => run(seed, size, out),
        _ => return false,
    }
    true
}

fn whole_input() -> Vec<u8> {
    let mut script = Vec::new();
    let _ = io::stdin().lock().read_to_end(&mut script);
    script
}

fn write_example(out: &mut dyn Write) {
    let _ = out.write_all(&make::example_frame(false));
}
