//! The command line of the harness.

use std::env;
use std::fs;
use std::io::{self, Read, Write};
use std::panic;
use std::path::Path;
use std::process::ExitCode;
use std::time::Duration;

use harness::bench;
use harness::code::{Code, MODEL, PROVED};
use harness::comparisons;
use harness::fuzz;
use harness::generate::example_input;
use harness::model;
use harness::progress;
use harness::property;
use harness::samples::write_samples;
use harness::side;

const USAGE: &str = "usage:
  harness report FILE                    print the plan for FILE (- for standard input)
  harness sample                         write the input of the printed example
  harness samples DIR                    write small clusters and their plans into DIR
  harness property --cases N --seed S    check what recovery promises on generated clusters
  harness compare --cases N --seed S     compare so many generated cases of every kind of call
  harness fuzz --seconds N --seed S      compare all calls by the model and the proved code
  harness table                          try all damaged sets of four entries on three replicas
  harness bench                          time the proved functions beside the model's
  harness help                           print this (also -h, --help)

Exit status: 0 done, 1 failed or found something wrong, 2 called wrongly.
";

/// Why a command does not succeed.
enum Failure {
    /// It was called wrongly.
    Usage(String),
    /// It could not be done, or it found something wrong.
    Failed(String),
}

impl From<String> for Failure {
    fn from(message: String) -> Failure {
        Failure::Failed(message)
    }
}

fn usage<T>(message: impl Into<String>) -> Result<T, Failure> {
    Err(Failure::Usage(message.into()))
}

fn failed<T>(message: impl Into<String>) -> Result<T, Failure> {
    Err(Failure::Failed(message.into()))
}

fn main() -> ExitCode {
    let arguments: Vec<String> = env::args_os()
        .skip(1)
        .map(|argument| argument.to_string_lossy().into_owned())
        .collect();
    match dispatch(&arguments) {
        Ok(()) => ExitCode::SUCCESS,
        Err(Failure::Failed(message)) => {
            eprintln!("harness: {message}");
            ExitCode::FAILURE
        }
        Err(Failure::Usage(message)) => {
            eprint!("harness: {message}\n{USAGE}");
            ExitCode::from(2)
        }
    }
}

fn dispatch(arguments: &[String]) -> Result<(), Failure> {
    let Some((subcommand, rest)) = arguments.split_first() else {
        return usage("a subcommand is missing");
    };
    if subcommand == "help" || arguments.iter().any(|one| one == "-h" || one == "--help") {
        return print_bytes(USAGE.as_bytes());
    }
    match subcommand.as_str() {
        "report" => report(rest),
        "sample" => sample(rest),
        "samples" => all_samples(rest),
        "property" => check_property(rest),
        "compare" => compare_cases(rest),
        "fuzz" => fuzz_calls(rest),
        "table" => table(rest),
        "bench" => time_functions(rest),
        other => usage(format!("unknown subcommand '{other}'")),
    }
}

/// Prints what the printing program prints.
fn report(arguments: &[String]) -> Result<(), Failure> {
    let [file] = arguments else {
        return usage("report takes one FILE");
    };
    if file.starts_with("--") {
        return usage(format!("unknown flag '{file}'"));
    }
    let input = read_input(file).map_err(|error| format!("cannot read '{file}': {error}"))?;
    print_bytes(&model::report(&input))
}

/// Writes the input of the printed example.
fn sample(arguments: &[String]) -> Result<(), Failure> {
    no_arguments("sample", arguments)?;
    print_bytes(&example_input())
}

/// Writes every sample and its plan.
fn all_samples(arguments: &[String]) -> Result<(), Failure> {
    let [folder] = arguments else {
        return usage("samples takes one DIR");
    };
    if folder.starts_with("--") {
        return usage(format!("unknown flag '{folder}'"));
    }
    write_samples(Path::new(folder))
        .or_else(|error| failed(format!("cannot write '{folder}': {error}")))
}

fn read_input(file: &str) -> io::Result<Vec<u8>> {
    if file != "-" {
        return fs::read(file);
    }
    let mut input = Vec::new();
    io::stdin().lock().read_to_end(&mut input)?;
    Ok(input)
}

fn print_bytes(bytes: &[u8]) -> Result<(), Failure> {
    let mut output = io::stdout().lock();
    output
        .write_all(bytes)
        .and_then(|()| output.flush())
        .or_else(|error| failed(format!("cannot write the output: {error}")))
}

/// Plays generated cases of every kind, on the model and on the proved code, which must go alike.
fn check_property(arguments: &[String]) -> Result<(), Failure> {
    let [cases, seed] = flag_values(arguments, ["--cases", "--seed"])?;
    let all = cases.saturating_mul(6);
    let shown = progress::show(move |done, _| format!("property: {done} of {all} cases"));
    let text = property_text(MODEL, seed, cases)?;
    let proved = property_text(PROVED, seed, cases)?;
    // The printing program is compared with the model's in tests/report.rs.
    property::check_reports(MODEL, seed, cases)?;
    drop(shown);
    print_bytes(text.as_bytes())?;
    if proved != text {
        return failed(format!("the proved code goes otherwise:\n{proved}"));
    }
    Ok(())
}

/// What came up, if every conclusion holds.
fn property_text(code: Code, seed: u64, cases: u64) -> Result<String, String> {
    let agreed = property::check_agreed(code, seed, cases)?;
    let arbitrary = property::check_arbitrary(code, seed, cases)?;
    property::check_images(code, seed, cases)?;
    Ok(format!(
        "agreed clusters: {cases} cases\n{agreed}\n\
         arbitrary clusters: {cases} cases\n{arbitrary}\n\
         images: {cases} cases\nall conclusions hold\n"
    ))
}

/// Compares as many cases as are asked for, as the tests compare fewer.
fn compare_cases(arguments: &[String]) -> Result<(), Failure> {
    let [cases, seed] = flag_values(arguments, ["--cases", "--seed"])?;
    for (kind, comparison) in comparisons::KINDS {
        let shown = progress::show(move |done, _| format!("{kind}: {done} of {cases} cases"));
        let compared = panic::catch_unwind(|| comparison(seed, cases));
        drop(shown);
        let Ok(tally) = compared else {
            return failed(format!("{kind}: see the first message above"));
        };
        print_bytes(format!("{kind}: {cases} cases\n{tally}").as_bytes())?;
    }
    print_bytes(b"no difference\n")
}

/// Makes generated calls of every kind by both for some time.
fn fuzz_calls(arguments: &[String]) -> Result<(), Failure> {
    let [seconds, seed] = flag_values(arguments, ["--seconds", "--seed"])?;
    // A side that panics is told once, as a difference.
    panic::set_hook(Box::new(|_| ()));
    let shown = progress::show(move |done, time| {
        let time = time.as_secs();
        format!("fuzz: {done} rounds in {time} of {seconds} s")
    });
    let fuzzed = fuzz::fuzz(
        &side::MODEL,
        &side::PROVED,
        seed,
        Duration::from_secs(seconds),
    );
    drop(shown);
    drop(panic::take_hook());
    print_bytes(fuzzed.to_string().as_bytes())?;
    match fuzzed.difference {
        None => Ok(()),
        Some(_) => failed("the model and the proved code differ"),
    }
}

/// Prints the times; they say something only of a release build.
fn time_functions(arguments: &[String]) -> Result<(), Failure> {
    no_arguments("bench", arguments)?;
    let shown = progress::show(|done, _| format!("bench: {done} of {} calls", bench::TIMED));
    let table = bench::bench();
    drop(shown);
    print_bytes(table.to_string().as_bytes())
}

fn no_arguments(subcommand: &str, arguments: &[String]) -> Result<(), Failure> {
    match arguments.first() {
        None => Ok(()),
        Some(flag) if flag.starts_with("--") => usage(format!("unknown flag '{flag}'")),
        Some(extra) => usage(format!("{subcommand} takes no argument, not '{extra}'")),
    }
}

fn table(arguments: &[String]) -> Result<(), Failure> {
    no_arguments("table", arguments)?;
    let all = property::table::SETS;
    let shown = progress::show(move |done, _| format!("table: {done} of {all} sets"));
    let table = property::table::table(MODEL)?;
    drop(shown);
    let text = format!(
        "recovered {}\nwaiting {}\nharmed {}\n",
        table.recovered, table.waiting, table.harmed
    );
    print_bytes(text.as_bytes())?;
    if table.harmed > 0 {
        return failed("some combination loses or alters something");
    }
    Ok(())
}

/// The numbers behind the named flags, each given exactly once in any order.
fn flag_values<const N: usize>(
    arguments: &[String],
    names: [&str; N],
) -> Result<[u64; N], Failure> {
    let mut values = [None; N];
    let mut rest = arguments;
    while let Some((flag, behind)) = rest.split_first() {
        let Some(at) = names.iter().position(|name| name == flag) else {
            return usage(format!("unknown flag '{flag}'"));
        };
        let Some((text, behind)) = behind.split_first() else {
            return usage(format!("{flag} needs a value"));
        };
        if values[at].is_some() {
            return usage(format!("{flag} is given twice"));
        }
        let Ok(value) = text.parse() else {
            return usage(format!("{flag} needs a number, not '{text}'"));
        };
        values[at] = Some(value);
        rest = behind;
    }
    let mut found = [0; N];
    for at in 0..N {
        let Some(value) = values[at] else {
            return usage(format!("{} is missing", names[at]));
        };
        found[at] = value;
    }
    Ok(found)
}
