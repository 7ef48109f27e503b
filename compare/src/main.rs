//! The commands of `compare`; README.md says what each is for.

use compare::run::{self, Named};
use compare::{bundle, differences, journal, journals, model_replay, oracle, rust};
use std::fs;
use std::io::{Read, Write, stdin, stdout};
use std::path::Path;
use std::process::ExitCode;

const USAGE: &str = "usage: compare differences
       compare oracle [--sources FILE] < SCRIPT
       compare model < SCRIPT
       compare scripts gate|exhaustive|random DIR
       compare replay < JOURNAL
       compare model-replay < JOURNAL
       compare journals DIR
       compare bundle STDIN STDOUT
       compare run [--trial CMD] [--replay CMD]";

fn main() -> ExitCode {
    rust::quiet_panics();
    let args: Vec<String> = std::env::args().skip(1).collect();
    let args: Vec<&str> = args.iter().map(String::as_str).collect();
    let good = match args[..] {
        ["differences"] => differences::run(),
        ["oracle"] => told(None),
        ["oracle", "--sources", file] => told(Some(file)),
        ["model"] => write_out(oracle::tell_by_model(&String::from_utf8_lossy(&input())).as_bytes()),
        ["scripts", "gate", dir] => write_scripts(run::gate_scripts(), dir),
        ["scripts", "exhaustive", dir] => write_scripts(run::small_scripts(), dir),
        ["scripts", "random", dir] => write_scripts(run::random_scripts(), dir),
        ["replay"] => write_out(journal::replay(&input()).as_bytes()),
        ["model-replay"] => write_out(model_replay::replay(&input()).as_bytes()),
        ["journals", dir] => write_journals(dir),
        ["bundle", input, output] => write_bundle(input, output),
        ["run", "--trial", trial] => run::run_trial(trial),
        ["run", "--replay", replay] => run::run_replay(replay),
        ["run", "--trial", trial, "--replay", replay] => run::run_trial(trial) & run::run_replay(replay),
        _ => {
            eprintln!("{USAGE}");
            return ExitCode::from(2);
        }
    };
    if good { ExitCode::SUCCESS } else { ExitCode::FAILURE }
}

/// The whole of standard input.
fn input() -> Vec<u8> {
    let mut bytes = vec![];
    stdin().read_to_end(&mut bytes).expect("standard input can be read");
    bytes
}

/// Writes to standard output.
fn write_out(bytes: &[u8]) -> bool {
    stdout().write_all(bytes).is_ok()
}

/// Interprets the script on standard input; where each line is from goes into the file, if one is named.
fn told(sources: Option<&str>) -> bool {
    let told = oracle::tell(&String::from_utf8_lossy(&input()));
    if let Some(file) = sources {
        fs::write(file, told.sources.join("\n") + "\n").expect("the file can be written");
    }
    told.wrong.iter().for_each(|w| eprintln!("{w}"));
    write_out(told.out.as_bytes()) && told.wrong.is_empty()
}

/// Writes each script with its output and where each line is from.
fn write_scripts(scripts: Vec<Named>, dir: &str) -> bool {
    fs::create_dir_all(dir).expect("the folder can be made");
    let (mut calls, mut wrong) = (0, 0);
    for script in &scripts {
        let told = oracle::tell(&script.text);
        told.wrong.iter().for_each(|w| println!("{}: {w}", script.name));
        calls += told.sources.len() - 1;
        wrong += told.wrong.len();
        let write = |end: &str, text: &str| {
            fs::write(Path::new(dir).join(format!("{}.{end}", script.name)), text).expect("a file can be written")
        };
        write("stdin", &script.text);
        write("stdout", &told.out);
        write("sources", &(told.sources.join("\n") + "\n"));
    }
    println!(
        "{} scripts, {calls} calls, {wrong} differences between the model and the Rust unexplained",
        scripts.len()
    );
    wrong == 0
}

/// Writes each journal with its lines, and holds the lines against those of the model.
fn write_journals(dir: &str) -> bool {
    fs::create_dir_all(dir).expect("the folder can be made");
    let (mut records, mut wrong) = (0, 0);
    let all = journals::all();
    for journal in &all {
        let lines = journal::replay(&journal.bytes);
        records += lines.lines().count() - 1;
        if lines != model_replay::replay(&journal.bytes) {
            println!("{}: the model writes other lines", journal.name);
            wrong += 1;
        }
        let write = |end: &str, bytes: &[u8]| {
            fs::write(Path::new(dir).join(format!("{}.{end}", journal.name)), bytes).expect("a file can be written")
        };
        write("journal", &journal.bytes);
        write("lines", lines.as_bytes());
    }
    println!("{} journals, {records} records, {wrong} differences between the two replays", all.len());
    wrong == 0
}

/// Writes the input and the output of the program that runs many journals, and tells at which line of the output each
/// journal begins.
fn write_bundle(input: &str, output: &str) -> bool {
    let bundle = bundle::bundle();
    fs::write(input, &bundle.input).expect("the input can be written");
    fs::write(output, &bundle.output).expect("the output can be written");
    bundle.contents.iter().for_each(|(name, line)| println!("{line:>8} {name}"));
    let (journals, lines) = (bundle.contents.len(), bundle.output.lines().count());
    println!(
        "{journals} journals, {} records, {} bytes in, {} bytes out",
        lines - journals,
        bundle.input.len(),
        bundle.output.len()
    );
    true
}
