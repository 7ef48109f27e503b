//! Links the archive of the straight copy, whose path is in MEASURED_ARCHIVE, and notes the versions for the table's
//! head. (The archive of the calls is linked by the crate in ../rust.)
use std::env;
use std::path::Path;
use std::process::Command;

fn first_line(program: &str, argument: &str) -> String {
    let output = Command::new(program).arg(argument).output();
    let text = output.map(|o| String::from_utf8_lossy(&o.stdout).into_owned()).unwrap_or_default();
    text.lines().next().unwrap_or("unknown").to_string()
}

fn main() {
    println!("cargo:rerun-if-env-changed=MEASURED_ARCHIVE");
    let archive = env::var("MEASURED_ARCHIVE").expect("run bench/run.sh, which makes the archives and names them");
    println!("cargo:rerun-if-changed={archive}");
    let folder = Path::new(&archive).parent().expect("a file stands in a folder");
    println!("cargo:rustc-link-search=native={}", folder.display());
    println!("cargo:rustc-link-lib=static=measured_native");
    println!("cargo:rustc-env=BENCH_RUSTC={}", first_line("rustc", "--version"));
    println!("cargo:rustc-env=BENCH_KIT={}", first_line("rt", "version"));
}
