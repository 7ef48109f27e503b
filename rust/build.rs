//! Links the archive of the exported calls, which `sh tools/native.sh . exports` makes in the repository.
//! It is looked for in ../target/native, where that leaves it, or where SCOREBUCKET_ARCHIVE says; a relative path
//! there is taken from the folder in which cargo was called.
use std::env;
use std::path::PathBuf;
use std::process::exit;

/// Where tools/native.sh leaves the archive, from this crate's folder.
const DEFAULT: &str = "../target/native/libexports_native.a";

fn main() {
    println!("cargo:rerun-if-env-changed=SCOREBUCKET_ARCHIVE");
    let wanted = wanted();
    // a build script that names a missing file is run again each time, so the archive is found once it is there
    println!("cargo:rerun-if-changed={}", wanted.display());
    let Ok(archive) = wanted.canonicalize() else {
        fail(&format!("there is no archive of the exported calls at {}", wanted.display()));
    };
    let name = archive.file_name().and_then(|n| n.to_str()).unwrap_or_default();
    let Some(library) = name.strip_prefix("lib").and_then(|n| n.strip_suffix(".a")) else {
        fail(&format!("{} is not named lib*.a, as an archive is", archive.display()));
    };
    let folder = archive.parent().expect("a file stands in a folder");
    println!("cargo:rustc-link-search=native={}", folder.display());
    println!("cargo:rustc-link-lib=static={library}");
}

/// The path at which the archive is looked for.
fn wanted() -> PathBuf {
    let Some(path) = env::var_os("SCOREBUCKET_ARCHIVE").filter(|p| !p.is_empty()) else {
        return from_variable("CARGO_MANIFEST_DIR").join(DEFAULT);
    };
    // a build script runs in its crate's folder; the shell's PWD is where cargo was called
    println!("cargo:rerun-if-env-changed=PWD");
    from_variable("PWD").join(path)
}

/// The folder that a variable of the environment names.
fn from_variable(name: &str) -> PathBuf {
    PathBuf::from(env::var_os(name).unwrap_or_default())
}

/// Says what is wrong and what to do, and ends the build.
fn fail(wrong: &str) -> ! {
    eprintln!("scorebucket: {wrong}.");
    eprintln!(
        "Run `sh tools/native.sh . exports` in the repository, or set SCOREBUCKET_ARCHIVE to the archive's path."
    );
    exit(1);
}
