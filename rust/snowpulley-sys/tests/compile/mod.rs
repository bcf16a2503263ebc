//! C code compiled without a warning, linked with the library, and run.

use std::path::{Path, PathBuf};
use std::process::{Command, Output};

/// A compiler, and the words for its language and standard.
type Language = (&'static str, [&'static str; 3]);
pub const C: Language = ("cc", ["-x", "c", "-std=c99"]);
pub const CPP: Language = ("c++", ["-x", "c++", "-std=c++11"]);

pub fn root() -> PathBuf {
    Path::new(env!("CARGO_MANIFEST_DIR")).join("../..")
}

/// What a program does; `name` is that of the program.
pub fn run(name: &str, (compiler, language): Language, source: &Path) -> Output {
    let program = Path::new(env!("CARGO_TARGET_TMPDIR")).join(name);
    let compiled = Command::new(compiler)
        .args(["-Wall", "-Wextra", "-Werror", "-pedantic", "-I"])
        .arg(root().join("include"))
        .args(language)
        .arg(source)
        // The archive is in no language.
        .args(["-x", "none", env!("SNOWPULLEY_ARCHIVE"), "-o"])
        .arg(&program)
        .status();
    assert!(compiled.expect("a compiler runs").success(), "{compiler}");
    Command::new(&program).output().expect("the program runs")
}
