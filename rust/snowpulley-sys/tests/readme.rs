//! The README's C code compiles without a warning, and its request is served.

mod compile;

use compile::{root, run, C, CPP};
use std::path::Path;

#[test]
fn the_readme_has_right_c() {
    let readme = std::fs::read_to_string(root().join("README.md")).expect("the README");
    let (_, block) = readme.split_once("```c\n").expect("C code");
    let (code, _) = block.split_once("```").expect("its end");
    let source = format!(
        "#include <stdio.h>\n#include \"snowpulley.h\"\n\
         int main(void) {{\n{code}return SP_IS_REFUSED(r) || SP_ANSWER(r) != 8;\n}}\n"
    );
    let file = Path::new(env!("CARGO_TARGET_TMPDIR")).join("readme.c");
    std::fs::write(&file, source).expect("a file");
    for (name, language) in [("readme-c", C), ("readme-cpp", CPP)] {
        assert!(run(name, language, &file).status.success(), "{name}");
    }
}
