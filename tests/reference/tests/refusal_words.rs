//! Header and Python module say what is wrong in the words of README.md.

use reference::repository::{in_repository, refusal_words};
use reference::text::REFUSALS;
use std::process::Command;
use std::{env, fs};

/// What a command prints, line by line.
fn printed(command: &mut Command) -> Vec<String> {
    let output = command.output().expect("the command runs");
    let errors = String::from_utf8_lossy(&output.stderr);
    assert!(output.status.success(), "{command:?}: {errors}");
    let text = String::from_utf8(output.stdout).expect("text");
    text.lines().map(str::to_string).collect()
}

/// README.md's words, and what is said of the numbers around them.
fn expected() -> Vec<String> {
    let words = refusal_words();
    assert_eq!(words.len(), REFUSALS);
    let around = |word: &str| vec![word.to_string()];
    [around("nothing is wrong"), words, around("no such refusal")].concat()
}

const PROGRAM: &str = r#"
#include <stdio.h>
#include "honemagenta.h"

int main(void) {
    for (uint64_t refusal = HM_NOT_REFUSED; refusal <= HM_OUTSIDE_TABLE + 1; refusal++)
        puts(hm_refusal_words(refusal));
    return 0;
}
"#;

#[test]
fn the_header_has_the_words_of_readme() {
    let folder = env::temp_dir().join(format!("refusal_words_{}", std::process::id()));
    fs::create_dir_all(&folder).expect("a folder");
    let (source, program) = (folder.join("words.c"), folder.join("words"));
    fs::write(&source, PROGRAM).expect("a file");
    let flags = ["-std=c99", "-pedantic", "-Wall", "-Wextra", "-Werror", "-I"];
    printed(
        Command::new("cc")
            .args(flags)
            .arg(in_repository("include"))
            .arg(&source)
            .arg("-o")
            .arg(&program),
    );
    let words = printed(&mut Command::new(&program));
    fs::remove_dir_all(&folder).expect("the folder");
    assert_eq!(words, expected());
}

#[test]
fn the_python_module_has_the_words_of_readme() {
    let numbers = REFUSALS + 2;
    let script = format!(
        "import honemagenta\nfor n in range({numbers}): print(honemagenta.refusal_words(n))"
    );
    let words = printed(
        Command::new("python3")
            .args(["-B", "-c", &script])
            .current_dir(in_repository("examples")),
    );
    assert_eq!(words, expected());
}
