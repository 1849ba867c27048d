use std::fs;
use std::path::{Path, PathBuf};

/// A file or a folder of the repository.
pub fn in_repository(path: &str) -> PathBuf {
    Path::new(env!("CARGO_MANIFEST_DIR"))
        .join("../..")
        .join(path)
}

/// The text of a file of the repository.
pub fn file_text(path: &str) -> String {
    fs::read_to_string(in_repository(path)).expect(path)
}

/// A column of the table of README.md whose heading begins so; the first column counts the
/// rows from 1.
fn readme_column(heading: &str, column: usize) -> Vec<String> {
    let readme = file_text("README.md");
    let rows = readme
        .lines()
        .skip_while(|line| !line.starts_with(heading))
        .skip(2)
        .take_while(|line| line.starts_with('|'));
    rows.enumerate()
        .map(|(i, row)| {
            let cells: Vec<&str> = row.split('|').map(str::trim).collect();
            assert_eq!(cells[1], (i + 1).to_string(), "{row}");
            cells[column].to_string()
        })
        .collect()
}

/// What is wrong at refusals 1, 2, 3 and so on, in the words of README.md.
pub fn refusal_words() -> Vec<String> {
    readme_column("| refused | line | what is wrong |", 3)
}

/// The certificate that README.md shows, line by line.
pub fn certificate_shown() -> String {
    let lines = readme_column("| line | | what it says |", 2);
    let of_line = |line: &String| line.trim_matches('`').to_string() + "\n";
    lines.iter().map(of_line).collect()
}
