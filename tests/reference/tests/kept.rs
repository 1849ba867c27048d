//! Kept files that differ, are missing or are too many are found, and put right.

use reference::kept::Made;
use std::{env, fs};

#[test]
fn kept_files_are_held_and_written() {
    let root = env::temp_dir().join(format!("kept_{}", std::process::id()));
    fs::create_dir_all(root.join("folder/deep")).expect("a folder");
    let mut made = Made::default();
    for (path, text) in [("folder/a", "1\n2\n"), ("folder/deep/b", "3"), ("c", "4\n")] {
        made.file(path, text);
    }
    made.folder("folder");
    for (path, kept) in [("folder/a", "1\n5\n"), ("folder/deep/d", ""), ("c", "4\n")] {
        fs::write(root.join(path), kept).expect("a file");
    }
    let differences = made.differences(&root).expect("files");
    let reported: Vec<String> = differences
        .iter()
        .map(|(a, b)| format!("{a} {b}"))
        .collect();
    let expected = [
        "folder/a line 2 is \"5\" and should be \"2\"",
        "folder/deep/b is not there",
        "folder/deep/d is not made",
    ];
    assert_eq!(reported, expected);
    assert_eq!(made.write(&root).expect("files"), 3);
    assert!(made.differences(&root).expect("files").is_empty());
    let written = fs::read_to_string(root.join("folder/a")).expect("a file");
    fs::remove_dir_all(&root).expect("the folder");
    assert_eq!(written, "1\n2\n");
}
