//! Files of the repository that the reference makes. A program that makes some holds
//! the kept ones against them or, with its only switch `--write`, writes them.

use crate::repository::in_repository;
use std::collections::{BTreeMap, BTreeSet};
use std::path::Path;
use std::process::ExitCode;
use std::{env, fs, io};

/// Files that are made, by their paths.
#[derive(Default)]
pub struct Made {
    files: BTreeMap<String, Vec<u8>>,
    folders: Vec<String>,
}

impl Made {
    pub fn file(&mut self, path: impl Into<String>, bytes: impl Into<Vec<u8>>) {
        self.files.insert(path.into(), bytes.into());
    }

    /// A folder that has no other files than those that are made.
    pub fn folder(&mut self, path: impl Into<String>) {
        self.folders.push(path.into());
    }

    /// The files below a root that are not as they are made, and how they differ.
    pub fn differences(&self, root: &Path) -> io::Result<BTreeMap<String, String>> {
        let mut found = BTreeMap::new();
        for (path, made) in &self.files {
            match read(&root.join(path))? {
                None => found.insert(path.clone(), "is not there".to_string()),
                Some(kept) if kept != *made => found.insert(path.clone(), unlike(&kept, made)),
                Some(_) => None,
            };
        }
        for folder in &self.folders {
            for path in files_below(root, folder)? {
                if !self.files.contains_key(&path) {
                    found.insert(path, "is not made".to_string());
                }
            }
        }
        Ok(found)
    }

    /// Writes the files that differ and removes those that are not made; how many.
    pub fn write(&self, root: &Path) -> io::Result<usize> {
        let differences = self.differences(root)?;
        for path in differences.keys() {
            let kept = root.join(path);
            match self.files.get(path) {
                Some(bytes) => {
                    fs::create_dir_all(kept.parent().expect("a folder"))?;
                    fs::write(kept, bytes)?;
                }
                None => fs::remove_file(kept)?,
            }
        }
        Ok(differences.len())
    }
}

fn read(path: &Path) -> io::Result<Option<Vec<u8>>> {
    match fs::read(path) {
        Err(error) if error.kind() == io::ErrorKind::NotFound => Ok(None),
        read => read.map(Some),
    }
}

fn files_below(root: &Path, folder: &str) -> io::Result<BTreeSet<String>> {
    let mut found = BTreeSet::new();
    if !root.join(folder).exists() {
        return Ok(found);
    }
    for entry in fs::read_dir(root.join(folder))? {
        let entry = entry?;
        let path = format!("{folder}/{}", entry.file_name().to_string_lossy());
        if entry.file_type()?.is_dir() {
            found.extend(files_below(root, &path)?);
        } else {
            found.insert(path);
        }
    }
    Ok(found)
}

/// The first line in which two files differ.
fn unlike(kept: &[u8], made: &[u8]) -> String {
    let [mut kept, mut made] = [kept, made].map(|bytes| bytes.split(|&byte| byte == b'\n'));
    let lines = std::iter::repeat_with(|| (kept.next(), made.next()));
    let (i, (kept, made)) = lines
        .enumerate()
        .find(|(_, (kept, made))| kept != made)
        .expect("a line that differs");
    let [kept, made] = [kept, made].map(|line| match line {
        Some(line) => format!("{:?}", String::from_utf8_lossy(line)),
        None => "nothing".to_string(),
    });
    format!("line {} is {kept} and should be {made}", i + 1)
}

/// What a program does that makes files: its name, how much it makes, and the files.
pub fn hold_or_write(name: &str, count: &str, made: &Made) -> ExitCode {
    let switches: Vec<String> = env::args().skip(1).collect();
    hold_or_write_by(&switches, name, count, made)
}

/// The same with the switches given.
pub fn hold_or_write_by(switches: &[String], name: &str, count: &str, made: &Made) -> ExitCode {
    let root = in_repository("");
    let files = made.files.len();
    let done = match switches {
        [] => made
            .differences(&root)
            .map(|found| held(name, count, files, &found)),
        [switch] if switch == "--write" => made.write(&root).map(|written| {
            println!("{name}: {count}; files written: {written} of {files}");
            ExitCode::SUCCESS
        }),
        _ => Err(io::Error::other("the only switch is --write")),
    };
    done.unwrap_or_else(|error| {
        eprintln!("{name}: {error}");
        ExitCode::FAILURE
    })
}

fn held(name: &str, count: &str, files: usize, differences: &BTreeMap<String, String>) -> ExitCode {
    if differences.is_empty() {
        println!("{name}: {count}; files as they should be: {files}");
        return ExitCode::SUCCESS;
    }
    for (path, difference) in differences {
        println!("{path}: {difference}");
    }
    let wrong = differences.len();
    println!(
        "{name}: {count}; files not as they should be: {wrong} of {files} (--write writes them)"
    );
    ExitCode::FAILURE
}
