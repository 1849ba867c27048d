//! A crate stands on the contracts and specs of those below it and on the laws that they
//! offer: no file of a library or a program names anything else of another crate's
//! proofs/, and no specs/ name any of it.

use reference::repository::{file_text, in_repository};
use std::fs;
use std::path::Path;

/// Crates that exist for tests are let pass.
const TESTS: [&str; 7] = [
    "pair_c",
    "pair_checked",
    "cases",
    "pair_cases",
    "lines_cases",
    "section_cases",
    "certificate_cases",
];

/// Whether a crate offers a file of its proofs/ to those above: its laws, pair also its
/// laws of numbers, and what the toolchain writes of each function.
fn is_offered(other: &str, file: &str) -> bool {
    file == "Laws" || (other, file) == ("pair", "Numbers") || file.ends_with(".Reads")
}

/// Whether the repository has a crate of that name; the others are the toolchain's.
fn is_ours(name: &str) -> bool {
    in_repository("crates").join(name).is_dir()
}

/// Whether a text in a folder of the crate `own` names a file of another crate's proofs/ that
/// it may not.
fn is_past(own: &str, folder: &str, other: &str, file: &str) -> bool {
    other != own && is_ours(other) && (folder == "specs" || !is_offered(other, file))
}

/// The imports of such a text that may not be: `Rattle.OTHER.proofs.FILE`.
fn imported_past(own: &str, folder: &str, text: &str) -> Vec<String> {
    let ends = |c: char| c.is_whitespace() || "{;".contains(c);
    let paths = text.split("Rattle.").skip(1);
    let paths = paths.filter_map(|path| path.split(ends).next());
    let past = paths.filter(|path| match path.split_once(".proofs.") {
        Some((other, file)) => is_past(own, folder, other, file.trim_end_matches('.')),
        None => false,
    });
    past.map(str::to_string).collect()
}

/// The laws that its tactics cite and may not: `OTHER::proofs::FILE::LAW`.
fn cited_past(own: &str, folder: &str, text: &str) -> Vec<String> {
    let ends = |c: char| c.is_whitespace() || "(),{};".contains(c);
    let past = text
        .split(ends)
        .filter(|path| match path.split_once("::proofs::") {
            Some((other, cited)) => {
                let (file, _) = cited.rsplit_once("::").unwrap_or((cited, ""));
                is_past(own, folder, other, &file.replace("::", "."))
            }
            None => false,
        });
    past.map(str::to_string).collect()
}

/// All that such a text names of other crates' proofs/ and may not, in either spelling.
fn past_what_is_offered(own: &str, folder: &str, text: &str) -> Vec<String> {
    let mut past = imported_past(own, folder, text);
    past.extend(cited_past(own, folder, text));
    past
}

/// The same of the files below a folder of the crate `own`, each with its name.
fn past_below(path: &Path, own: &str, folder: &str) -> Vec<String> {
    let mut past = Vec::new();
    for entry in fs::read_dir(path).expect("a folder") {
        let path = entry.expect("an entry").path();
        if path.is_dir() {
            past.extend(past_below(&path, own, folder));
        } else if path
            .extension()
            .is_some_and(|end| end == "rt" || end == "antt")
        {
            let text = fs::read_to_string(&path).expect("text");
            let found = past_what_is_offered(own, folder, &text).into_iter();
            let name = path
                .strip_prefix(in_repository(""))
                .unwrap_or(&path)
                .display();
            past.extend(found.map(|file| format!("{name}: {file}")));
        }
    }
    past
}

#[test]
fn crates_import_what_those_below_offer() {
    let mut past = Vec::new();
    for entry in fs::read_dir(in_repository("crates")).expect("crates/") {
        let entry = entry.expect("an entry");
        let name = entry.file_name();
        let own = name.to_string_lossy();
        if TESTS.contains(&&*own) {
            continue;
        }
        for folder in ["src", "specs", "proofs"] {
            let path = entry.path().join(folder);
            if path.exists() {
                past.extend(past_below(&path, &own, folder));
            }
        }
    }
    assert!(past.is_empty(), "not offered:\n{}", past.join("\n"));
}

#[test]
fn planted_imports_are_found() {
    for (line, file) in [
        (
            "use Rattle.pair.proofs.Nesting as nesting",
            "pair.proofs.Nesting",
        ),
        ("use Rattle.pair.proofs.Tests.{met}", "pair.proofs.Tests."),
        (
            "pub use Rattle.section.proofs.Numbers.{n}",
            "section.proofs.Numbers.",
        ),
        (
            "ghost use Rattle.lines.proofs.LawsOfKeys.{a, b};",
            "lines.proofs.LawsOfKeys.",
        ),
        (
            "ghost use Rattle.lines.proofs.Laws.Keys as keys;",
            "lines.proofs.Laws.Keys",
        ),
    ] {
        let text = format!("-- Above.\nuse lib.Dec.{{lit<}}\n{line}\n");
        assert_eq!(past_what_is_offered("catalogue", "proofs", &text), [file]);
    }
    let laws = "use Rattle.pair.proofs.Laws.{minus-out}\n";
    assert_eq!(
        past_what_is_offered("catalogue", "specs", laws),
        ["pair.proofs.Laws."]
    );
}

#[test]
fn planted_citations_are_found() {
    for (cited, law) in [
        (
            "using(pair::proofs::Nesting::inside)",
            "pair::proofs::Nesting::inside",
        ),
        (
            "using(crate::proofs::Forms::own, lines::proofs::RowLaws::row_size), unfolding(pair::specs::Pairs::times)",
            "lines::proofs::RowLaws::row_size",
        ),
        (
            "using(section::proofs::Numbers::n)",
            "section::proofs::Numbers::n",
        ),
        (
            "using(lines::proofs::Laws::Keys::key)",
            "lines::proofs::Laws::Keys::key",
        ),
    ] {
        let text = format!("// Above.\n#[tactic(auto, {cited})]\nfn planted() {{\n}}\n");
        assert_eq!(past_what_is_offered("catalogue", "src", &text), [law]);
    }
}

/// How a path is spelt is the toolchain's: were it spelt otherwise, nothing would be found.
#[test]
fn imports_of_the_repository_are_seen() {
    for (file, path) in [
        (
            "crates/report/proofs/Promises.antt",
            "certificate.proofs.Laws.",
        ),
        (
            "crates/report/src/printing.rt",
            "lines::proofs::Laws::number_line_lem",
        ),
    ] {
        let seen = past_what_is_offered("report", "specs", &file_text(file));
        assert!(seen.contains(&path.to_string()), "{seen:?}");
    }
}

#[test]
fn what_is_offered_is_let_pass() {
    for line in [
        "use Rattle.pair.proofs.Laws.{minus-out}",
        "use Rattle.pair.proofs.Numbers as numbers",
        "ghost use Rattle.questions.proofs.Laws.{met};",
        "use Rattle.certificate.proofs.certificates.write.Reads as write-reads",
        "use Rattle.catalogue.proofs.Ends.{finer}",
        "use Rattle.pair.specs.Pairs.{times}",
        "use Rattle.std.proofs.Common.{ap}",
        "#[tactic(auto, using(lines::proofs::Laws::line_most, pair::proofs::Numbers::by_test))]",
        "#[tactic(auto, using(crate::proofs::Told::told, catalogue::proofs::Ends::finer))]",
        "#[tactic(auto, using(certificate::proofs::certificates::write::Reads::law))]",
        "#[tactic(auto, using(std::proofs::lemmas::Slice::overwrites), unfolding(pair::specs::Pairs::plus))]",
    ] {
        assert_eq!(
            past_what_is_offered("catalogue", "proofs", line),
            [""; 0],
            "{line}"
        );
    }
}
