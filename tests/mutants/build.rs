//! Writes the mutants' sources.

use std::collections::{BTreeMap, BTreeSet};
use std::path::{Path, PathBuf};
use std::{env, fs};

mod edits;

const REFERENCE: &str = "../src/reference";

/// The text of each file of the reference, by the file's name without its ending.
type Sources = BTreeMap<String, String>;

/// For each file, those that it names.
type Names<'s> = BTreeMap<&'s str, BTreeSet<&'s str>>;

/// Each mutant is the reference with one edit. It has its own copies of the edited file and of those
/// that rest on it; all else it takes from an unedited copy, which the mutants share.
fn main() {
    println!("cargo:rerun-if-changed=edits");
    println!("cargo:rerun-if-changed=build.rs");
    println!("cargo:rerun-if-changed={REFERENCE}");
    let results = PathBuf::from(env::var("OUT_DIR").expect("set by cargo"));
    let sources = sources();
    let names = names(&sources);
    let all = names.keys().copied().collect();
    let mut modules = write_copies(&results, "unedited", &sources, &all);
    let (mut table, mut reports) = (String::new(), String::new());
    for (number, edit) in edits::SUBJECTS.iter().copied().flatten().enumerate() {
        let mutant = format!("mutant{number}");
        let (edited, file) = edited(&sources, edit);
        modules += &write_copies(&results, &mutant, &edited, &resting_on(file, &names));
        let (group, name) = (edit.group, edit.name);
        if group == "reports" {
            reports += &format!("({name:?}, {mutant}::batch::report),\n");
        } else {
            table += &format!("({group:?}, {name:?}, implementation!({mutant}::calls)),\n");
        }
    }
    let lists = [
        ("mutants", "Mutant", table),
        ("reports", "WrongReport", reports),
    ];
    let lists =
        lists.map(|(name, of, list)| format!("fn {name}() -> Vec<{of}> {{\nvec![\n{list}]\n}}\n"));
    let text = format!("{modules}\n{}", lists.concat());
    fs::write(results.join("mutants.rs"), text).expect("a writable folder");
}

fn sources() -> Sources {
    let files = fs::read_dir(REFERENCE).expect("the reference");
    let paths = files.map(|file| file.expect("a file of the reference").path());
    let read = |path: PathBuf| {
        let text = fs::read_to_string(&path).expect("a readable source");
        let name = path.file_stem().and_then(|name| name.to_str());
        (name.expect("a file's name").to_string(), text)
    };
    paths.map(read).collect()
}

/// The reference with an edit, which must apply exactly once, and the edited file.
fn edited<'e>(sources: &Sources, edit: &'e edits::Mutant) -> (Sources, &'e str) {
    let file = edit.file.strip_suffix(".rs").expect("a source's name");
    let text = &sources[file];
    let applied = text.matches(edit.find).count();
    assert_eq!(applied, 1, "the edit of \"{}\" applies once", edit.name);
    let mut edited = sources.clone();
    edited.insert(file.to_string(), text.replace(edit.find, edit.put));
    (edited, file)
}

/// The files that each file names, which it does by `super::` and the file's name only.
fn names(sources: &Sources) -> Names<'_> {
    let named = |file: &str, rest: &str| {
        let end = rest.find(|c: char| !c.is_alphanumeric() && c != '_');
        let name = &rest[..end.unwrap_or(rest.len())];
        let known = sources.get_key_value(name).map(|known| known.0.as_str());
        known.unwrap_or_else(|| panic!("{file} names super::{name}, which is no file"))
    };
    let mut names = Names::new();
    for (file, text) in sources {
        assert!(!text.contains("crate::"), "{file} names a file by crate::");
        let behind = text.split("super::").skip(1);
        names.insert(file, behind.map(|rest| named(file, rest)).collect());
    }
    names
}

/// A file, and all that name it or a file that rests on it.
fn resting_on<'n>(file: &'n str, names: &Names<'n>) -> BTreeSet<&'n str> {
    let mut found = BTreeSet::new();
    let mut next = vec![file];
    while let Some(file) = next.pop() {
        if found.insert(file) {
            let resting = names.iter().filter(|(_, named)| named.contains(file));
            next.extend(resting.map(|(name, _)| name));
        }
    }
    found
}

/// Writes a module with its own copies of some files: its declaration.
fn write_copies(results: &Path, module: &str, sources: &Sources, own: &BTreeSet<&str>) -> String {
    let folder = results.join(module);
    fs::create_dir_all(&folder).expect("a writable folder");
    let mut root = sources["mod"].clone();
    for (name, text) in sources.iter().filter(|(name, _)| *name != "mod") {
        let declared = format!("pub mod {name};");
        assert_eq!(root.matches(&declared).count(), 1, "mod.rs declares {name}");
        if own.contains(name.as_str()) {
            // Not laid in, the functions are compiled in half the time.
            let text = text.replace("#[inline(always)]", "");
            fs::write(folder.join(format!("{name}.rs")), text).expect("a writable folder");
        } else {
            root = root.replace(&declared, &format!("pub use crate::unedited::{name};"));
        }
    }
    let path = folder.join("mod.rs");
    fs::write(&path, root).expect("a writable folder");
    format!("#[path = {path:?}]\n#[allow(warnings)]\nmod {module};\n")
}
