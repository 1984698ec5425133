//! Listings read back: packed cells to listing files, and modules shown as the listings they hold.

use crate::examples::{example, names};
use crate::folder::Folder;
use crate::short::{with_first_rule, FIRST_RULE};

#[test]
fn what_was_done_is_told() {
    let folder = with_first_rule("unpack_told");
    folder.done("pack rule.lst -o cells.bin");
    let told = "made.lst: 4 items, base 10h, packs to 3 cells\n";
    for (option, file) in [
        ("", folder.read("rule.lst")),
        (" --short", FIRST_RULE.to_vec()),
    ] {
        let words = format!("unpack cells.bin --base 10h -o made.lst{option}");
        folder.write("made.lst", "");
        assert_eq!(folder.done(&words), told);
        assert_eq!(folder.read("made.lst"), file);
    }
    let shown = folder
        .done("show rule.lst")
        .replace("rule.lst", "cells.bin");
    assert_eq!(folder.done("unpack cells.bin --base 10h"), shown);
    let shown = folder.done("show rule.mod --base 10h");
    let first = "rule.mod: 4 items, base 10h, 3 cells";
    assert_eq!(shown.lines().next(), Some(first));
    assert_eq!(shown.lines().count(), 2 + 4);
}

/// A base other than that of most examples.
const HIGHER: &str = "base 400h\n1 BRANCH on DUP on: 800000h CALL on DUP DUP DUP BRANCH on";

/// The base as `save` tells it.
fn base_told(saved: &str) -> &str {
    let (_, base) = saved
        .trim_end()
        .split_once("to be loaded at ")
        .expect("told");
    base
}

/// The texts of all examples, and one more.
fn texts() -> Vec<String> {
    let examples = names().into_iter().map(|name| format!("{name}.txt"));
    let mut texts: Vec<String> = examples.map(|file| example(&file)).collect();
    texts.push(HIGHER.to_string());
    texts
}

/// The file that `cells.bin` unpacks to.
fn read_back(folder: &Folder, options: &str) -> Vec<u8> {
    folder.write("back.lst", "");
    folder.done(&format!("unpack cells.bin -o back.lst {options}"));
    folder.read("back.lst")
}

#[test]
fn every_example_there_and_back() {
    let folder = Folder::new("unpack_examples");
    for text in texts() {
        folder.rule(&text);
        folder.done("shorten rule.lst -o rule.short");
        for order in ["0", "1"] {
            let saved = folder.done(&format!("save rule.lst -o made.mod --order {order}"));
            let options = format!("--base {} --order {order}", base_told(&saved));
            folder.done(&format!("pack rule.lst -o cells.bin --order {order}"));
            assert_eq!(read_back(&folder, &options), folder.read("rule.lst"));
            let short = read_back(&folder, &format!("{options} --short"));
            assert_eq!(short, folder.read("rule.short"));
        }
    }
}

/// A module of either byte order, on a machine of either, shows as the listing that was saved.
#[test]
fn modules_show_as_their_listings() {
    let folder = Folder::new("unpack_modules");
    for text in texts() {
        folder.rule(&text);
        let shown = folder.done("show rule.lst");
        for order in ["0", "1"] {
            let saved = folder.done(&format!("save rule.lst -o rule.mod --order {order}"));
            let base = base_told(&saved);
            for machine in ["0", "1"] {
                let words = format!("show rule.mod --base {base} --order {machine}");
                let printed = folder.done(&words).replace("rule.mod", "rule.lst");
                assert_eq!(printed, shown, "{text}");
            }
        }
    }
}

/// The fourth byte of its cell is the branch's, and its operand cell holds an address.
const BY_ADDRESS: &str = "DUP DUP DUP BRANCH end end: HALT";

/// The operand of item 3, and its operand cell, where the module is shown at a base.
fn branch_shown(folder: &Folder, base: &str) -> String {
    let shown = folder.done(&format!("show rule.mod --base {base}"));
    let line = shown.lines().nth(2 + 3).expect("the line of item 3");
    let (_, operand) = line.split_once("BRANCH ").expect("a branch");
    operand.split_whitespace().collect::<Vec<_>>().join(" ")
}

/// At another base a branch by address is refused, or leads to another item.
#[test]
fn a_base_that_it_was_not_packed_for() {
    let folder = Folder::new("unpack_other_base");
    folder.rule(BY_ADDRESS);
    folder.done("pack rule.lst -o cells.bin");
    assert_eq!(
        folder.done("pack rule.lst"),
        "42010101\n00000018\n00000055\n"
    );
    let there = "to item 4 at 00000018 00000014 00000018";
    assert_eq!(branch_shown(&folder, "10h"), there);
    for words in [
        "show rule.mod --base 14h",
        "show rule.mod --base 1Ch",
        "unpack cells.bin --base 14h -o back.lst",
    ] {
        let said = folder.beetle(words);
        assert_eq!((said.status, said.output.as_str()), (1, ""), "{words}");
        assert!(said.error.contains("refused with -4116: "), "{said:?}");
    }
    let elsewhere = "to item 0 at 00000018 0000001C 00000018";
    assert_eq!(branch_shown(&folder, "18h"), elsewhere);
    assert_ne!(read_back(&folder, "--base 18h"), folder.read("rule.lst"));
    let packed = folder.done("pack back.lst");
    assert_eq!(packed, folder.done("pack rule.lst"));
}

/// Where no operand cell holds an address, the listing is the same at every base.
#[test]
fn what_holds_no_address_reads_alike_at_every_base() {
    let folder = Folder::new("unpack_no_address");
    let text = "1 again: DUP ?BRANCH end -129 + BRANCH again end: HALT";
    folder.rule(text);
    folder.done("pack rule.lst -o cells.bin");
    for base in ["14h", "400h", "0FFFFE8h"] {
        folder.write("rule.txt", format!("base {base} {text}"));
        folder.done("assemble rule.txt -o other.lst");
        let back = read_back(&folder, &format!("--base {base}"));
        assert_eq!(back, folder.read("other.lst"), "{base}");
    }
}
