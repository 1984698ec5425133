//! Rule sets turned away: which module it is, and what is wrong.

use crate::folder::Folder;
use crate::sets::{many, module, with_modules};

/// `load` and `run` refuse the set with this number and these lines, and print nothing: no module
/// went in.
fn refused(folder: &Folder, set: &str, number: &str, reasons: &[&str]) {
    for command in ["load", "run"] {
        let words = format!("{command} {set}");
        let said = folder.beetle(&words);
        assert_eq!((said.status, said.output.as_str()), (1, ""), "{words}");
        let mut lines = said.error.lines();
        let first = lines.next().expect("a line");
        let start = format!("beetle: refused with {number}: ");
        assert!(first.starts_with(&start), "{words}: {said:?}");
        let told: Vec<&str> = lines.map(str::trim_start).collect();
        assert_eq!(told, reasons, "{words}");
    }
}

#[test]
fn modules_that_share_bytes() {
    let folder = with_modules("share");
    let (a, b) = ("a.mod from 10h up to 24h", "b.mod from 20h up to 28h");
    let both = format!("{a} and {b} share bytes");
    refused(&folder, "a.mod@10h b.mod@20h", "-4113", &[&both]);
    let both = format!("{b} and {a} share bytes");
    refused(&folder, "b.mod@20h a.mod@10h", "-4113", &[&both]);
    folder.done("load a.mod@10h b.mod@24h");
    folder.done("load a.mod@10h b.mod@8h");
    for (inside, end) in [
        ("Ch", "14h"),
        ("10h", "18h"),
        ("18h", "20h"),
        ("1Ch", "24h"),
    ] {
        let both = format!("{a} and b.mod from {inside} up to {end} share bytes");
        refused(
            &folder,
            &format!("a.mod@10h b.mod@{inside}"),
            "-4113",
            &[&both],
        );
    }
}

/// All pairs are told, those of one file too; the empty module is in none.
#[test]
fn several_that_share_bytes() {
    let folder = with_modules("share_more");
    let set = "b.mod@10h a.mod@400h empty.mod@10h b.mod@14h b.mod@410h b.mod@10h";
    let b = "b.mod from 10h up to 18h";
    let higher = "b.mod from 14h up to 1Ch";
    let reasons = [
        format!("{b} and {higher} share bytes"),
        "a.mod from 400h up to 414h and b.mod from 410h up to 418h share bytes".to_string(),
        format!("{b} and {b} share bytes"),
        format!("{higher} and {b} share bytes"),
    ];
    refused(
        &folder,
        set,
        "-4113",
        &reasons.each_ref().map(String::as_str),
    );
}

#[test]
fn more_than_sixteen_modules() {
    let folder = with_modules("seventeen");
    folder.write("one.mod", module(0, &[0xC1]));
    let reason = "17 modules are given, 16 are the most";
    refused(&folder, &many(17), "-4113", &[reason]);
    let set = format!("{} empty.mod@10h", many(16));
    refused(&folder, &set, "-4113", &[reason]);
    let set = format!("{} one.mod@4Ch", many(16));
    let share = "one.mod from 4Ch up to 50h and one.mod from 4Ch up to 50h share bytes";
    refused(&folder, &set, "-4113", &[reason, share]);
}

/// The second of three modules is refused by itself.
fn second_refused(folder: &Folder, [file, address]: [&str; 2], number: &str, fault: &str) {
    let set = format!("a.mod@10h {file}@{address} b.mod@100h");
    let reason = format!("{file} at {address}: {fault}");
    refused(folder, &set, number, &[&reason]);
}

#[test]
fn modules_with_bad_files() {
    let folder = with_modules("files");
    let good = folder.read("a.mod");
    folder.write("other.mod", [b"BEATLE", &good[6..]].concat());
    folder.write("head.mod", &good[..11]);
    folder.write("cut.mod", &good[..good.len() - 1]);
    let fault = "it does not begin with BEETLE, a byte 0 and a byte order, 0 or 1";
    second_refused(&folder, ["other.mod", "400h"], "-2", fault);
    let fault = "it has 11 bytes, but a module's head alone has 12";
    second_refused(&folder, ["head.mod", "400h"], "-4103", fault);
    let fault = "it has 31 bytes, but its count of 5 cells asks for 32";
    second_refused(&folder, ["cut.mod", "402h"], "-4103", fault);
}

#[test]
fn modules_with_bad_addresses() {
    let folder = with_modules("addresses");
    let fault = "the address is no multiple of 4";
    second_refused(&folder, ["a.mod", "FFFFFFFFh"], "-4104", fault);
    let fault = "its 5 cells end at 10004h, past the memory's 10000h";
    second_refused(&folder, ["a.mod", "FFF0h"], "-1", fault);
    let fault = "the address is not below the memory's 10000h";
    second_refused(&folder, ["empty.mod", "10000h"], "-1", fault);
    folder.done("load a.mod@10h a.mod@FFECh");
}

/// The first module that is refused is told, before any that follows and before what they share.
#[test]
fn the_sequence_of_refusals() {
    let folder = with_modules("sequence");
    folder.write("bad.mod", "no module");
    folder.write("one.mod", module(0, &[0xC1]));
    let outside = "a.mod at 10000h: the address is not below the memory's 10000h";
    let bad = "bad.mod at 10h: it does not begin with BEETLE, a byte 0 and a byte order, 0 or 1";
    refused(&folder, "a.mod@10000h bad.mod@10h", "-1", &[outside]);
    refused(&folder, "bad.mod@10h a.mod@10000h", "-2", &[bad]);
    refused(&folder, "a.mod@10h b.mod@10h bad.mod@10h", "-2", &[bad]);
    refused(&folder, &format!("{} bad.mod@10h", many(17)), "-2", &[bad]);
    refused(&folder, "bad.mod@10h --memory 1020", "-4101", &[]);
    refused(&folder, "bad.mod@10h --order 2 --memory 1020", "-4101", &[]);
    refused(&folder, "bad.mod@10h b.mod@10h --order 2", "-4102", &[]);
}

#[test]
fn files_that_cannot_be_read() {
    let folder = with_modules("unread");
    for command in ["load", "run"] {
        let said = folder.beetle(&format!("{command} a.mod@10h never.mod@400h bad.mod@10h"));
        assert_eq!((said.status, said.output.as_str()), (1, ""));
        assert!(said.error.starts_with("beetle: never.mod: "), "{said:?}");
    }
}

/// A table is one range.
#[test]
fn code_that_is_not_one_range() {
    let folder = with_modules("apart");
    let (a, b) = (
        "a.mod ends at 24h and b.mod",
        "b.mod ends at 418h and a.mod",
    );
    for (words, told) in [
        ("a.mod@10h b.mod@28h", format!("{a} begins at 28h")),
        ("b.mod@400h a.mod@10h", format!("{a} begins at 400h")),
        (
            "a.mod@1000h empty.mod@418h b.mod@410h",
            format!("{b} begins at 1000h"),
        ),
    ] {
        let said = folder.beetle(&format!("run {words} --table code"));
        assert_eq!((said.status, said.output.as_str()), (2, ""), "{words}");
        let error = format!(
            "beetle: --table code wants modules that lie end to end, but {told}: --table FIRST,END \
             takes any range\n"
        );
        assert!(said.error.starts_with(&error), "{words}: {said:?}");
    }
}

#[test]
fn modules_without_an_address() {
    let folder = with_modules("no_address");
    for command in ["load", "run"] {
        let wrong = |set: &str, error: &str| folder.wrong(&format!("{command}{set}"), error);
        wrong("", "MODULE or FILE@ADDRESS is missing");
        let each = "has no address: of several modules each is FILE@ADDRESS";
        wrong(" a.mod b.mod@400h", &format!("'a.mod' {each}"));
        wrong(" a.mod@10h b.mod", &format!("'b.mod' {each}"));
        wrong(" @10h a.mod@20h", "'@10h' has no file's name before its @");
    }
}

#[test]
fn addresses_that_are_none() {
    let folder = with_modules("bad_address");
    for address in ["", "-4", "0x10", "10g", "100000000h", "10h,20h"] {
        let word = format!("b.mod@{address}");
        let wants = "wants an address after its last @, 0 to 4294967295, not";
        let error = format!("'{word}' {wants} '{address}'");
        for command in ["load", "run"] {
            folder.wrong(&format!("{command} a.mod@10h {word}"), &error);
            folder.wrong(&format!("{command} {word} a.mod@10h"), &error);
            let alone = format!("there is no file '{word}', and {error}");
            folder.wrong(&format!("{command} {word}"), &alone);
        }
    }
}

#[test]
fn options_for_one_module() {
    let folder = with_modules("options");
    let address = "--address is for one MODULE: with FILE@ADDRESS each has its own";
    let first = "--first is for one MODULE, its address given by --address";
    for set in ["a.mod@10h", "a.mod@10h b.mod@400h"] {
        folder.wrong(&format!("load {set} --address 10h"), address);
        folder.wrong(&format!("run {set} --address 10h"), address);
        folder.wrong(&format!("load {set} --first 1"), first);
    }
}
