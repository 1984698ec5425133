//! The rules of `examples/` and the rule set run as their stored output says, in both byte orders, with
//! their own cells protected and without.

use crate::folder::Folder;
use std::ffi::OsString;
use std::fs;

const EXAMPLES: &str = concat!(env!("CARGO_MANIFEST_DIR"), "/../examples/");

pub fn example(file: &str) -> String {
    fs::read_to_string(format!("{EXAMPLES}{file}")).expect("an example")
}

/// The names of all texts there.
pub fn names() -> Vec<String> {
    let files = fs::read_dir(EXAMPLES).expect("the folder of examples");
    let files = files.map(|file| file.expect("a file").file_name());
    let name = |file: OsString| Some(file.to_str()?.strip_suffix(".txt")?.to_string());
    let names: Vec<String> = files.filter_map(name).collect();
    assert_eq!(names.len(), 10);
    names
}

/// The folder of a test, with an example assembled and saved in it.
fn with_rule(test: &str, name: &str) -> Folder {
    let folder = Folder::new(test);
    folder.rule(&example(&format!("{name}.txt")));
    folder
}

/// No table, and the rule's own cells.
const TABLES: [&str; 2] = ["--table 0,0", "--table code"];

fn runs_as_stored(name: &str) {
    let folder = with_rule(name, name);
    let expected = example(&format!("{name}.expected"));
    assert_eq!(folder.done("run rule.mod"), expected);
    folder.done("save rule.lst -o reversed.mod --order 1");
    let stop = expected.lines().nth(1).expect("a second line");
    for table in TABLES {
        assert_eq!(folder.done(&format!("run rule.mod {table}")), expected);
        let turned = folder.done(&format!("run rule.mod --order 1 {table}"));
        assert_eq!(turned, expected);
        assert_eq!(folder.done(&format!("run reversed.mod {table}")), expected);
        for order in ["0", "1"] {
            let words = format!("follow rule.lst --beside --order {order} {table}");
            let followed = folder.done(&words);
            let last = followed.lines().last().expect("a last line");
            assert!(last.starts_with(stop), "{last}");
        }
    }
}

#[test]
fn head() {
    runs_as_stored("head");
}

#[test]
fn child() {
    runs_as_stored("child");
}

#[test]
fn age() {
    runs_as_stored("age");
}

#[test]
fn places() {
    runs_as_stored("places");
}

#[test]
fn deep() {
    runs_as_stored("deep");
}

/// Areas that end above the table.
const AREAS: &str = "--data-area FF00h,31 --return-area 10000h,64";

/// Areas that would hold every age, over the table.
const WIDE: &str = "--data-area FF00h,60 --return-area 10000h,64";

#[test]
fn deep_with_areas() {
    let folder = with_rule("deep_with_areas", "deep");
    let expected = example("deep.areas.expected");
    for (order, table) in [("0", TABLES[0]), ("0", TABLES[1]), ("1", TABLES[1])] {
        let options = format!("--order {order} {AREAS} {table}");
        let said = folder.beetle(&format!("run rule.mod {options}"));
        assert_eq!((said.status, said.output.as_str()), (1, expected.as_str()));
        let followed = folder.done(&format!("follow rule.lst --beside {options}"));
        let threw = "\nthrew -3: the data stack went below its area (overflow)\n";
        assert_eq!(followed.matches("\nthrew ").count(), 1);
        assert!(followed.contains(threw), "{followed}");
    }
    let wide = folder.done(&format!("run rule.mod {WIDE}"));
    assert_eq!(wide, example("deep.expected"));
}

#[test]
fn deep_with_areas_and_a_handler() {
    let folder = with_rule("deep_handled", "deep");
    for order in ["0", "1"] {
        let words = format!("--order {order} {AREAS} --handler 14h");
        let ran = folder.done(&format!("run rule.mod {words}"));
        let stop = "stopped by HALT, reason -3 (FFFFFFFDh)";
        assert_eq!(ran.lines().nth(1), Some(stop));
        let last = "code -3: the data stack went below its area (overflow)";
        assert_eq!(ran.lines().last(), Some(last));
        let followed = folder.done(&format!("follow rule.lst --beside {words}"));
        let end = format!("{stop} after 136 items and 137 cycles\n");
        assert!(followed.ends_with(&end), "{followed}");
    }
}

/// Without a table it writes its own last cell, before which the list machine stands outside.
#[test]
fn school() {
    let folder = with_rule("school", "school");
    let expected = example("school.expected");
    for order in ["0", "1"] {
        let ran = folder.done(&format!("run rule.mod --order {order}"));
        assert_eq!(ran, expected);
        let followed = folder.done(&format!("follow rule.lst --beside --order {order}"));
        let outside = "(+!): it would write a byte of the image, after 92 items and 100 cycles\n";
        assert!(followed.ends_with(outside), "{followed}");
    }
}

#[test]
fn school_with_a_table() {
    let folder = with_rule("school_with_a_table", "school");
    let expected = example("school.table.expected");
    for (order, table) in [("0", "code"), ("1", "code"), ("0", "10h,ACh")] {
        let options = format!("--order {order} --table {table}");
        let said = folder.beetle(&format!("run rule.mod {options}"));
        assert_eq!((said.status, said.output.as_str()), (1, expected.as_str()));
        let followed = folder.done(&format!("follow rule.lst --beside {options}"));
        let threw = "\nthrew -20: a store into the table from 10h up to ACh\n";
        assert_eq!(followed.matches("\nthrew ").count(), 1);
        assert!(followed.contains(threw), "{followed}");
    }
}

/// A folder with both modules of the rule set, each saved in its own byte order.
fn with_set(test: &str, orders: [&str; 2]) -> Folder {
    let folder = Folder::new(test);
    for (name, order) in ["pupils", "years"].into_iter().zip(orders) {
        folder.rule(&example(&format!("{name}.txt")));
        folder.done(&format!("save rule.lst -o {name}.mod --order {order}"));
    }
    folder
}

#[test]
fn pupils_with_years() {
    let expected = example("pupils.expected");
    for orders in [["0", "0"], ["0", "1"], ["1", "0"], ["1", "1"]] {
        let folder = with_set("pupils_with_years", orders);
        for order in ["0", "1"] {
            for table in [TABLES[0], "--table 10h,424h"] {
                let options = format!("--order {order} {table}");
                let words = format!("run pupils.mod@10h years.mod@400h {options}");
                assert_eq!(folder.done(&words), expected);
            }
        }
    }
}

/// The rule alone has nothing to call, and the list machine stands in front of the call.
#[test]
fn pupils_without_years() {
    let folder = with_rule("pupils_without_years", "pupils");
    let said = folder.beetle("run rule.mod");
    assert_eq!(said.status, 1);
    assert!(said.output.contains("\nthrown: -256, "), "{said:?}");
    let followed = folder.done("follow rule.lst --beside");
    let outside = "(EXECUTE): it transfers to no entry, after 22 items and 26 cycles\n";
    assert!(followed.ends_with(outside), "{followed}");
}
