//! Rule sets: modules that `load` and `run` take together, each FILE@ADDRESS.

use crate::folder::Folder;

/// A module's file in a byte order.
pub fn module(order: u8, cells: &[u32]) -> Vec<u8> {
    let bytes = |cell: &u32| match order {
        0 => cell.to_le_bytes(),
        _ => cell.to_be_bytes(),
    };
    let mut file = b"BEETLE\0".to_vec();
    file.push(order);
    file.extend(bytes(&(cells.len() as u32)));
    file.extend(cells.iter().flat_map(bytes));
    file
}

/// A folder with `a.mod` of five cells in order 0, `b.mod` of two in order 1, and an empty one.
pub fn with_modules(test: &str) -> Folder {
    let folder = Folder::new(&format!("sets_{test}"));
    folder.write("a.mod", module(0, &[0xA1, 0xA2, 0xA3, 0xA4, 0xA5]));
    folder.write("b.mod", module(1, &[0xB1, 0x0102_0304]));
    folder.write("empty.mod", module(0, &[]));
    folder
}

const A: &str = "\
5 cells at 10h: a.mod
00000010  000000A1 000000A2 000000A3 000000A4
00000020  000000A5
";
const B: &str = "\
2 cells at 400h: b.mod
00000400  000000B1 01020304
";

#[test]
fn two_modules_in_each_sequence() {
    let folder = with_modules("two");
    for order in ["0", "1"] {
        let load = |set: &str| folder.done(&format!("load {set} --order {order}"));
        assert_eq!(
            load("a.mod@10h b.mod@400h"),
            format!("{A}{B}7 cells in all\n")
        );
        assert_eq!(
            load("b.mod@1024 a.mod@16"),
            format!("{B}{A}7 cells in all\n")
        );
    }
}

/// Each module's cells are those that it has where it is loaded by itself.
#[test]
fn the_cells_of_single_loads() {
    let folder = with_modules("single");
    let modules = [("a.mod", "10h"), ("b.mod", "24h"), ("empty.mod", "24h")];
    for order in ["0", "1"] {
        let alone = modules.map(|(file, address)| {
            let words = format!("load {file} --address {address} --order {order}");
            folder
                .done(&words)
                .replacen('\n', &format!(": {file}\n"), 1)
        });
        for sequence in [
            [0, 1, 2],
            [0, 2, 1],
            [1, 0, 2],
            [1, 2, 0],
            [2, 0, 1],
            [2, 1, 0],
        ] {
            let words = sequence.map(|at| format!("{}@{}", modules[at].0, modules[at].1));
            let printed = folder.done(&format!("load {} --order {order}", words.join(" ")));
            let expected = sequence.map(|at| alone[at].as_str()).concat();
            assert_eq!(printed, format!("{expected}7 cells in all\n"));
        }
    }
}

/// FILE@ADDRESS by itself prints what MODULE does at that address.
#[test]
fn a_set_of_one_module() {
    let folder = with_modules("one");
    folder.rule("2 3 + HALT");
    for file in ["a.mod", "b.mod", "empty.mod", "rule.mod"] {
        let alone = folder.done(&format!("load {file} --address 404h"));
        assert_eq!(folder.done(&format!("load {file}@404h")), alone);
    }
    let alone = folder.done("run rule.mod --address 404h");
    assert!(alone.starts_with("loaded 3 cells at 404h\nstopped by HALT, reason 5\n"));
    assert_eq!(folder.done("run rule.mod@404h"), alone);
}

/// A module of no cells may lie anywhere in memory: at both ends of another, and inside it.
#[test]
fn a_module_of_no_cells() {
    let folder = with_modules("empty");
    for address in ["0h", "10h", "14h", "24h", "FFFCh"] {
        for words in [
            format!("load a.mod@10h empty.mod@{address} empty.mod@{address}"),
            format!("load empty.mod@{address} a.mod@10h empty.mod@{address}"),
        ] {
            let printed = folder.done(&words);
            assert!(printed.contains(A), "{printed}");
            let told = format!("0 cells at {address}: empty.mod\n");
            assert_eq!(printed.matches(&told).count(), 2, "{printed}");
            assert!(printed.ends_with("5 cells in all\n"), "{printed}");
        }
    }
    assert!(folder
        .done("load empty.mod@10h empty.mod@10h")
        .ends_with("\n0 cells in all\n"));
}

/// So many modules of one cell, end to end from 10h on.
pub fn many(count: u32) -> String {
    let words = (0..count).map(|at| format!("one.mod@{}", 0x10 + 4 * at));
    words.collect::<Vec<_>>().join(" ")
}

#[test]
fn sixteen_modules() {
    let folder = with_modules("sixteen");
    folder.write("one.mod", module(0, &[0xC1]));
    let printed = folder.done(&format!("load {}", many(16)));
    let last = "1 cells at 4Ch: one.mod\n0000004C  000000C1\n16 cells in all\n";
    assert_eq!(printed.lines().count(), 2 * 16 + 1);
    assert!(printed.ends_with(last), "{printed}");
}

/// The last @ parts the file from the address, but a file that has the whole name comes first.
#[test]
fn names_with_an_at_sign() {
    let folder = with_modules("names");
    for name in ["me@home.mod", "@b", "10h@20h@"] {
        folder.write(name, folder.read("b.mod"));
        let cells = "000000B1 01020304\n";
        let usual = format!("2 cells at 10h\n00000010  {cells}");
        assert_eq!(folder.done(&format!("load {name}")), usual);
        let moved = format!("2 cells at 400h\n00000400  {cells}");
        assert_eq!(folder.done(&format!("load {name} --address 400h")), moved);
        assert_eq!(folder.done(&format!("load {name}@400h")), moved);
        let printed = folder.done(&format!("load {name}@400h a.mod@10h"));
        let named = format!("2 cells at 400h: {name}\n00000400  {cells}{A}7 cells in all\n");
        assert_eq!(printed, named);
    }
    folder.write("a.mod@400h", folder.read("b.mod"));
    let printed = folder.done("load a.mod@400h");
    assert!(printed.starts_with("2 cells at 10h\n"), "{printed}");
    let printed = folder.done("load a.mod@400h --first 1");
    assert!(printed.starts_with("1 of 2 cells at 10h\n"), "{printed}");
    let printed = folder.done("load a.mod@400h empty.mod@10h");
    assert!(printed.starts_with("5 cells at 400h: a.mod\n"), "{printed}");
}

/// Saves a text as the module of this name.
fn saved(folder: &Folder, name: &str, text: &str, order: &str) {
    folder.rule(text);
    folder.done(&format!("save rule.lst -o {name} --order {order}"));
}

/// A folder with a rule that calls a routine at 400h, and with that routine.
fn with_routine(test: &str) -> Folder {
    let folder = Folder::new(&format!("sets_{test}"));
    saved(&folder, "main.mod", "20 400h EXECUTE HALT", "0");
    saved(&folder, "routine.mod", "base 400h 1+ 2 * EXIT", "1");
    folder
}

#[test]
fn a_rule_that_calls_into_another_module() {
    let folder = with_routine("call");
    let ran = "\
stopped by HALT, reason 42 (2Ah)
8 cycles
EP 00000020  A 00000000
SP 0000FF00  empty
RP 00010000  empty
";
    let main = "loaded 4 cells at 10h: main.mod\n";
    let routine = "loaded 2 cells at 400h: routine.mod\n";
    let all = "loaded 6 cells in all\n";
    for order in ["0", "1"] {
        let run = |words: &str| folder.done(&format!("run {words} --order {order}"));
        let expected = format!("{main}{routine}{all}{ran}");
        assert_eq!(run("main.mod@10h routine.mod@400h"), expected);
        let expected = format!("{routine}{main}{all}{ran}");
        assert_eq!(run("routine.mod@400h main.mod@10h --entry 10h"), expected);
    }
    let alone = folder.beetle("run main.mod@10h");
    assert!(alone.output.contains("\nthrown: -9"), "{alone:?}");
}

/// Without --entry the run begins at the module that is named first.
#[test]
fn where_a_run_begins() {
    let folder = Folder::new("sets_entry");
    saved(&folder, "one.mod", "1 HALT", "0");
    saved(&folder, "two.mod", "2 HALT", "0");
    folder.write("empty.mod", module(0, &[]));
    for (words, reason) in [
        ("one.mod@10h two.mod@400h", "1"),
        ("two.mod@400h one.mod@10h", "2"),
        ("two.mod@10h one.mod@400h", "2"),
        ("empty.mod@400h one.mod@10h two.mod@400h", "2"),
        ("two.mod@400h one.mod@10h --entry 10h", "1"),
    ] {
        let ran = folder.done(&format!("run {words}"));
        let stop = format!("\nstopped by HALT, reason {reason}\n");
        assert!(ran.contains(&stop), "{words}: {ran}");
    }
}

/// A rule of three cells that stores into the address 30h.
const STORES: &str = "7 30h ! HALT";

/// `--table code` is all cells of modules that lie end to end, in whatever sequence they are named.
#[test]
fn the_code_of_several_modules() {
    let folder = with_modules("code");
    saved(&folder, "main.mod", STORES, "0");
    let thrown = "\nthrown: -20, a store into the table from 10h up to 38h\n";
    for words in [
        "main.mod@10h a.mod@1Ch b.mod@30h",
        "main.mod@10h b.mod@30h a.mod@1Ch",
        "b.mod@30h a.mod@1Ch main.mod@10h --entry 10h",
        "main.mod@10h empty.mod@0h a.mod@1Ch empty.mod@20h b.mod@30h empty.mod@1000h",
    ] {
        let said = folder.beetle(&format!("run {words} --table code"));
        assert_eq!((said.status, said.error.as_str()), (1, ""), "{words}");
        assert!(said.output.contains(thrown), "{words}: {said:?}");
    }
    folder.done("run main.mod@10h a.mod@1Ch --table code");
    folder.done("run main.mod@10h a.mod@1Ch empty.mod@30h --table code");
    folder.done("run main.mod@10h a.mod@40h --table 10h,30h");
}

/// Where no module has a cell the table has no byte; the machine runs on past its last cell.
#[test]
fn the_code_of_no_cells() {
    let folder = with_modules("no_code");
    let words = "run empty.mod@200h empty.mod@10h --memory 1024 --entry 3FCh";
    let said = folder.beetle(&format!("{words} --table code"));
    assert!(said.output.contains("\nthrown: -9"), "{said:?}");
    assert_eq!(said.output, folder.beetle(words).output);
}
