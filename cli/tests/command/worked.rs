//! Rows that document 01 works on paper, by way of the command.

use crate::folder::Folder;

fn cells(folder: &Folder, text: &str) -> String {
    folder.rule(text);
    folder.done("pack rule.lst").replace('\n', " ")
}

#[test]
fn the_first_rule() {
    let folder = Folder::new("first_rule");
    folder.rule("2 3 + HALT");
    let mut file = vec![4, 0, 0, 0, 0x10, 0, 0, 0, 0x52, 0x52, 0x1E, 0x55];
    file.extend([2, 0, 0, 0, 3, 0, 0, 0, 0, 0, 0, 0, 0, 0, 0, 0]);
    assert_eq!(folder.read("rule.lst"), file);
    assert_eq!(
        folder.done("pack rule.lst"),
        "00000253\n00000353\n0000551E\n"
    );
    let ran = folder.done("run rule.mod");
    let lines: Vec<&str> = ran.lines().collect();
    let expected = [
        "loaded 3 cells at 10h",
        "stopped by HALT, reason 5",
        "4 cycles",
        "EP 0000001C  A 00000000",
        "SP 0000FF00  empty",
        "RP 00010000  empty",
    ];
    assert_eq!(lines, expected);
}

#[test]
fn packed_cells() {
    let folder = Folder::new("packed_cells");
    let rows = [
        ("DUP DUP #-1", "FF530101 "),
        ("DUP DUP 127", "7F530101 "),
        ("DUP DUP -128", "80530101 "),
        ("DUP DUP 128", "00520101 00000080 "),
        ("DUP DUP -129", "00520101 FFFFFF7F "),
        ("8388607", "7FFFFF53 "),
        ("8388608", "00000052 00800000 "),
        ("DUP DUP DUP #0", "52010101 00000000 "),
        ("self: BRANCH self", "FFFFFF43 "),
    ];
    for (text, expected) in rows {
        assert_eq!(cells(&folder, text), expected, "{text}");
    }
}

#[test]
fn bytes_in_both_orders() {
    let folder = Folder::new("orders");
    folder.rule("HALT");
    folder.done("pack rule.lst -o least.bin");
    folder.done("pack rule.lst -o most.bin --order 1");
    assert_eq!(folder.read("least.bin"), [0x55, 0, 0, 0]);
    assert_eq!(folder.read("most.bin"), [0, 0, 0, 0x55]);
    assert_eq!(
        folder.read("rule.mod"),
        b"BEETLE\0\0\x01\0\0\0\x55\0\0\0".as_slice()
    );
    let loaded = "1 cells at 10h\n00000010  00000055\n";
    assert_eq!(folder.done("load rule.mod"), loaded);
    assert_eq!(folder.done("load rule.mod --order 1"), loaded);
}

#[test]
fn a_load_that_halts() {
    let folder = Folder::new("halts");
    folder.rule("2 3 + HALT");
    let whole = "3 cells at 10h\n00000010  00000253 00000353 0000551E\n";
    assert_eq!(folder.done("load rule.mod"), whole);
    for order in [0, 1] {
        let first =
            |cells: &str| folder.done(&format!("load rule.mod --order {order} --first {cells}"));
        assert_eq!(first("0"), "0 of 3 cells at 10h\n");
        assert_eq!(
            first("2"),
            "2 of 3 cells at 10h\n00000010  00000253 00000353\n"
        );
        for all in ["3", "4", "0FFFFFFFFh"] {
            assert_eq!(first(all), format!("3 of {whole}"));
        }
    }
}

#[test]
fn divisions() {
    let folder = Folder::new("divisions");
    for (text, left) in [("-7 2 /MOD 0 HALT", "-4"), ("-7 2 S/REM 0 HALT", "-3")] {
        folder.rule(text);
        let ran = folder.done("run rule.mod");
        assert!(ran.contains(&format!("top first: {left} (")), "{ran}");
    }
}
