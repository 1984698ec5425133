//! `run` and `follow` with stack areas: which stack went over which end, and areas turned away.

use crate::folder::Folder;

/// Four cells for each stack: the data area from 1000h on, its held cell at FFCh, and the return
/// area from 2000h on.
const AREAS: &str = "--data-area 1010h,4 --return-area 2010h,4";

/// A throw without a handler, in the words of `run` and of `follow`, in both byte orders.
fn throws(text: &str, code: i32, words: &str) {
    let folder = Folder::new(&format!("areas_throw_{}", -code));
    folder.rule(text);
    for order in ["0", "1"] {
        let said = folder.beetle(&format!("run rule.mod --order {order} {AREAS}"));
        assert_eq!(said.status, 1, "{text}");
        let thrown = format!("\nthrown: {code}, {words}\n'THROW FFFFFFFF");
        assert!(said.output.contains(&thrown), "{text}: {}", said.output);
        assert!(said.output.ends_with("-ADDRESS FFFFFFFF\n"), "{text}");
        let followed = folder.done(&format!("follow rule.lst --beside --order {order} {AREAS}"));
        let threw = format!("\nthrew {code}: {words}\n");
        assert!(followed.contains(&threw), "{text}: {followed}");
    }
}

#[test]
fn the_data_stack_goes_below() {
    let words = "the data stack went below its area (overflow)";
    throws("1 1 1 1 1 HALT", -3, words);
    throws("1 1 1 1 CALL sub\nsub: R@ HALT", -3, words);
    throws("1 1 DUP DUP OVER HALT", -3, words);
}

#[test]
fn the_data_stack_goes_above() {
    let words = "the data stack went above its area (underflow)";
    throws("1 DROP DROP HALT", -4, words);
    throws("1 + HALT", -4, words);
    throws("1 2 PICK HALT", -4, words);
}

#[test]
fn the_return_stack_goes_below() {
    let words = "the return stack went below its area (overflow)";
    throws("again: 1 >R BRANCH again", -5, words);
    throws("again: CALL again HALT", -5, words);
}

#[test]
fn the_return_stack_goes_above() {
    let words = "the return stack went above its area (underflow)";
    throws("EXIT", -6, words);
    throws("1 >R J HALT", -6, words);
}

/// The words of a stop with -258.
fn bad_stack(text: &str, words: &str) {
    let folder = Folder::new("areas_bad_stack");
    folder.rule(text);
    let said = folder.beetle(&format!("run rule.mod {AREAS} --handler 14h"));
    assert_eq!(said.status, 1, "{text}");
    let stopped = format!("\nstopped -258: {words}\n");
    assert!(said.output.contains(&stopped), "{text}: {}", said.output);
    let followed = folder.done(&format!("follow rule.lst --beside {AREAS} --handler 14h"));
    let last = followed.lines().last().expect("a last line");
    let expected = format!("stopped -258: {words} after ");
    assert!(last.starts_with(&expected), "{text}: {last}");
}

#[test]
fn a_stack_that_takes_no_code_and_has_no_reason() {
    bad_stack(
        "BRANCH begin\ncaught: 1 HALT begin: 1 1 1 1 1 BRANCH caught",
        "the data stack had filled its area and the cell held under it: no place for a throw's code",
    );
    bad_stack(
        "1 DROP HALT",
        "the data stack is empty: HALT found no reason there, or this one as the last item",
    );
    bad_stack(
        "-258 HALT",
        "the data stack is empty: HALT found no reason there, or this one as the last item",
    );
    let nothing = "no place for a throw's code or for HALT's reason";
    bad_stack(
        "FF8h SP! HALT",
        &format!("SP was below the data area: {nothing}"),
    );
    bad_stack(
        "1014h SP! HALT",
        &format!("SP was above the data area: {nothing}"),
    );
    bad_stack("1 -258 HALT", "the rule gave HALT this reason");
}

#[test]
fn pointers_off_their_stacks() {
    let folder = Folder::new("areas_pointers");
    folder.rule("FF8h SP! HALT");
    let said = folder.beetle(&format!("run rule.mod {AREAS}"));
    let below = "\nSP 00000FF8  below its stack, which begins at 00000FFC\n";
    assert!(said.output.contains(below), "{}", said.output);
    let followed = folder.done(&format!("follow rule.lst {AREAS}"));
    let line = followed.lines().nth(2).expect("the line of SP!");
    assert!(line.contains(" SP! ") && line.ends_with("2   |"), "{line}");
    folder.rule("1014h SP! HALT");
    let said = folder.beetle(&format!("run rule.mod {AREAS}"));
    let above = "\nSP 00001014  outside its stack, which ends at 00001010\n";
    assert!(said.output.contains(above), "{}", said.output);
}

/// A code that a rule throws by itself is not told as the machine's by `follow`, nor without areas.
#[test]
fn codes_of_the_rules_own() {
    let folder = Folder::new("areas_own");
    folder.rule("-3 THROW HALT");
    let followed = folder.done(&format!("follow rule.lst --beside {AREAS}"));
    assert!(!followed.contains("threw"), "{followed}");
    let said = folder.beetle("run rule.mod");
    assert!(said.output.contains("\nthrown: -3, the rule's own\n"));
    folder.rule("-3 HALT");
    let ran = folder.done("run rule.mod");
    assert!(!ran.contains("code -3"), "{ran}");
}

/// Without areas, and with four numbers that are 0, the stacks begin where they always did.
#[test]
fn four_zeros_are_no_areas() {
    let folder = Folder::new("areas_none");
    folder.rule("1 2 3 4 5 DROP HALT");
    let without = folder.done("run rule.mod");
    assert!(without.contains("SP 0000FEF4  3 deep"), "{without}");
    let zeros = "--data-area 0,0 --return-area 0h,0";
    assert_eq!(folder.done(&format!("run rule.mod {zeros}")), without);
    assert_eq!(
        folder.done(&format!("follow rule.lst --beside {zeros}")),
        folder.done("follow rule.lst --beside")
    );
}

#[test]
fn areas_turned_away() {
    let folder = Folder::new("areas_refused");
    folder.rule("1 HALT");
    let rows = [
        ("1012h,4", "the data area's top 1012h is no multiple of 4"),
        ("1010h,0", "the data area has no cell"),
        (
            "1010h,404h",
            "the data area with its held cell begins below 0",
        ),
        ("10004h,4", "the data area ends past the memory's 10000h"),
        ("2010h,4", "the two areas overlap"),
        (
            "2020h,4",
            "the return area lies over the data area's held cell",
        ),
        ("0,0", "the data area has no cell"),
    ];
    for (data, error) in rows {
        for command in ["run rule.mod", "follow rule.lst"] {
            let words = format!("{command} --data-area {data} --return-area 2010h,4");
            let said = folder.beetle(&words);
            assert_eq!(said.status, 1, "{words}");
            assert!(said.error.contains("refused with -4111: "), "{said:?}");
            assert!(said.error.contains(&format!("\n  {error}\n")), "{said:?}");
        }
    }
    let bad = "--data-area 1,0 --return-area 1,0";
    let said = folder.beetle(&format!("follow rule.lst --memory 1020 {bad}"));
    assert!(said.error.contains("refused with -4101: "), "{said:?}");
}

#[test]
fn areas_that_touch() {
    let folder = Folder::new("areas_touch");
    folder.rule("1 HALT");
    for areas in [
        "--data-area 2024h,4 --return-area 2010h,4",
        "--data-area 1010h,403h --return-area 10000h,3BFCh",
    ] {
        let ran = folder.done(&format!("run rule.mod {areas}"));
        assert!(ran.contains("stopped by HALT, reason 1\n"), "{ran}");
        folder.done(&format!("follow rule.lst --beside {areas}"));
    }
}

#[test]
fn areas_wrongly_given() {
    let folder = Folder::new("areas_usage");
    let rows = [
        (
            "--data-area 0,0",
            "--data-area is given and --return-area is not",
        ),
        (
            "--return-area 0,0",
            "--return-area is given and --data-area is not",
        ),
        (
            "--data-area 16",
            "--data-area wants TOP,CELLS, each 0 to 4294967295, not '16'",
        ),
        ("--data-area 16,", "--data-area wants TOP,CELLS"),
        ("--data-area 1,2,3", "--data-area wants TOP,CELLS"),
        ("--return-area -4,1", "--return-area wants TOP,CELLS"),
        (
            "--return-area 100000000h,1",
            "--return-area wants TOP,CELLS",
        ),
    ];
    for (words, error) in rows {
        let said = folder.beetle(&format!("run a.mod {words}"));
        assert_eq!(said.status, 2, "{words}");
        assert!(said.error.contains(error), "{words}: {said:?}");
    }
}
