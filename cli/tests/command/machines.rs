//! What `run`, `follow` and `show` tell of rules that end in different ways.

use crate::folder::Folder;

#[test]
fn a_throw_without_a_handler() {
    let folder = Folder::new("throw");
    folder.rule("5 0 / HALT");
    let said = folder.beetle("run rule.mod");
    assert_eq!(said.status, 1);
    let expected = "\
loaded 2 cells at 10h
stopped -259: a throw found no valid address in 'THROW
3 cycles
EP 00000018  A 00000055
SP 0000FEF4  3 deep, top first: -10 (FFFFFFF6h), 0, 5
RP 00010000  empty
thrown: -10, division by zero
'THROW FFFFFFFF  'BAD 00000018  -ADDRESS FFFFFFFF
";
    assert_eq!(said.output, expected);
}

#[test]
fn a_throw_with_a_handler() {
    let folder = Folder::new("handler");
    folder.rule("5 0 / DROP\nBRANCH caught\ncaught: HALT");
    let shown = folder.done("show rule.lst");
    assert!(shown.contains("   5 *     0000001C 00000055"), "{shown}");
    let ran = folder.done("run rule.mod --handler 1Ch");
    assert!(
        ran.contains("stopped by HALT, reason -10 (FFFFFFF6h)"),
        "{ran}"
    );
    let followed = folder.done("follow rule.lst --beside --handler 1Ch");
    assert!(
        followed.ends_with("reason -10 (FFFFFFF6h) after 4 items and 4 cycles\n"),
        "{followed}"
    );
}

#[test]
fn a_stack_that_is_lost() {
    let folder = Folder::new("lost_stack");
    folder.rule("2 SP!");
    let said = folder.beetle("run rule.mod");
    assert_eq!(said.status, 1);
    assert!(said.output.contains("thrown: -23"), "{}", said.output);
    folder.rule("#0 SP! DUP");
    let said = folder.beetle("run rule.mod");
    assert_eq!(said.status, 1);
    assert!(said.output.contains("stopped -258: "), "{}", said.output);
}

#[test]
fn a_budget_is_spent() {
    let folder = Folder::new("budget");
    folder.rule("again: BRANCH again");
    let said = folder.beetle("run rule.mod --budget 20000003");
    assert_eq!(said.status, 1);
    let expected = "spent its budget, not stopped\n20000003 cycles\n";
    assert!(said.output.contains(expected), "{}", said.output);
    let said = folder.beetle("run rule.mod --budget 0");
    assert!(said.output.contains("\n0 cycles\n"), "{}", said.output);
    let followed = folder.done("follow rule.lst --items 7");
    assert!(followed.ends_with("not stopped after 7 items and 7 cycles\n"));
}

#[test]
fn outside_the_listing() {
    let folder = Folder::new("outside");
    let rows = [
        (
            "7",
            "in front of item 0 (#7): it runs on past the end, after 0 items and 0 cycles",
        ),
        (
            "7 #10h ! HALT",
            "in front of item 2 (!): it would write a byte of the image, after 2 items and 2 cycles",
        ),
        (
            "#14h EXECUTE HALT",
            "in front of item 1 (EXECUTE): it transfers to no entry, after 1 items and 1 cycles",
        ),
        (
            "LIB HALT",
            "in front of item 0 (LIB): it throws to a 'THROW that is no entry, after 0 items and 0 cycles",
        ),
    ];
    for (text, expected) in rows {
        folder.rule(text);
        let followed = folder.done("follow rule.lst --beside --handler 14h");
        let last = followed.lines().last().expect("a last line");
        assert_eq!(last, format!("stopped outside, {expected}"), "{text}");
    }
    let said = folder.beetle("follow rule.lst --memory 1020");
    assert_eq!(said.status, 1);
    folder.rule("base 800h HALT");
    let said = folder.beetle("follow rule.lst --memory 1024");
    assert!(said.error.contains("the image ends at 804h"), "{said:?}");
}

#[test]
fn many_items_are_followed() {
    let folder = Folder::new("many");
    folder.rule("5000 again: 1- DUP 0= ?BRANCH again HALT");
    let followed = folder.done("follow rule.lst --beside --items 30000");
    let expected = "reason 0 after 20002 items and 20003 cycles\n";
    let last = followed.lines().last().expect("a last line");
    assert!(followed.ends_with(expected), "{last}");
}

#[test]
fn every_form_is_shown() {
    let folder = Folder::new("forms");
    folder.rule("DUP 300 CALL sub\nDUP DUP DUP -9 HALT sub: EXIT");
    let shown = folder.done("show rule.lst");
    let expected = "\
rule.lst: 9 items, base 10h, 6 cells
item entry cell     packed   byte EP       form      instruction  operand                  operand cell
   0 *     00000010 012C5301    0 00000014 plain     DUP
   1       00000010             1 00000014 immediate (LITERAL)    300 (12Ch)
   2       00000014 00000349    0 00000018 immediate CALL         to item 8 at 00000024
   3 *     00000018 52010101    0 0000001C plain     DUP
   4       00000018             1 0000001C plain     DUP
   5       00000018             2 0000001C plain     DUP
   6       00000018             3 0000001C cell      (LITERAL)    -9 (FFFFFFF7h)           0000001C FFFFFFF7
   7       00000020 00000055    0 00000024 plain     HALT
   8 *     00000024 0000004A    0 00000028 plain     EXIT
";
    assert_eq!(shown, expected);
    assert_eq!(folder.done("show rule.lst --order 1"), expected);
}
