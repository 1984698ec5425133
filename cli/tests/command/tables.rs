//! `run` and `follow` with a table that rules cannot write: what is thrown, what a stop with -258
//! was, and tables turned away.

use crate::folder::Folder;

/// Four cells.
const TABLE: &str = "--table 1000h,1010h";
const STORED: &str = "a store into the table from 1000h up to 1010h";
const NO_PLACE: &str =
    "a throw's code would have gone into the table, unless HALT gave this reason";

/// A throw without a handler, in the words of `run` and of `follow`, in both byte orders.
fn throws(test: &str, text: &str, options: &str, words: &str) {
    let folder = Folder::new(&format!("tables_{test}"));
    folder.rule(text);
    for order in ["0", "1"] {
        let said = folder.beetle(&format!("run rule.mod --order {order} {options}"));
        assert_eq!(said.status, 1, "{text}");
        let thrown = format!("\nthrown: {words}\n'THROW FFFFFFFF");
        assert!(said.output.contains(&thrown), "{text}: {}", said.output);
        assert!(said.output.ends_with("-ADDRESS FFFFFFFF\n"), "{text}");
        let followed = folder.done(&format!(
            "follow rule.lst --beside --order {order} {options}"
        ));
        let threw = format!("\nthrew {}\n", words.replacen(", ", ": ", 1));
        assert!(followed.contains(&threw), "{text}: {followed}");
    }
}

/// The words of a stop with -258.
fn bad_stack(test: &str, text: &str, options: &str) {
    let folder = Folder::new(&format!("tables_{test}"));
    folder.rule(text);
    let said = folder.beetle(&format!("run rule.mod {options} --handler 10h"));
    assert_eq!(said.status, 1, "{text}");
    let stopped = format!("\nstopped -258: {NO_PLACE}\n");
    assert!(said.output.contains(&stopped), "{text}: {}", said.output);
    let followed = folder.done(&format!("follow rule.lst --beside {options} --handler 10h"));
    let last = followed.lines().last().expect("a last line");
    let expected = format!("stopped -258: {NO_PLACE} after ");
    assert!(last.starts_with(&expected), "{text}: {last}");
}

#[test]
fn stores_by_address() {
    let words = format!("-20, {STORED}");
    for text in [
        "5 1000h ! HALT",
        "5 100Ch +! HALT",
        "5 1000h C! HALT",
        "5 100Fh C! HALT",
    ] {
        throws("by_address", text, TABLE, &words);
    }
}

#[test]
fn stores_on_the_stacks() {
    let words = format!("-20, {STORED}");
    for text in [
        "1000h SP! 1+ HALT",
        "1010h RP! 1 >R HALT",
        "1010h RP! CALL sub\nsub: HALT",
        "1010h RP! #10h EXECUTE HALT",
        "1014h RP! 2 1 (DO) HALT",
        "1000h RP! again: (LOOP) again",
    ] {
        throws("on_the_stacks", text, TABLE, &words);
    }
}

/// The cells at both ends, reads, and what is not written.
#[test]
fn beside_the_table() {
    let folder = Folder::new("tables_beside");
    for text in [
        "5 FFCh ! 1 HALT",
        "5 1010h ! 1 HALT",
        "5 1010h C! 1 HALT",
        "1000h @ 100Fh C@ 1 HALT",
        "1014h RP! 1 >R 1 HALT",
        "1008h SP! DROP DROP DROP 1 HALT",
    ] {
        folder.rule(text);
        let ran = folder.done(&format!("run rule.mod {TABLE}"));
        assert!(
            ran.contains("\nstopped by HALT, reason 1\n"),
            "{text}: {ran}"
        );
        folder.done(&format!("follow rule.lst --beside {TABLE}"));
    }
}

#[test]
fn a_throw_that_has_no_place() {
    bad_stack("no_place", "1010h SP! 1 HALT", TABLE);
    bad_stack("no_place", "1008h SP! LIB HALT", TABLE);
    let areas = "--data-area 1010h,4 --return-area 2010h,4";
    let held_cell = "--table FFCh,1000h";
    let options = format!("{areas} {held_cell}");
    bad_stack("no_place", "1 1 1 1 1 HALT", &options);
}

/// What else is wrong with a place is told before the table.
#[test]
fn areas_and_a_table() {
    let areas = "--data-area 1010h,4 --return-area 2010h,4";
    let words = "-5, the return stack went below its area (overflow)";
    let options = format!("{areas} --table 1FF0h,2000h");
    throws("areas", "again: 1 >R BRANCH again", &options, words);
    let words = "-20, a store into the table from 2000h up to 2004h";
    let options = format!("{areas} --table 2000h,2004h");
    throws("areas", "again: 1 >R BRANCH again", &options, words);
}

/// A rule that writes its own first cell.
const OWN: &str = "7 #10h ! HALT";

#[test]
fn the_rules_own_code() {
    let words = "-20, a store into the table from 10h up to 1Ch";
    throws("own_code", OWN, "--table code", words);
    throws("own_code", OWN, "--table 16,28", words);
    let folder = Folder::new("tables_own_code_elsewhere");
    folder.rule(OWN);
    folder.done("run rule.mod");
    let followed = folder.done("follow rule.lst --beside");
    let outside = "(!): it would write a byte of the image, after 2 items and 2 cycles\n";
    assert!(followed.ends_with(outside), "{followed}");
    folder.done("run rule.mod --address 400h --table code");
    let said = folder.beetle("run rule.mod --address 400h --table 10h,1Ch");
    assert!(said.output.contains(words), "{said:?}");
    folder.rule("base 400h 7 #408h ! HALT");
    let followed = folder.done("follow rule.lst --beside --table code");
    let threw = "\nthrew -20: a store into the table from 400h up to 40Ch\n";
    assert!(followed.contains(threw), "{followed}");
}

#[test]
fn a_store_with_a_handler() {
    let folder = Folder::new("tables_handled");
    folder.rule("BRANCH begin\ncaught: HALT begin: 7 #10h ! BRANCH caught");
    for order in ["0", "1"] {
        let options = format!("--order {order} --table code --handler 14h");
        let ran = folder.done(&format!("run rule.mod {options}"));
        let stop = "stopped by HALT, reason -20 (FFFFFFECh)";
        assert_eq!(ran.lines().nth(1), Some(stop));
        let last = "code -20: a store into the table from 10h up to 24h";
        assert_eq!(ran.lines().last(), Some(last));
        let followed = folder.done(&format!("follow rule.lst --beside {options}"));
        let end = format!("{stop} after 5 items and 5 cycles\n");
        assert!(followed.ends_with(&end), "{followed}");
    }
}

/// The table goes with every call of a long run.
#[test]
fn a_store_after_many_cycles() {
    let folder = Folder::new("tables_long");
    folder.rule("3000000 again: 1- DUP 0= ?BRANCH again 5 1000h ! HALT");
    let said = folder.beetle(&format!("run rule.mod {TABLE}"));
    let thrown = format!("\nthrown: -20, {STORED}\n");
    assert!(said.output.contains(&thrown), "{}", said.output);
}

/// A code that a rule throws by itself is not told as the machine's by `follow`, nor without a
/// table that holds a byte.
#[test]
fn codes_of_the_rules_own() {
    let folder = Folder::new("tables_own");
    folder.rule("-20 THROW HALT");
    let followed = folder.done(&format!("follow rule.lst --beside {TABLE}"));
    assert!(!followed.contains("threw"), "{followed}");
    for options in ["", " --table 1000h,1000h"] {
        let said = folder.beetle(&format!("run rule.mod{options}"));
        assert!(said.output.contains("\nthrown: -20, the rule's own\n"));
    }
    folder.rule("-20 HALT");
    let ran = folder.done("run rule.mod");
    assert!(!ran.contains("code -20"), "{ran}");
}

#[test]
fn tables_of_no_byte() {
    let folder = Folder::new("tables_none");
    folder.rule("5 1000h ! 1 HALT");
    let without = folder.done("run rule.mod");
    let followed = folder.done("follow rule.lst --beside");
    for table in ["0,0", "0h,0", "1000h,1000h", "10h,10h", "10000h,10000h"] {
        let options = format!("--table {table}");
        assert_eq!(folder.done(&format!("run rule.mod {options}")), without);
        assert_eq!(
            folder.done(&format!("follow rule.lst --beside {options}")),
            followed
        );
    }
    folder.done("run rule.mod --table 10h,1000h");
    folder.done("run rule.mod --table 1004h,FE00h");
}

#[test]
fn tables_turned_away() {
    let folder = Folder::new("tables_refused");
    folder.rule("1 HALT");
    let rows = [
        (
            "1002h,1010h",
            "the table's first address 1002h is no multiple of 4",
        ),
        ("1000h,1011h", "the table's end 1011h is no multiple of 4"),
        (
            "1010h,1000h",
            "the table's end 1000h is below its first address 1010h",
        ),
        ("Ch,1000h", "the table begins at Ch, below 10h"),
        ("0,16", "the table begins at 0h, below 10h"),
        ("4,4", "the table begins at 4h, below 10h"),
        ("16,0", "the table's end 0h is below its first address 10h"),
        (
            "1000h,10004h",
            "the table ends at 10004h, past the memory's 10000h",
        ),
        (
            "10004h,10004h",
            "the table ends at 10004h, past the memory's 10000h",
        ),
        (
            "10h,FFFFFFFCh",
            "the table ends at FFFFFFFCh, past the memory's 10000h",
        ),
    ];
    for (table, error) in rows {
        for command in ["run rule.mod", "follow rule.lst"] {
            let words = format!("{command} --table {table}");
            let said = folder.beetle(&words);
            assert_eq!(said.status, 1, "{words}");
            assert!(said.error.contains("refused with -4112: "), "{said:?}");
            assert!(said.error.contains(&format!("\n  {error}\n")), "{said:?}");
        }
    }
    let said = folder.beetle("run rule.mod --address 0 --table code");
    let error = "\n  the table begins at 0h, below 10h\n";
    assert!(said.error.ends_with(error), "{said:?}");
}

/// The memory's length and areas are judged before the table.
#[test]
fn tables_turned_away_after_areas() {
    let folder = Folder::new("tables_refused_later");
    folder.rule("1 HALT");
    let areas = "--data-area 1,0 --return-area 1,0";
    for command in ["run rule.mod", "follow rule.lst"] {
        let said = folder.beetle(&format!("{command} {areas} --table 1,0"));
        assert!(said.error.contains("refused with -4111: "), "{said:?}");
        let said = folder.beetle(&format!("{command} --memory 1020 --table 1,0"));
        assert!(said.error.contains("refused with -4101: "), "{said:?}");
    }
}

#[test]
fn tables_wrongly_given() {
    let folder = Folder::new("tables_usage");
    let wants = "--table wants code or FIRST,END, each 0 to 4294967295, not ";
    for command in ["run a.mod", "follow a.lst"] {
        for value in [
            "16",
            "16,",
            ",16",
            "16,32,48",
            "-4,16",
            "10h,100000000h",
            "Code",
            "0x10,0x20",
        ] {
            let said = folder.beetle(&format!("{command} --table {value}"));
            assert_eq!(said.status, 2, "{value}");
            let error = format!("beetle: {wants}'{value}'\n");
            assert!(said.error.starts_with(&error), "{value}: {said:?}");
        }
        let said = folder.beetle(&format!("{command} --table code --table 0,0"));
        assert_eq!(said.status, 2);
        assert!(said.error.contains("--table is given twice"), "{said:?}");
        let said = folder.beetle(&format!("{command} --table"));
        assert_eq!(said.status, 2);
        assert!(said.error.contains("--table wants a value"), "{said:?}");
    }
}
