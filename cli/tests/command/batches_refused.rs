//! Batches that are turned away: what is said, and that nothing is written then.

use crate::folder::{cells, Folder};

/// A folder with a rule and two forms of eight bytes.
fn with_rule(test: &str) -> Folder {
    let folder = Folder::new(test);
    folder.rule("400h @ HALT");
    folder.write("forms", cells("0", &[1, 2, 3, 4]));
    folder
}

/// The command says this on its error stream, and neither prints nor leaves anything.
fn refused(folder: &Folder, words: &str, status: i32, error: &str) {
    folder.write("left", "before");
    let said = folder.beetle(&format!("batch -o left --each never {words}"));
    assert_eq!((said.status, said.output.as_str()), (status, ""), "{words}");
    assert!(said.error.starts_with(error), "{words}: {said:?}");
    assert_eq!(folder.read("left"), b"before", "{words}");
    assert_eq!(folder.names_with("part"), [""; 0], "{words}");
    assert_eq!(folder.names_with("never"), [""; 0], "{words}");
}

const AT: &str = "--form-length 8 --address 400h";

/// The library refuses with this number, and this is what is told of it.
fn refused_with(folder: &Folder, words: &str, number: i32, reason: &str) {
    let error = format!("beetle: refused with {number}: ");
    refused(folder, words, 1, &error);
    let said = folder.beetle(&format!("batch {words}"));
    let lines: Vec<&str> = said.error.lines().skip(1).collect();
    assert_eq!(lines, [format!("  {reason}")], "{words}");
}

#[test]
fn refusals_of_the_machine() {
    let folder = with_rule("batch_refused");
    let areas = "the data area's top 402h is no multiple of 4";
    let rows = [
        ("--memory 1020", -4101, "--memory is 1020"),
        ("--memory 99999999999", -4101, "--memory is 99999999999"),
        ("--order 2", -4102, "--order is 2"),
        ("--data-area 402h,4 --return-area 500h,4", -4111, areas),
        ("--table 8h,10h", -4112, "the table begins at 8h, below 10h"),
    ];
    for (options, number, reason) in rows {
        let words = format!("rule.mod forms {AT} {options}");
        refused_with(&folder, &words, number, reason);
    }
}

#[test]
fn forms_that_pass_memory() {
    let folder = with_rule("batch_passing");
    folder.write("none", "");
    let past = "past the memory's 10000h";
    let rows = [
        ("8 --address FFF9h", "8 bytes at FFF9h ends at 10001h"),
        ("8 --address 10000h", "8 bytes at 10000h ends at 10008h"),
        (
            "16 --address FFFFFFFFh",
            "16 bytes at FFFFFFFFh ends at 10000000Fh",
        ),
        (
            "4294967295 --address 400h",
            "4294967295 bytes at 400h ends at 1000003FFh",
        ),
    ];
    for (options, ends) in rows {
        let reason = format!("a form of {ends}, {past}");
        for forms in ["forms", "none"] {
            let words = format!("rule.mod {forms} --form-length {options}");
            refused_with(&folder, &words, -1, &reason);
        }
    }
}

#[test]
fn modules_that_are_none() {
    let folder = with_rule("batch_modules");
    folder.write("bad.mod", "no module");
    let begin = "it does not begin with BEETLE, a byte 0 and a byte order, 0 or 1";
    let words = format!("bad.mod forms {AT}");
    refused_with(&folder, &words, -2, &format!("bad.mod at 10h: {begin}"));
    let words = format!("rule.mod@10h bad.mod@400h forms {AT}");
    refused_with(&folder, &words, -2, &format!("bad.mod at 400h: {begin}"));
    let words = format!("rule.mod@FFFCh forms {AT}");
    let reason = "rule.mod at FFFCh: its 2 cells end at 10004h, past the memory's 10000h";
    refused_with(&folder, &words, -1, reason);
    let words = format!("rule.mod@10h rule.mod@14h forms {AT}");
    let both = "rule.mod from 10h up to 18h and rule.mod from 14h up to 1Ch share bytes";
    refused_with(&folder, &words, -4113, both);
    let words = format!("none.mod forms {AT}");
    refused(&folder, &words, 1, "beetle: none.mod: ");
}

#[test]
fn files_of_other_lengths() {
    let folder = with_rule("batch_lengths");
    let rows = [
        (
            3,
            "16 bytes are no whole number of forms of 3 bytes: 5 forms, and 1 bytes left over",
        ),
        (
            7,
            "16 bytes are no whole number of forms of 7 bytes: 2 forms, and 2 bytes left over",
        ),
        (
            17,
            "16 bytes are no whole number of forms of 17 bytes: 0 forms, and 16 bytes left over",
        ),
    ];
    for (length, what) in rows {
        let words = format!("rule.mod forms --form-length {length} --address 400h");
        refused(&folder, &words, 1, &format!("beetle: forms: {what}\n"));
    }
    refused(&folder, &format!("rule.mod none {AT}"), 1, "beetle: none: ");
    refused(&folder, &format!("rule.mod . {AT}"), 1, "beetle: .: ");
}

#[test]
fn a_start_that_stops() {
    let folder = with_rule("batch_start");
    let error =
        "beetle: no form was run, as the start stopped -259: a throw found no valid address in \
                 'THROW\n";
    refused(&folder, &format!("rule.mod forms {AT} --entry 2"), 1, error);
    let error = "beetle: no form was run, as the start stopped -258: ";
    let table = "--entry 2 --table FE00h,FF00h";
    refused(&folder, &format!("rule.mod forms {AT} {table}"), 1, error);
}

#[test]
fn words_that_are_missing() {
    let folder = with_rule("batch_usage");
    let rows = [
        ("--quiet", "RULE.mod is missing"),
        ("rule.mod", "FORMS is missing"),
        ("rule.mod forms", "--form-length BYTES is missing"),
        (
            "rule.mod forms --form-length 8",
            "--address ADDRESS is missing",
        ),
        (
            "rule.mod rule.mod forms --form-length 8 --address 400h",
            "'rule.mod' has no address: of several modules each is FILE@ADDRESS",
        ),
    ];
    for (words, error) in rows {
        refused(&folder, words, 2, &format!("beetle: {error}\n"));
    }
}

#[test]
fn numbers_that_are_none() {
    let folder = with_rule("batch_numbers");
    let rows = [
        (
            "--form-length 0 --address 400h",
            "--form-length wants 1",
            "0",
        ),
        ("--form-length 8 --address -4", "--address wants 0", "-4"),
        (
            "--form-length 8 --address 400h --budget 4294967296",
            "--budget wants 0",
            "4294967296",
        ),
    ];
    for (options, wants, word) in rows {
        let error = format!("beetle: {wants} to 4294967295, not '{word}'\n");
        refused(&folder, &format!("rule.mod forms {options}"), 2, &error);
    }
    for jobs in ["0", "1025", "x"] {
        let error = format!("beetle: --jobs wants 1 to 1024, not '{jobs}'\n");
        refused(
            &folder,
            &format!("rule.mod forms {AT} --jobs {jobs}"),
            2,
            &error,
        );
    }
}

/// What is read is not written over, and two files are not written as one.
#[test]
fn files_that_would_be_lost() {
    let folder = with_rule("batch_lost");
    let (forms, rule) = (folder.read("forms"), folder.read("rule.mod"));
    let rows = [
        ("-o forms", "-o forms would replace forms, which is read"),
        (
            "-o ./forms",
            "-o ./forms would replace forms, which is read",
        ),
        (
            "-o rule.mod",
            "-o rule.mod would replace rule.mod, which is read",
        ),
        (
            "--each forms",
            "--each forms would replace forms, which is read",
        ),
        ("-o x --each x", "-o x and --each x are one file"),
        ("-o -", "-o wants the name of a file, not '-'"),
        ("--each -", "--each wants the name of a file, not '-'"),
    ];
    for (options, error) in rows {
        folder.wrong(&format!("batch rule.mod forms {AT} {options}"), error);
    }
    assert_eq!(
        (folder.read("forms"), folder.read("rule.mod")),
        (forms, rule)
    );
}

#[test]
fn files_that_cannot_be_written() {
    let folder = with_rule("batch_unwritten");
    let rows = [
        ("-o none/left", "none/left: "),
        (
            "-o .",
            ".: this is no plain file, so that it cannot be replaced\n",
        ),
        ("--each none/each -o good", "none/each: "),
    ];
    for (options, error) in rows {
        let said = folder.beetle(&format!("batch rule.mod forms {AT} {options}"));
        assert_eq!((said.status, said.output.as_str()), (1, ""), "{options}");
        assert!(
            said.error.starts_with(&format!("beetle: {error}")),
            "{said:?}"
        );
    }
    assert_eq!(folder.names_with("good"), [""; 0]);
}

/// A file that is there already is replaced when all is done, through a link too.
#[test]
fn files_that_are_replaced() {
    let folder = with_rule("batch_replaced");
    folder.write("left", "a longer file than the forms are");
    let said = folder.done(&format!("batch rule.mod forms {AT} -o left"));
    assert!(said.starts_with("beetle batch report 1\n"));
    assert_eq!(folder.read("left"), folder.read("forms"));
    assert_eq!(folder.names_with("left"), ["left"]);
    folder.write("real", "before");
    folder.link("real", "link");
    folder.done(&format!("batch rule.mod forms {AT} -o link"));
    assert_eq!(folder.read("real"), folder.read("forms"));
    folder.wrong(
        &format!("batch rule.mod real {AT} -o link"),
        "-o link would replace real, which is read",
    );
}
