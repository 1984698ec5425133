//! Reports put together: what comes of it, and what is turned away.

use crate::batches::{figures, AT};
use crate::folder::{cells, Folder};

/// A report with these figures, whatever they are.
fn report(forms: &str, other: &str, cycles: &str, largest: &str, mean: [&str; 2]) -> String {
    let [mean, remainder] = mean;
    format!(
        "beetle batch report 1\n\
         given  0123456789ABCDEF\n\
         forms  {forms}\n\
         stopped with 0  0\n\
         stopped with -258  0\n\
         stopped with -259  0\n\
         stopped with another reason  {other}\n\
         spent  0\n\
         cycles  {cycles}\n\
         largest  {largest}\n\
         mean  {mean}\n\
         remainder  {remainder}\n\
         end of report\n"
    )
}

/// A folder with a rule and many forms, whole and cut in three.
fn with_parts(test: &str) -> Folder {
    let folder = Folder::new(test);
    folder.rule("400h @ 404h @ / HALT");
    let numbers: Vec<i64> = (0..100).flat_map(|at| [at % 5, at % 4]).collect();
    let forms = cells("0", &numbers);
    folder.write("forms", &forms);
    for (name, range) in [("a", 0..8), ("b", 8..8), ("c", 8..800)] {
        folder.write(name, &forms[range]);
        let said = folder.beetle(&format!("batch rule.mod {name} {AT}"));
        folder.write(&format!("{name}.report"), said.output);
    }
    folder
}

#[test]
fn parts_are_put_together() {
    let folder = with_parts("report_parts");
    let whole = folder.beetle(&format!("batch rule.mod forms {AT}"));
    assert_eq!(whole.status, 1);
    let whole = whole.output;
    assert!(figures(&whole).starts_with("forms                        100\n"));
    assert_eq!(folder.done("report a.report b.report c.report"), whole);
    assert_eq!(folder.done("report c.report a.report b.report"), whole);
    folder.write("whole.report", &whole);
    assert_eq!(folder.done("report whole.report"), whole);
    folder.write("two.report", folder.done("report c.report b.report"));
    assert_eq!(folder.done("report two.report a.report"), whole);
    let end_to_end = ["a.report", "b.report", "c.report"].map(|name| folder.read(name));
    let said = folder.beetle_given("report -", &end_to_end.concat());
    assert_eq!((said.status, said.output), (0, whole));
}

/// Sums past 32 and past 64 bits, and one that is too large.
#[test]
fn large_sums() {
    let folder = Folder::new("report_large");
    let most = "4294967295";
    let mean = [most, "0"];
    let ten = report("10", "10", "42949672950", most, mean);
    folder.write("ten", ten);
    let many = "18446744073709551605";
    let cycles = "79228162495817593472589758475";
    folder.write("many", report(many, many, cycles, most, mean));
    let all = folder.done("report ten many");
    for line in [
        "forms                        18446744073709551615\n",
        "stopped with another reason  18446744073709551615\n",
        "cycles                       79228162495817593515539431425\n",
        "mean                         4294967295\nremainder                    0\n",
    ] {
        assert!(all.contains(line), "{all}");
    }
    folder.write("all", &all);
    folder.write("one", report("1", "1", "7", "7", ["7", "0"]));
    let said = folder.beetle("report all one");
    let told = "beetle: more than 18446744073709551615 forms cannot be counted\n";
    assert_eq!((said.status, said.output.as_str()), (1, ""));
    assert_eq!(said.error, told);
}

/// Nothing is printed, and this is what is told.
fn refused(folder: &Folder, words: &str, error: &str) {
    let said = folder.beetle(&format!("report {words}"));
    assert_eq!((said.status, said.output.as_str()), (1, ""), "{words}");
    assert_eq!(said.error, error, "{words}");
}

#[test]
fn files_that_are_no_reports() {
    let folder = with_parts("report_none");
    let whole = folder.read_text("a.report");
    let expected = "here 'beetle batch report 1' is expected, but";
    folder.write("empty", "");
    refused(
        &folder,
        "a.report empty",
        &format!("empty:1: {expected} the file ends\n"),
    );
    let each = "form 1: 5 cycles, stopped by HALT, reason 0";
    folder.write("each", each);
    refused(
        &folder,
        "each a.report",
        &format!("each:1: {expected} '{each}' is found\n"),
    );
    let (cut, _) = whole.split_once("mean").expect("a mean");
    folder.write("cut", cut);
    let told = "cut:11: here 'mean' is expected, but the file ends\n";
    refused(&folder, "a.report cut b.report", told);
    let both = format!("empty:1: {expected} the file ends\n{told}");
    refused(&folder, "empty cut a.report", &both);
    folder.write("bytes", [0xFF, 0xFE]);
    refused(&folder, "bytes", "beetle: bytes: this is no text\n");
    let said = folder.beetle("report a.report none");
    assert_eq!((said.status, said.output.as_str()), (1, ""));
    assert!(said.error.starts_with("beetle: none: "), "{said:?}");
    let said = folder.beetle_given("report -", b"");
    assert_eq!(
        said.error,
        format!("standard input:1: {expected} the file ends\n")
    );
}

#[test]
fn figures_that_do_not_fit_together() {
    let folder = Folder::new("report_figures");
    let mean = ["4", "1"];
    let rows = [
        (
            report("3", "2", "13", "9", mean),
            "x:3: forms: 3 forms, but the five counts below make 2\n",
        ),
        (
            report("3", "3", "13", "4", mean),
            "x:9: cycles: 13 cycles, but 3 forms of at most 4 have 12\n",
        ),
        (
            report("3", "3", "13", "14", mean),
            "x:10: largest: 14 cycles of one form, but 13 of all\n",
        ),
        (
            report("3", "3", "13", "9", ["4", "0"]),
            "x:11: mean: 4, remainder 0, but 13 cycles of 3 forms have 4, remainder 1\n",
        ),
        (
            report("0", "0", "0", "0", ["0", "1"]),
            "x:11: mean: 0, remainder 1, but 0 cycles of 0 forms have 0, remainder 0\n",
        ),
    ];
    let good = report("3", "3", "13", "9", mean);
    for (text, error) in rows {
        folder.write("x", &text);
        refused(&folder, "x", error);
        folder.write("x", format!("{good}{text}"));
        let (_, what) = error.split_once(": ").expect("a place");
        let said = folder.beetle("report x");
        assert!(
            said.error.starts_with("x:") && said.error.ends_with(what),
            "{said:?}"
        );
    }
    folder.write("x", good);
    folder.done("report x");
}

#[test]
fn forms_that_were_not_given_alike() {
    let folder = with_parts("report_given");
    let others = [
        "--form-length 8 --address 400h --budget 999",
        "--form-length 8 --address 404h --budget 1000",
        "--form-length 4 --address 400h --budget 1000",
        "--form-length 8 --address 400h --budget 1000 --memory 2048",
        "--form-length 8 --address 400h --budget 1000 --order 1",
        "--form-length 8 --address 400h --budget 1000 --handler 10h",
    ];
    for options in others {
        let said = folder.beetle(&format!("batch rule.mod a {options}"));
        folder.write("other.report", said.output);
        let said = folder.beetle("report c.report other.report");
        assert_eq!((said.status, said.output.as_str()), (1, ""), "{options}");
        assert!(said.error.contains(" were not given alike"), "{said:?}");
    }
    let said = folder.beetle(&format!("batch rule.mod a {AT} --table code"));
    folder.write("other.report", &said.output);
    let line = |report: &str| {
        let line = report.lines().nth(1).expect("a digest");
        line.replace("                       ", "")
    };
    let (first, second) = (line(&folder.read_text("a.report")), line(&said.output));
    let error = format!(
        "beetle: these reports are of forms that were not given alike, and do not go together:\n\
         a.report: {first}\nother.report: {second}\n"
    );
    refused(&folder, "a.report b.report other.report c.report", &error);
}

#[test]
fn wrong_command_lines() {
    let folder = with_parts("report_usage");
    let twice = "are one file: its forms would count twice";
    let rows = [
        ("report", "FILE is missing".to_string()),
        ("report --all", "unknown option --all".to_string()),
        (
            "report a.report b.report a.report",
            format!("a.report and a.report {twice}"),
        ),
        (
            "report a.report ./a.report",
            format!("a.report and ./a.report {twice}"),
        ),
        ("report - -", format!("- and - {twice}")),
    ];
    for (words, error) in rows {
        folder.wrong(words, &error);
    }
}
