//! Rules run over files of forms: every way in which a form's run ends, and what makes no difference.

use crate::folder::{cells, Folder};

/// Counts in the form's second cell, and ends as its first one says.
const ENDS: &str = "\
        1 404h +!
        400h @
        DUP 1000 =  ?BRANCH two
        0 /
two:    DUP 1001 =  ?BRANCH three
again:  BRANCH again
three:  DUP 1002 =  ?BRANCH four
        #0 SP!  DUP
four:   HALT
";

/// The options of forms for this rule.
pub const AT: &str = "--form-length 8 --address 400h --budget 1000";

/// A folder with the rule, and a form for each number.
fn with_forms(test: &str, order: &str, numbers: &[i64]) -> Folder {
    let folder = Folder::new(test);
    folder.rule(ENDS);
    let forms: Vec<i64> = numbers.iter().flat_map(|number| [*number, 0]).collect();
    folder.write("forms", cells(order, &forms));
    folder
}

const ALL: [i64; 9] = [0, 5, -258, -259, 1000, 1001, 1002, 0, -257];

/// A line for each of them.
const EACH: &str = "\
form 1: 19 cycles, stopped by HALT, reason 0
form 2: 19 cycles, stopped by HALT, reason 5
form 3: 19 cycles, stopped -258: SP was no place for a throw's code or for HALT's reason
form 4: 19 cycles, stopped -259: a throw found no valid address in 'THROW
form 5: 12 cycles, stopped -259: a throw found no valid address in 'THROW; thrown: -10, division by zero
form 6: 1000 cycles, spent its budget, not stopped
form 7: 21 cycles, stopped -258: SP was no place for a throw's code or for HALT's reason
form 8: 19 cycles, stopped by HALT, reason 0
form 9: 19 cycles, stopped by HALT, reason -257 (FFFFFEFFh)
";

/// Their figures.
const FIGURES: &str = "\
forms                        9
stopped with 0               2
stopped with -258            2
stopped with -259            2
stopped with another reason  2
spent                        1
cycles                       1147
largest                      1000
mean                         127
remainder                    4
end of report
";

/// A report without its first two lines.
pub fn figures(report: &str) -> &str {
    let first = "beetle batch report 1\ngiven                        ";
    let rest = report.strip_prefix(first).expect("a report");
    rest.split_once('\n').expect("a digest").1
}

#[test]
fn every_end_is_counted() {
    for order in ["0", "1"] {
        let folder = with_forms("every_end", order, &ALL);
        let words = format!("batch rule.mod forms {AT} --order {order}");
        let said = folder.beetle(&words);
        assert_eq!((said.status, figures(&said.output)), (1, FIGURES));
        let told = "beetle: 5 of 9 forms stopped with -258 or -259 or were spent: ";
        assert_eq!(said.error, format!("{told}--each FILE tells which\n"));
        let report = said.output;
        let said = folder.beetle(&format!("{words} --each each -o left"));
        let more = "beetle: left holds those too, as they were when their runs ended\n";
        assert_eq!(said.error, format!("{told}the first is form 3\n{more}"));
        assert_eq!((said.status, said.output), (1, report));
        assert_eq!(folder.read_text("each"), EACH);
        let left: Vec<i64> = ALL.iter().flat_map(|number| [*number, 1]).collect();
        assert_eq!(folder.read("left"), cells(order, &left));
        assert_eq!(folder.names_with("part"), [""; 0]);
    }
}

/// HALT with whatever reason is a good end.
#[test]
fn the_exit_status() {
    for (number, status) in [(0, 0), (7, 0), (-3, 0), (-258, 1), (-259, 1), (1001, 1)] {
        let folder = with_forms("exit_status", "0", &[0, number, 0]);
        let said = folder.beetle(&format!("batch rule.mod forms {AT}"));
        assert_eq!(said.status, status, "{number}");
        assert_eq!(said.error.is_empty(), status == 0, "{number}");
    }
}

/// The report and both files do not depend on how many threads there are.
#[test]
fn any_number_of_jobs() {
    let numbers: Vec<i64> = (0..2500).map(|at| (at * at) % 1003).collect();
    let folder = with_forms("jobs", "0", &numbers);
    let mut before = None;
    for jobs in ["1", "2", "3", "64", "1024"] {
        let words = format!("batch rule.mod forms {AT} --memory 2048 --jobs {jobs}");
        let report = folder.beetle(&words).output;
        let said = folder.beetle(&format!("{words} -o left --each each"));
        assert_eq!(said.output, report, "{jobs}");
        let all = (report, folder.read("left"), folder.read_text("each"));
        assert_eq!(all.2.lines().count(), 2500);
        assert_eq!(*before.get_or_insert(all.clone()), all, "{jobs}");
    }
}

/// More forms than the library takes at once.
#[test]
fn many_forms() {
    let folder = Folder::new("many_forms");
    folder.rule("200h @ DUP HALT");
    let numbers: Vec<i64> = (0..70_001).map(|at| at % 3).collect();
    folder.write("forms", cells("0", &numbers));
    let words = "batch rule.mod forms --form-length 4 --address 200h --memory 1024 --jobs";
    let expected = "\
forms                        70001
stopped with 0               23334
stopped with -258            0
stopped with -259            0
stopped with another reason  46667
spent                        0
cycles                       280004
largest                      4
mean                         4
remainder                    0
end of report
";
    for jobs in [1, 2] {
        assert_eq!(figures(&folder.done(&format!("{words} {jobs}"))), expected);
    }
}

/// A form that a rule leaves otherwise is not what the next one finds.
#[test]
fn nothing_goes_over() {
    let folder = Folder::new("nothing_over");
    folder.rule("1 800h +!  800h @  404h !  800h @ HALT");
    folder.write("forms", cells("0", &[1, 2, 3, 4, 5, 6]));
    let words = "batch rule.mod forms --form-length 8 --address 400h --jobs 1 -o left --each each";
    folder.done(words);
    assert_eq!(folder.read("left"), cells("0", &[1, 1, 3, 1, 5, 1]));
    let each = folder.read_text("each");
    assert_eq!(each.matches("stopped by HALT, reason 1\n").count(), 3);
}

#[test]
fn no_form() {
    let folder = Folder::new("no_form");
    folder.rule("HALT");
    folder.write("forms", "");
    let words = "batch rule.mod forms --form-length 3 --address FFFDh -o left --each each";
    let report = folder.done(words);
    let zeros: Vec<&str> = figures(&report).lines().collect();
    assert_eq!(zeros.len(), 11);
    assert!(
        zeros[..10].iter().all(|line| line.ends_with(" 0")),
        "{report}"
    );
    assert_eq!(
        (folder.read("left").len(), folder.read("each").len()),
        (0, 0)
    );
    folder.write("two", report.repeat(2));
    assert_eq!(folder.done("report two"), report);
}

#[test]
fn forms_from_standard_input() {
    let folder = with_forms("input", "0", &ALL);
    let from_file = folder.beetle(&format!("batch rule.mod forms {AT} -o left"));
    let words = format!("batch rule.mod - {AT} -o left_of_input");
    let said = folder.beetle_given(&words, &folder.read("forms"));
    assert_eq!((said.status, said.output), (1, from_file.output));
    assert_eq!(folder.read("left_of_input"), folder.read("left"));
    let said = folder.beetle_given(&words, b"123456789");
    let told =
        "beetle: standard input: 9 bytes are no whole number of forms of 8 bytes: 1 forms, and 1 \
                bytes left over\n";
    assert_eq!((said.status, said.error.as_str()), (1, told));
}

/// A form of odd length at an odd address, its bytes as they are.
#[test]
fn unaligned_forms() {
    let folder = Folder::new("unaligned");
    folder.rule("401h C@  403h C!  403h C@ HALT");
    folder.write("forms", [7, 8, 9, 0, 4, 4]);
    let words = "batch rule.mod forms --form-length 3 --address 401h";
    let report = folder.done(&format!("{words} -o left"));
    assert!(
        report.contains("\nstopped with 0               1\n"),
        "{report}"
    );
    assert_eq!(folder.read("left"), [7, 8, 7, 0, 4, 0]);
}

/// The last bytes of memory are a form's, and the first ones.
#[test]
fn forms_at_both_ends_of_memory() {
    let folder = Folder::new("both_ends");
    folder.rule("HALT");
    folder.write("forms", [0; 8]);
    folder.done("batch rule.mod forms --form-length 4 --address FFFCh");
    let said = folder.beetle("batch rule.mod forms --form-length 8 --address Ch");
    let form = "beetle: note: each form, from Ch up to 14h, lies over";
    let own = format!("{form} the machine's own cells, 0h to Fh\n");
    let rule = format!("{form} cells of rule.mod, from 10h up to 14h\n");
    assert_eq!(said.error, format!("{own}{rule}"));
    let beside = "batch rule.mod forms --form-length 8 --address 14h";
    folder.done(beside);
}

#[test]
fn a_rule_set_and_addresses() {
    let folder = Folder::new("batch_set");
    folder.rule("base 800h\n400h @ 3 + EXIT");
    folder.done("save rule.lst -o add.mod --order 1");
    folder.rule("800h EXECUTE HALT");
    folder.write("forms", cells("0", &[-3, 1]));
    let at = "--form-length 4 --address 400h";
    let both = folder.done(&format!("batch rule.mod@10h add.mod@800h forms {at}"));
    let counts = "stopped with 0               1\n";
    assert!(figures(&both).contains(counts), "{both}");
    let from = format!("batch add.mod@800h rule.mod@10h forms {at} --entry 10h");
    assert_eq!(folder.done(&from), both);
    folder.rule("400h @ HALT");
    let one = folder.done(&format!("batch rule.mod@20h forms {at}"));
    assert_ne!(one, folder.done(&format!("batch rule.mod forms {at}")));
}

/// Areas, a table and a handler are those of every form.
#[test]
fn what_a_machine_keeps_to() {
    let folder = Folder::new("batch_limits");
    folder.rule("400h @ ?BRANCH more 1 HALT more: 1 BRANCH more");
    folder.write("forms", cells("0", &[0, 1]));
    let words = "batch rule.mod forms --form-length 4 --address 400h --each each";
    let areas = "--data-area 800h,4 --return-area 900h,4";
    let said = folder.beetle(&format!("{words} {areas}"));
    assert_eq!(said.status, 1);
    let each = folder.read_text("each");
    let over = "the data stack went below its area (overflow)";
    assert!(each.contains(&format!("; thrown: -3, {over}\n")), "{each}");
    folder.rule("400h @ ?BRANCH done 1 10h ! done: 0 HALT");
    let said = folder.beetle(&format!("{words} --table code"));
    assert_eq!(said.status, 1);
    let each = folder.read_text("each");
    let told = "; thrown: -20, a store into the table from 10h up to 24h\n";
    assert!(
        each.starts_with("form 1: ") && each.ends_with(told),
        "{each}"
    );
}

/// What was in the way of a code goes by the areas, as `run` tells it.
#[test]
fn a_code_for_a_handler() {
    let folder = Folder::new("batch_handler");
    folder.rule("400h @ 5 SWAP / HALT caught: BRANCH end end: HALT");
    folder.write("forms", cells("0", &[0, 5]));
    let shown = folder.done("show rule.lst");
    let end = shown.lines().last().expect("a line");
    let cell = end.split_whitespace().nth(2).expect("its cell");
    let words = "batch rule.mod forms --form-length 4 --address 400h --each each";
    folder.done(&format!("{words} --handler {cell}h"));
    let each = folder.read_text("each");
    assert!(each.contains("form 1: ") && each.contains("reason -10 (FFFFFFF6h)\n"));
    assert!(each.ends_with("reason 1\n"), "{each}");
}
