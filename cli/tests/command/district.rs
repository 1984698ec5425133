//! The fifty-two households of `examples/` from their table to the corrected one, by both rules, in both
//! byte orders, with the rules' own cells protected and without, on one thread and on several.

use crate::batches::figures;
use crate::examples::example;
use crate::folder::Folder;

const FORM: usize = 168;
const AT: &str = "--form-length 168 --address 400h";

/// A folder with the table, the description, both rules and the forms.
fn with_district(test: &str, order: &str) -> Folder {
    let folder = Folder::new(test);
    for file in ["households.csv", "household.record"] {
        folder.write(file, example(file));
    }
    for rule in ["ages", "mothers"] {
        folder.rule(&example(&format!("{rule}.txt")));
        folder.done(&format!("save rule.lst -o {rule}.mod"));
    }
    let words = "forms households.csv --record household.record -o forms --order";
    let told = folder.done(&format!("{words} {order}"));
    assert!(told.starts_with("forms: 52 households, 187 persons, form length 168\n"));
    folder
}

/// The options of each way in which the rules are run.
fn ways(order: &str) -> Vec<String> {
    let mut ways = Vec::new();
    for table in ["", " --table code"] {
        for jobs in [1, 2, 5] {
            ways.push(format!("{AT} --order {order} --jobs {jobs}{table}"));
        }
    }
    ways
}

#[test]
fn from_table_to_table() {
    for order in ["0", "1"] {
        let folder = with_district("district", order);
        for way in ways(order) {
            let ages = folder.done(&format!("batch ages.mod forms {way} -o aged"));
            let mothers = folder.done(&format!("batch mothers.mod aged {way} -o given"));
            assert_eq!(figures(&ages), figures(&example("ages.report")), "{way}");
            assert_eq!(
                figures(&mothers),
                figures(&example("mothers.report")),
                "{way}"
            );
            let words = "forms given --record household.record --back --beside households.csv";
            let told = folder.done(&format!("{words} -o after.csv --order {order}"));
            assert_eq!(
                told,
                "after.csv: 52 households, 187 persons, 34 fields changed\n"
            );
            let after = folder.read_text("after.csv");
            assert_eq!(after, example("households.after.csv"), "{way}");
        }
    }
}

/// What is stored is what is printed, digest and all.
#[test]
fn the_stored_reports() {
    let folder = with_district("district_reports", "0");
    let way = format!("{AT} --table code");
    let ages = folder.done(&format!("batch ages.mod forms {way} -o aged"));
    assert_eq!(ages, example("ages.report"));
    let mothers = folder.done(&format!("batch mothers.mod aged {way}"));
    assert_eq!(mothers, example("mothers.report"));
}

/// The forms in two files, at every place where they can be cut.
#[test]
fn a_district_in_two_files() {
    let folder = with_district("district_cut", "0");
    let forms = folder.read("forms");
    let words = format!("batch ages.mod - {AT} --table code");
    for cut in (0..=52).step_by(13).chain([1, 51]) {
        let (left, right) = forms.split_at(cut * FORM);
        for (name, part) in [("left.report", left), ("right.report", right)] {
            folder.write(name, folder.beetle_given(&words, part).output);
        }
        let both = folder.done("report left.report right.report");
        assert_eq!(both, example("ages.report"), "{cut}");
        let other = folder.done("report right.report left.report");
        assert_eq!(other, example("ages.report"), "{cut}");
    }
}

/// A rule does what it says once: over the forms that it left it changes nothing.
#[test]
fn a_second_time() {
    let folder = with_district("district_again", "0");
    for rule in ["ages", "mothers"] {
        folder.done(&format!("batch {rule}.mod forms {AT} -o once"));
        folder.done(&format!("batch {rule}.mod once {AT} -o twice"));
        assert_eq!(folder.read("once"), folder.read("twice"), "{rule}");
        assert_ne!(folder.read("once"), folder.read("forms"), "{rule}");
    }
}

/// A form that does not say 1 to 8 persons is left as it is.
#[test]
fn forms_without_persons() {
    let folder = with_district("district_counts", "0");
    let mut forms = vec![0xFF; 3 * FORM];
    for (form, count) in forms.chunks_mut(FORM).zip([0, 9, u32::MAX]) {
        form[4..8].copy_from_slice(&count.to_le_bytes());
    }
    folder.write("forms", &forms);
    for rule in ["ages", "mothers"] {
        folder.done(&format!("batch {rule}.mod forms {AT} -o left --each each"));
        assert_eq!(folder.read("left"), forms, "{rule}");
        let each = folder.read_text("each");
        assert_eq!(
            each.matches("stopped by HALT, reason 9\n").count(),
            3,
            "{each}"
        );
    }
}
