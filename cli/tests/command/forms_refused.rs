//! Tables, forms and descriptions that are turned away: what is told, and that nothing is written.

use crate::folder::{cells, Folder};
use crate::forms::{table, with_table, RECORD};

/// The command tells this, and leaves nothing.
fn refused(folder: &Folder, words: &str, error: &str) {
    let said = folder.beetle(&format!("forms {words} -o never"));
    assert_eq!((said.status, said.output.as_str()), (1, ""), "{words}");
    assert_eq!(said.error, error, "{words}");
    assert_eq!(folder.names_with("never"), [""; 0], "{words}");
}

/// A table with these lines behind its first one is turned away.
fn table_refused(folder: &Folder, lines: &str, error: &str) {
    let first = "house,person,age in years,\"so \"\"much\"\"\"";
    folder.write("bad.csv", format!("{first}\n{lines}"));
    refused(folder, "bad.csv --record RECORD", error);
}

#[test]
fn fields_that_do_not_fit() {
    let folder = with_table("forms_fields");
    let lines = "x,1,2,3\n,1,2,3\n4294967296,1,2,3\n-1,1,2,3\n1,,2,3\n1,1,121,3\n1,1,-1,3\n";
    let error = "\
bad.csv:2: house is 'x', which is no number in decimal digits
bad.csv:3: house is empty, and the record has no cell for that
bad.csv:4: house is '4294967296', which is not from 0 to 4294967295
bad.csv:5: house is '-1', which is not from 0 to 4294967295
bad.csv:6: person is empty, and the record has no cell for that
bad.csv:7: age in years is '121', which is not from 0 to 120
bad.csv:8: age in years is '-1', which is not from 0 to 120
";
    table_refused(&folder, lines, error);
    let lines = "1,1.5,\" 2\",9\n1,1,2,-51\n1,1,2,\"5,1\"\n";
    let error = "\
bad.csv:2: age in years is ' 2', which is no number in decimal digits
bad.csv:2: person is '1.5', which is no number in decimal digits
bad.csv:2: so \"much\" is '9', which stands for an empty field
bad.csv:3: so \"much\" is '-51', which is not from -50 to 50
bad.csv:4: so \"much\" is '5,1', which is no number in decimal digits
";
    table_refused(&folder, lines, error);
}

#[test]
fn households_that_do_not_fit() {
    let folder = with_table("forms_households");
    let four = "5,1,2,3\n".repeat(4);
    let error = "bad.csv:3: household 5 has 4 persons, a form only 3\n";
    table_refused(&folder, &format!("4,1,2,3\n{four}6,1,2,3\n"), error);
    let error = "bad.csv:4: household 5 stands at line 2 already, others between\n";
    table_refused(&folder, "5,1,2,3\n6,1,2,3\n5,2,2,3\n", error);
}

#[test]
fn texts_that_are_no_tables() {
    let folder = with_table("forms_texts");
    folder.write("empty.csv", "");
    let error = "empty.csv:1: the table has no line with its columns' names\n";
    refused(&folder, "empty.csv --record RECORD", error);
    let error = "\
bad.csv:2: 3 fields, where the first line has 4
bad.csv:3: 1 fields, where the first line has 4
bad.csv:4: a quote inside a field that does not begin with one
bad.csv:5: after a field in quotes a comma or the line's end is expected
bad.csv:6: a quote that does not end
";
    let lines = "1,2,3\n\n1,2\",3,4\n1,\"2\"2,3,4\n1,2,\"3,4\n1,2,3,4\n";
    table_refused(&folder, lines, error);
}

#[test]
fn columns_that_are_not_there() {
    let folder = with_table("forms_columns");
    folder.write("bad.csv", "house,person,age,person\n1,2,3,4\n");
    let error = "\
bad.csv:1: the column 'person' stands there twice
bad.csv:1: the column 'age in years' is missing, there are: house, person, age, person
bad.csv:1: the column 'so \"much\"' is missing, there are: house, person, age, person
";
    refused(&folder, "bad.csv --record RECORD", error);
    folder.write("bad.csv", "house;person;age\n1;2;3\n");
    let said = folder.beetle("forms bad.csv --record RECORD -o never");
    let first = "bad.csv:1: the column 'house' is missing, there are: house;person;age\n";
    assert!(said.error.starts_with(first), "{said:?}");
}

/// Forms of these cells are turned away on the way back.
fn forms_refused(folder: &Folder, numbers: &[i64], error: &str) {
    for order in ["0", "1"] {
        folder.write("bad.forms", cells(order, numbers));
        let words = format!("bad.forms --record RECORD --back --order {order}");
        refused(folder, &words, error);
    }
}

#[test]
fn forms_that_a_table_cannot_say() {
    let folder = with_table("forms_cells");
    let numbers = [
        7, 0, 0, 0, 0, 0, 0, 0, 0, 0, 0, 8, 4, 0, 0, 0, 0, 0, 0, 0, 0, 0, 9, -1, 0, 0, 0, 0, 0, 0,
        0, 0, 0,
    ];
    let error = "\
bad.forms: form 1: it says 0 persons, and has room for 1 to 3
bad.forms: form 2: it says 4 persons, and has room for 1 to 3
bad.forms: form 3: it says 4294967295 persons, and has room for 1 to 3
";
    forms_refused(&folder, &numbers, error);
    let numbers = [
        7, 2, 1, 121, -51, 2, -2, 51, 0, 0, 0, 7, 2, 1, 0, 0, 1, 0, 0, 0, 6, 0,
    ];
    let error = "\
bad.forms: form 1: person 1: age in years is 121 (79h), which is not from 0 to 120
bad.forms: form 1: person 1: so \"much\" is -51 (FFFFFFCDh), which is not from -50 to 50
bad.forms: form 1: person 2: age in years is -2 (FFFFFFFEh), which is not from 0 to 120
bad.forms: form 1: person 2: so \"much\" is 51 (33h), which is not from -50 to 50
bad.forms: form 2: it says 2 persons, but age in years of person 3 is 6, not 0
bad.forms: form 2: household 7 is that of form 1 too
";
    forms_refused(&folder, &numbers, error);
}

#[test]
fn forms_of_another_length() {
    let folder = with_table("forms_length");
    folder.write("bad.forms", [0; 45]);
    let error =
        "beetle: bad.forms: 45 bytes are no whole number of forms of 44 bytes: 1 forms, and 1 \
                 bytes left over\n";
    refused(&folder, "bad.forms --record RECORD --back", error);
}

#[test]
fn forms_of_another_table() {
    let folder = with_table("forms_other");
    let words = "bad.forms --record RECORD --back --beside table.csv";
    let form = [7, 2, 1, 40, -3, 2, -1, 9, 0, 0, 0];
    folder.write("bad.forms", cells("0", &form));
    let error = "beetle: bad.forms has 1 forms, but table.csv has 2 households\n";
    refused(&folder, words, error);
    let forms = [
        &[8][..],
        &form[1..],
        &form[..1],
        &[1, 1, 0, 0, 0, 0, 0, 0, 0, 0],
    ]
    .concat();
    folder.write("bad.forms", cells("0", &forms));
    let error = "\
bad.forms: form 1: household 8, but 7 is there (table.csv:2)
bad.forms: form 2: household 7, but 4294967295 is there (table.csv:4)
";
    refused(&folder, words, error);
    let forms = [&form[..], &[-1, 2, 1, 0, 0, 1, 0, 0, 0, 0, 0]].concat();
    folder.write("bad.forms", cells("0", &forms));
    let error =
        "bad.forms: form 2: household 4294967295 has 2 persons, but 1 there (table.csv:4)\n";
    refused(&folder, words, error);
    folder.write("table.csv", table().replace("40", "400"));
    let error = "table.csv:2: age in years is '400', which is not from 0 to 120\n";
    refused(&folder, words, error);
}

/// The lines of a description are turned away, each for its reason.
fn lines_refused(folder: &Folder, rows: &[(&str, &str)]) {
    let lines: Vec<&str> = rows.iter().map(|(line, _)| *line).collect();
    folder.write("BAD", lines.join("\n"));
    let told = |(at, (_, what)): (usize, &(&str, &str))| format!("BAD:{}: {what}\n", at + 1);
    let error: String = rows.iter().enumerate().map(told).collect();
    refused(folder, "table.csv --record BAD", &error);
}

#[test]
fn descriptions_that_are_none() {
    let folder = with_table("forms_records");
    let rows = [
        ("house x", "'house' is none of household, persons and cell"),
        ("household", "household wants a column's name"),
        ("household a b", "household wants a column's name"),
        ("persons", "persons wants one number"),
        ("persons 0", "persons wants 1 or more, not '0'"),
        ("persons -1", "persons wants 1 or more, not '-1'"),
        ("cell", "cell wants a column's name"),
        ("cell \"j", "a quote that does not end"),
    ];
    lines_refused(&folder, &rows);
}

#[test]
fn cells_that_are_none() {
    let folder = with_table("forms_bad_cells");
    let after = "after a column 'from NUMBER to NUMBER' or 'empty NUMBER' may follow, not";
    let cell = "does not fit a cell, which holds -2147483648 to 2147483647 or 0 to 4294967295";
    let rows = [
        ("cell a from 1", &format!("{after} 'from 1'")[..]),
        ("cell b from 1 to x", "'x' is no number of a cell"),
        ("cell c from 2 to 1", "from 2 to 1 has no number"),
        (
            "cell d from -1 to 4294967295",
            &format!("from -1 to 4294967295 {cell}"),
        ),
        (
            "cell e from -2147483649 to 0",
            &format!("from -2147483649 to 0 {cell}"),
        ),
        (
            "cell f from 0 to 4294967296",
            &format!("from 0 to 4294967296 {cell}"),
        ),
        ("cell g empty 4294967296", "no cell holds '4294967296'"),
        ("cell h empty", &format!("{after} 'empty'")),
        ("cell i full", &format!("{after} 'full'")),
    ];
    lines_refused(&folder, &rows);
}

#[test]
fn descriptions_that_are_not_whole() {
    let folder = with_table("forms_halves");
    let long = "a form has 16777220 bytes, and the longest memory 16777216";
    let rows = [
        ("", "BAD: a line 'household ..' is missing"),
        ("household a\ncell b", "BAD: a line 'persons ..' is missing"),
        ("household a\npersons 1", "BAD: a line 'cell ..' is missing"),
        ("persons 1\ncell b", "BAD: a line 'household ..' is missing"),
        (
            "household a\nhousehold b\npersons 1\ncell c",
            "BAD:2: household is given twice",
        ),
        (
            "household a\npersons 1\npersons 1\ncell c",
            "BAD:3: persons is given twice",
        ),
        (
            "household a\npersons 1\ncell c\ncell c",
            "BAD:4: the column 'c' is named twice",
        ),
        (
            "cell a\npersons 1\nhousehold a",
            "BAD:3: the column 'a' is named twice",
        ),
        (
            "household a\npersons 4194303\ncell c",
            &format!("BAD: {long}"),
        ),
    ];
    for (text, error) in rows {
        folder.write("BAD", text);
        refused(&folder, "table.csv --record BAD", &format!("{error}\n"));
    }
    folder.write("BAD", "household a\npersons 4194302\ncell c");
    folder.write("one.csv", "a,c\n1,2\n");
    let said = folder.done("forms one.csv --record BAD -o one.forms");
    assert_eq!(
        said,
        "one.forms: 1 households, 1 persons, form length 16777216\n"
    );
    folder.write("BAD", [0xFF]);
    refused(
        &folder,
        "table.csv --record BAD",
        "beetle: BAD: this is no text\n",
    );
}

#[test]
fn wrong_command_lines() {
    let folder = with_table("forms_usage");
    let rows = [
        (
            "forms --record RECORD -o x",
            "TABLE.csv or FORMS is missing",
        ),
        ("forms table.csv --record RECORD", "-o FILE is missing"),
        ("forms table.csv -o x", "--record FILE is missing"),
        (
            "forms table.csv b --record RECORD -o x",
            "one file too many: b",
        ),
        (
            "forms table.csv --record RECORD -o x --order 2",
            "--order wants 0 to 1, not '2'",
        ),
        (
            "forms table.csv --record RECORD -o x --beside table.csv",
            "--beside is for --back: it gives the table that the forms were made from",
        ),
        (
            "forms table.csv --record RECORD -o table.csv",
            "-o table.csv would replace table.csv, which is read",
        ),
        (
            "forms table.csv --record RECORD -o RECORD",
            "-o RECORD would replace RECORD, which is read",
        ),
        (
            "forms x --record RECORD --back -o table.csv --beside table.csv",
            "-o table.csv would replace table.csv, which is read",
        ),
    ];
    for (words, error) in rows {
        folder.wrong(words, error);
    }
    assert_eq!(folder.read_text("RECORD"), RECORD);
    assert_eq!(folder.read_text("table.csv"), table());
    let said = folder.beetle("forms none --record RECORD -o x");
    assert!(
        said.status == 1 && said.error.starts_with("beetle: none: "),
        "{said:?}"
    );
}
