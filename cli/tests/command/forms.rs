//! Tables of persons to forms and back.

use crate::folder::{cells, Folder};

/// Three columns, one of which may be empty, and one below 0.
pub const RECORD: &str = "\
household  house          \\ a comment
persons    3

cell person
cell \"age in years\" from 0 to 120 empty -1
cell \"so \"\"much\"\"\" empty 9 from -50 to 50
";

/// Two households, and two columns that the record does not name.
pub const TABLE: &str = "\
name,so \"\"much\"\",house,age in years,person,street
Ana,-3,7,40,1,\"Long, the\"
Bo,,7,,2,Short
\"Cy \"\"C\"\"\",50,4294967295,0,4294967295,
";

/// The names in the first line in quotes where they have to be.
pub fn table() -> String {
    TABLE.replacen("so \"\"much\"\"", "\"so \"\"much\"\"\"", 1)
}

/// The cells of their forms.
#[rustfmt::skip]
const CELLS: [i64; 22] = [
    7, 2,    1, 40, -3,    2, -1, 9,    0, 0, 0,
    -1, 1,   -1, 0, 50,    0, 0, 0,     0, 0, 0,
];

pub fn with_table(test: &str) -> Folder {
    let folder = Folder::new(test);
    folder.write("RECORD", RECORD);
    folder.write("table.csv", table());
    folder
}

#[test]
fn a_table_to_forms_and_back() {
    let folder = with_table("forms_back");
    for order in ["0", "1"] {
        let words = format!("--record RECORD --order {order}");
        let told = "made.forms: 2 households, 3 persons, form length 44\n\
                    not in the record, and so not in the forms: name, street\n";
        let said = folder.done(&format!("forms table.csv -o made.forms {words}"));
        assert_eq!(said, told);
        assert_eq!(folder.read("made.forms"), cells(order, &CELLS));
        let back = format!("forms made.forms --back {words}");
        let said = folder.done(&format!("{back} -o back.csv"));
        assert_eq!(said, "back.csv: 2 households, 3 persons\n");
        let expected = "house,person,age in years,\"so \"\"much\"\"\"\n\
                        7,1,40,-3\n7,2,,\n4294967295,4294967295,0,50\n";
        assert_eq!(folder.read_text("back.csv"), expected);
        let said = folder.done(&format!("{back} -o back.csv --beside table.csv"));
        let told = "back.csv: 2 households, 3 persons, 0 fields changed\n";
        assert_eq!(said, told);
        assert_eq!(folder.read("back.csv"), folder.read("table.csv"));
    }
}

/// Only the fields of changed cells are exchanged; all else stays, as it is written.
#[test]
fn changed_cells_beside_the_old_table() {
    let folder = with_table("forms_changed");
    let old = "\u{FEFF}name,\"person\",house,age in years,\"so \"\"much\"\"\"\r\n\
               \"A\nB\",\"01\",007,\"\",-0\r\n\u{E9},2,007,\"5\",\"-5\"";
    folder.write("old.csv", old);
    folder.done("forms old.csv --record RECORD -o old.forms");
    let changed = [7, 2, 1, 9, 0, 2, -1, -6, 0, 0, 0];
    folder.write("new.forms", cells("0", &changed));
    let words = "forms new.forms --record RECORD --back -o new.csv --beside old.csv";
    let told = "new.csv: 1 households, 2 persons, 3 fields changed\n";
    assert_eq!(folder.done(words), told);
    let expected = "\u{FEFF}name,\"person\",house,age in years,\"so \"\"much\"\"\"\r\n\
                    \"A\nB\",\"01\",007,9,-0\r\n\u{E9},2,007,,-6";
    assert_eq!(folder.read_text("new.csv"), expected);
}

/// Bytes that are no text stay as they are in columns that the record does not name.
#[test]
fn names_in_any_coding() {
    let folder = with_table("forms_bytes");
    let table = [b"house,person,x\n1,2,", &[0xE9, 0xFF, 0][..], b"\n"].concat();
    folder.write("bytes.csv", &table);
    folder.write("SMALL", "household house\npersons 1\ncell person");
    folder.done("forms bytes.csv --record SMALL -o bytes.forms");
    folder.done("forms bytes.forms --record SMALL --back --beside bytes.csv -o back.csv");
    assert_eq!(folder.read("back.csv"), table);
}

#[test]
fn a_table_of_no_person() {
    let folder = with_table("forms_none");
    folder.write(
        "none.csv",
        "house,person,age in years,\"so \"\"much\"\"\"\n",
    );
    let told = "none.forms: 0 households, 0 persons, form length 44\n";
    let said = folder.done("forms none.csv --record RECORD -o none.forms");
    assert_eq!(said, told);
    assert_eq!(folder.read("none.forms"), b"");
    folder.done("forms none.forms --record RECORD --back -o back.csv");
    assert_eq!(folder.read("back.csv"), folder.read("none.csv"));
}

#[test]
fn standard_input_there_and_back() {
    let folder = with_table("forms_input");
    let table = folder.read("table.csv");
    let said = folder.beetle_given("forms - --record RECORD -o made.forms", &table);
    assert_eq!((said.status, said.error.as_str()), (0, ""));
    let forms = folder.read("made.forms");
    assert_eq!(forms, cells("0", &CELLS));
    let words = "forms - --record RECORD --back --beside table.csv -o back.csv";
    assert_eq!(folder.beetle_given(words, &forms).status, 0);
    assert_eq!(folder.read("back.csv"), table);
}

/// Numbers that look random, the same in every run.
struct Dice(u64);

impl Dice {
    /// A number below `end`.
    fn below(&mut self, end: u64) -> u64 {
        self.0 = self.0.wrapping_mul(6_364_136_223_846_793_005);
        self.0 = self.0.wrapping_add(1_442_695_040_888_963_407);
        (self.0 >> 33) % end
    }

    /// A field of a column that the record does not name.
    fn text(&mut self) -> String {
        let parts = ["", "a", " ", ",", "\"", "\n", "\r\n", "\u{E9}", "0", "-"];
        let count = self.below(4);
        (0..count).map(|_| parts[self.below(10) as usize]).collect()
    }
}

/// A field in quotes where it needs them.
fn written(field: &str) -> String {
    match field.contains(['"', ',', '\n', '\r']) {
        true => format!("\"{}\"", field.replace('"', "\"\"")),
        false => field.to_string(),
    }
}

/// A made-up table, the same with the record's columns alone, and the cells of its forms.
fn made_up(dice: &mut Dice, most: u64) -> (String, String, Vec<i64>) {
    let mut table = "a,house,\"b\"\"\",cell 1,cell 2\n".to_string();
    let mut plain = "house,cell 2,cell 1\n".to_string();
    let mut forms = Vec::new();
    let mut house = dice.below(5);
    for _ in 0..dice.below(8) {
        let persons = 1 + dice.below(most);
        let mut form = vec![house as i64, persons as i64];
        for _ in 0..persons {
            let (a, b) = (written(&dice.text()), written(&dice.text()));
            let one = dice.below(1 << 31) as i64 * 2 + dice.below(2) as i64;
            let (two, cell) = match dice.below(4) {
                0 => (String::new(), 1 << 31),
                _ => (format!("{}", dice.below(201) as i64 - 100), 0),
            };
            let cell = if two.is_empty() {
                cell
            } else {
                two.parse().expect("a number")
            };
            form.extend([cell, one]);
            table.push_str(&format!("{a},{house},{b},{one},{two}\n"));
            plain.push_str(&format!("{house},{two},{one}\n"));
        }
        form.resize(2 + 2 * most as usize, 0);
        forms.extend(form);
        house += 1 + dice.below(1 << 29);
    }
    (table, plain, forms)
}

#[test]
fn made_up_tables_there_and_back() {
    let folder = Folder::new("forms_made_up");
    let mut dice = Dice(52);
    for round in 0..60 {
        let most = 1 + dice.below(4);
        let record = "cell \"cell 2\" empty 80000000h from -100 to 100\ncell \"cell 1\"";
        folder.write(
            "RECORD",
            format!("household house\npersons {most}\n{record}"),
        );
        let (table, plain, forms) = made_up(&mut dice, most);
        folder.write("table.csv", &table);
        let order = ["0", "1"][round % 2];
        let words = format!("--record RECORD --order {order}");
        folder.done(&format!("forms table.csv -o made.forms {words}"));
        assert_eq!(folder.read("made.forms"), cells(order, &forms), "{table}");
        folder.done(&format!("forms made.forms --back -o plain.csv {words}"));
        assert_eq!(folder.read_text("plain.csv"), plain);
        let words = format!("{words} --beside table.csv");
        folder.done(&format!("forms made.forms --back -o back.csv {words}"));
        assert_eq!(folder.read_text("back.csv"), table);
    }
}
