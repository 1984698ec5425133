//! Checks the reference, and the library where it is linked, against vectors: those of the folder
//! `vectors`, or a file that is named after its kind: `vectors cycles FILE`.
//!
//! A cycle is a line of order, EP, A, SP, RP and memory, or with the table's two numbers before EP and
//! the four of the areas after RP; `=`, the answer (`on`, or `stop` and the reason in decimal, or
//! `refused` and the number), EP, A, SP, RP afterwards, and each changed byte as `address:byte`. A start
//! is a line of order, table, EP, handler, areas and memory, `=`, and the same. A listing is a line of a
//! file's bytes (`-` for none), `=`, and the cells or the refusal's number. A load that halts is a line
//! of order, length of a memory of 5Ah, file, address and cells, `=`, and `refused` with the number, or
//! the cells loaded and each changed byte; modules loaded together are a line of order, length, buffer and
//! the numbers of the modules, `=`, and the same. A short listing is a line of a short file's bytes, `=`, the
//! cells that it packs to in order 0, `=`, and the old file's bytes, with `refused` and the number in
//! place of either. An image is a line of order, base and the image's bytes, `=`, and `refused` with the
//! number, or the number of items, their kinds in one word, and an operand for each.

#[cfg(feature = "library")]
use beetle_tests::call::library;
use beetle_tests::call::{reference, Implementation};

/// A kind of vectors: its name, its files in the folder, and how a line is checked.
struct Kind {
    name: &'static str,
    files: &'static [&'static str],
    agrees: fn(&Implementation, &str) -> bool,
}

const KINDS: [Kind; 7] = [
    Kind {
        name: "cycles",
        files: &["cycles.txt", "plusloops.txt", "areas.txt"],
        agrees: cycle_agrees,
    },
    Kind {
        name: "starts",
        files: &["starts.txt"],
        agrees: start_agrees,
    },
    Kind {
        name: "listings",
        files: &["listings.txt"],
        agrees: listing_agrees,
    },
    Kind {
        name: "firsts",
        files: &["firsts.txt"],
        agrees: first_agrees,
    },
    Kind {
        name: "sets",
        files: &["sets.txt"],
        agrees: set_agrees,
    },
    Kind {
        name: "short",
        files: &["short.txt"],
        agrees: short_agrees,
    },
    Kind {
        name: "images",
        files: &["images.txt"],
        agrees: image_agrees,
    },
];

fn hexadecimal(word: &str) -> u32 {
    u32::from_str_radix(word, 16).expect("a hexadecimal number")
}

fn bytes(word: &str) -> Vec<u8> {
    let digits = word.as_bytes().chunks(2);
    digits
        .map(|pair| std::str::from_utf8(pair).expect("two digits"))
        .map(|pair| u8::from_str_radix(pair, 16).expect("a hexadecimal byte"))
        .collect()
}

/// The bytes of a word, `-` for none.
fn bytes_or_none(word: &str) -> Vec<u8> {
    if word == "-" {
        Vec::new()
    } else {
        bytes(word)
    }
}

fn hexadecimal_bytes(bytes: &[u8]) -> String {
    bytes.iter().map(|byte| format!("{byte:02X}")).collect()
}

/// Each byte that changed, after its address.
fn changes(before: &[u8], after: &[u8]) -> Vec<String> {
    let changed = (0..after.len()).filter(|at| after[*at] != before[*at]);
    changed
        .map(|at| format!("{at:X}:{:02X}", after[at]))
        .collect()
}

/// The words on both sides of `=`.
fn sides(line: &str) -> (Vec<&str>, Vec<&str>) {
    let (left, right) = line.split_once('=').expect("an equals sign");
    let left = left.split_whitespace().collect();
    (left, right.split_whitespace().collect())
}

/// A number in words: of a refusal, or of a stop with its reason; `on` for neither.
fn answer_words(answer: u32, reason: u32) -> Vec<String> {
    let (word, number) = match answer {
        0 => return vec!["on".to_string()],
        1 => ("stop", reason),
        refusal => ("refused", refusal),
    };
    vec![word.to_string(), (number as i32).to_string()]
}

/// The words of a line in front of its memory and the memory: order, then numbers.
fn state(given: &[&str]) -> (u8, Vec<u32>, Vec<u8>) {
    let (memory, numbers) = given.split_last().expect("a memory");
    let numbers: Vec<u32> = numbers.iter().map(|word| hexadecimal(word)).collect();
    (numbers[0] as u8, numbers[1..].to_vec(), bytes(memory))
}

/// The four registers that move, in words.
fn register_words(registers: &[u32]) -> Vec<String> {
    let moving = registers[..4].iter();
    moving.map(|register| format!("{register:X}")).collect()
}

fn cycle_agrees(calls: &Implementation, line: &str) -> bool {
    let (given, expected) = sides(line);
    let (order, numbers, mut memory) = state(&given);
    let (table, moving) = match numbers.len() {
        4 => (&[0; 2][..], &numbers[..]),
        _ => numbers.split_at(2),
    };
    let mut registers = moving.to_vec();
    registers.resize(8, 0);
    let (areas, before) = (registers[4..].to_vec(), memory.clone());
    let mut out = [0];
    let (m, r) = (&mut memory, &mut registers);
    let answer = (calls.cycle)(order, m, table[0], table[1], r, &mut out);
    let mut told = answer_words(answer, out[0]);
    told.extend(register_words(&registers));
    told.extend(changes(&before, &memory));
    told == expected && registers[4..] == areas
}

fn start_agrees(calls: &Implementation, line: &str) -> bool {
    let (given, expected) = sides(line);
    let (order, numbers, mut memory) = state(&given);
    let [table, end, ep, handler, data_top, data, return_top, back] = numbers[..] else {
        panic!("eight numbers");
    };
    let (mut registers, before) = ([0; 8], memory.clone());
    let mut out = [0];
    let (m, r) = (&mut memory, &mut registers);
    let answer = (calls.start)(
        order, m, ep, handler, data_top, data, return_top, back, table, end, r, &mut out,
    );
    let refused = answer > 1;
    let areas = if refused { &[0; 4] } else { &numbers[4..] };
    let mut told = answer_words(answer, out[0]);
    told.extend(register_words(&registers));
    told.extend(changes(&before, &memory));
    told == expected && registers[4..] == *areas
}

/// Room for every image.
const LARGEST_IMAGE: usize = 4 * 8192;

/// The cells of an image of order 0, in words.
fn cell_words(image: &[u8]) -> Vec<String> {
    image
        .chunks(4)
        .map(|cell| u32::from_le_bytes([cell[0], cell[1], cell[2], cell[3]]))
        .map(|cell| format!("{cell:08X}"))
        .collect()
}

fn listing_agrees(calls: &Implementation, line: &str) -> bool {
    let (given, expected) = sides(line);
    let file = bytes_or_none(given[0]);
    let mut output = vec![0; LARGEST_IMAGE];
    let mut out = [0];
    let answer = (calls.pack_file)(0, &file, &mut output, &mut out);
    let told = if answer == 0 {
        cell_words(&output[..4 * out[0] as usize])
    } else {
        vec![(answer as i32).to_string()]
    };
    told == expected
}

/// What a short file packs to in order 0, in words.
fn packed_words(calls: &Implementation, file: &[u8]) -> Vec<String> {
    let mut output = vec![0; LARGEST_IMAGE];
    let mut out = [0];
    match (calls.pack_short)(0, file, &mut output, &mut out) {
        0 => cell_words(&output[..4 * out[0] as usize]),
        refusal => answer_words(refusal, 0),
    }
}

/// The file that another is turned into, or the refusal.
fn turned(turn: fn(&[u8], &mut [u8], &mut [u32]) -> u32, file: &[u8]) -> Result<Vec<u8>, u32> {
    let mut output = vec![0; 12 + 5 * 4096];
    let mut out = [0];
    match turn(file, &mut output, &mut out) {
        0 => Ok(output[..out[0] as usize].to_vec()),
        refusal => Err(refusal),
    }
}

fn short_agrees(calls: &Implementation, line: &str) -> bool {
    let (given, expected) = line.split_once('=').expect("an equals sign");
    let (packed, lengthened) = sides(expected);
    let file = bytes_or_none(given.trim());
    let agrees = match turned(calls.lengthen, &file) {
        Ok(old) => {
            let back = turned(calls.shorten, &old);
            lengthened == [hexadecimal_bytes(&old)] && back == Ok(file.clone())
        }
        Err(refusal) => lengthened == answer_words(refusal, 0),
    };
    agrees && packed_words(calls, &file) == packed
}

/// The listing that is read out of an image, in words, where it packs to that image again.
fn listing_words(calls: &Implementation, order: u8, base: u32, image: &[u8]) -> Vec<String> {
    let (mut kinds, mut operands, mut out) = (vec![0; 4096], vec![0; 4096], [0]);
    let answer = (calls.unpack)(order, image, base, &mut kinds, &mut operands, &mut out);
    if answer != 0 {
        return answer_words(answer, 0);
    }
    let items = out[0] as usize;
    let (kinds, operands) = (&kinds[..items], &operands[..items]);
    let mut output = vec![0; image.len()];
    let packed = (calls.pack)(order, kinds, operands, base, &mut output, &mut out);
    if packed != 0 || output != image {
        return vec!["packed otherwise".to_string()];
    }
    let mut words = vec![format!("{items:X}"), hexadecimal_bytes(kinds)];
    words.extend(operands.iter().map(|operand| format!("{operand:X}")));
    words
}

fn image_agrees(calls: &Implementation, line: &str) -> bool {
    let (given, expected) = sides(line);
    let [order, base] = [0, 1].map(|word| hexadecimal(given[word]));
    let image = bytes_or_none(given[2]);
    listing_words(calls, order as u8, base, &image) == expected
}

/// Whether a load agrees with a line: it is given the order, a memory, the file or buffer, all numbers
/// behind that, and where the cells are counted.
fn load_agrees(
    line: &str,
    load: impl FnOnce(u8, &mut [u8], &[u8], &[u32], &mut [u32]) -> u32,
) -> bool {
    let (given, expected) = sides(line);
    let order = hexadecimal(given[0]) as u8;
    let before = vec![0x5A; hexadecimal(given[1]) as usize];
    let file = bytes_or_none(given[2]);
    let numbers: Vec<u32> = given[3..].iter().map(|word| hexadecimal(word)).collect();
    let mut memory = before.clone();
    let mut out = [0];
    let mut told = match load(order, &mut memory, &file, &numbers, &mut out) {
        0 => vec![format!("{:X}", out[0])],
        refusal => answer_words(refusal, 0),
    };
    told.extend(changes(&before, &memory));
    told == expected
}

fn first_agrees(calls: &Implementation, line: &str) -> bool {
    load_agrees(line, |order, memory, file, numbers, out| {
        (calls.load_first)(order, memory, file, numbers[0], numbers[1], out)
    })
}

fn set_agrees(calls: &Implementation, line: &str) -> bool {
    load_agrees(line, calls.load_set)
}

/// Prints the lines that disagree, and how many agree; whether all do.
fn check(path: &str, agrees: impl Fn(&str) -> bool) -> bool {
    let text = std::fs::read_to_string(path).expect("a readable file of vectors");
    let mut agreed = 0;
    let mut lines = 0;
    for (number, line) in text.lines().enumerate() {
        lines += 1;
        if agrees(line) {
            agreed += 1;
        } else {
            println!("{path}, line {}: disagrees", number + 1);
        }
    }
    println!("{path}: {agreed} of {lines} agree");
    agreed == lines && lines > 0
}

/// Every file of the folder, or the one that is named, with its kind.
fn chosen(words: &[String]) -> Option<Vec<(&'static Kind, String)>> {
    let folder = concat!(env!("CARGO_MANIFEST_DIR"), "/vectors");
    match words {
        [] => {
            let all = KINDS.iter().flat_map(|kind| {
                let files = kind.files.iter();
                files.map(move |file| (kind, format!("{folder}/{file}")))
            });
            Some(all.collect())
        }
        [name, path] => {
            let kind = KINDS.iter().find(|kind| kind.name == name)?;
            Some(vec![(kind, path.clone())])
        }
        _ => None,
    }
}

/// Whether an implementation agrees with all files.
fn check_all(name: &str, calls: &Implementation, files: &[(&Kind, String)]) -> bool {
    println!("{name}");
    let agreeing = files
        .iter()
        .filter(|(kind, path)| check(path, |line| (kind.agrees)(calls, line)));
    agreeing.count() == files.len()
}

fn main() {
    let words: Vec<String> = std::env::args().skip(1).collect();
    let Some(files) = chosen(&words) else {
        eprintln!("usage: vectors [KIND FILE]; the kinds:");
        KINDS.iter().for_each(|kind| eprintln!("{}", kind.name));
        std::process::exit(2);
    };
    let good = check_all("reference", &reference(), &files);
    #[cfg(feature = "library")]
    let good = check_all("library", &library(), &files) && good;
    if !good {
        std::process::exit(1);
    }
}
