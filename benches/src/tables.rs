//! Tables of what both sides take, as docs/BENCHMARKS.md shows them.

/// The title and the first lines of a table.
pub fn head(title: &str, columns: &[&str]) {
    println!("## {title}\n");
    println!("| {} |", columns.join(" | "));
    println!("|{}", "---|".repeat(columns.len()));
}

/// A number, or a dash where it was not measured.
fn shown(number: Option<f64>) -> String {
    number.map_or("-".to_string(), |number| format!("{number:.1}"))
}

/// A number for each side, the proved one first, then how many times each other's it is.
pub fn beside(numbers: &[Option<f64>]) -> String {
    let mut words: Vec<String> = numbers.iter().copied().map(shown).collect();
    for other in &numbers[1..] {
        let ratio = numbers[0].zip(*other).map(|(proved, other)| proved / other);
        words.push(ratio.map_or("-".to_string(), |ratio| format!("{ratio:.2}")));
    }
    words.join(" | ")
}
