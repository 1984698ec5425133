//! The reference agrees with every vector, and the library too where it is linked.

use std::process::Command;

#[test]
fn all_vectors_agree() {
    let ran = Command::new(env!("CARGO_BIN_EXE_vectors")).output();
    let output = ran.expect("the program runs");
    let text = String::from_utf8_lossy(&output.stdout);
    assert!(output.status.success(), "{text}");
    assert!(text.contains("sets.txt: 150 of 150 agree"), "{text}");
}
