//! The words of a rule's text, comments left out.

/// A place in the text, counted from 1.
#[derive(Clone, Copy, PartialEq, Eq, PartialOrd, Ord, Debug)]
pub struct Position {
    pub line: usize,
    pub column: usize,
}

/// A word and where it begins.
#[derive(Clone, Copy, PartialEq, Eq, Debug)]
pub struct Word<'t> {
    pub at: Position,
    pub text: &'t str,
}

/// Something wrong at a place in the text.
#[derive(Clone, PartialEq, Eq, Debug)]
pub struct Mistake {
    pub at: Position,
    pub text: String,
}

/// Splits a line at spaces. A `\` begins a comment that ends with the line.
fn split(number: usize, line: &str) -> Vec<Word<'_>> {
    let code = line.split('\\').next().unwrap_or("");
    let mut words = Vec::new();
    let mut rest = code;
    let mut column = 1;
    while let Some(start) = rest.find(|c: char| !c.is_whitespace()) {
        column += rest[..start].chars().count();
        rest = &rest[start..];
        let end = rest.find(char::is_whitespace).unwrap_or(rest.len());
        let at = Position {
            line: number,
            column,
        };
        words.push(Word {
            at,
            text: &rest[..end],
        });
        column += rest[..end].chars().count();
        rest = &rest[end..];
    }
    words
}

/// The words of a line outside `( ... )`; the brackets stand by themselves, on one line.
fn outside_brackets<'t>(words: Vec<Word<'t>>) -> Result<Vec<Word<'t>>, Mistake> {
    let mut kept = Vec::new();
    let mut opened = None;
    for word in words {
        match (opened, word.text) {
            (None, "(") => opened = Some(word.at),
            (None, _) => kept.push(word),
            (Some(_), ")") => opened = None,
            (Some(_), _) => {}
        }
    }
    match opened {
        None => Ok(kept),
        Some(at) => Err(Mistake {
            at,
            text: "no ' )' ends this comment".to_string(),
        }),
    }
}

/// All words of a text, and the comments that do not end.
pub fn words(text: &str) -> (Vec<Word<'_>>, Vec<Mistake>) {
    let mut all = Vec::new();
    let mut mistakes = Vec::new();
    for (at, line) in text.lines().enumerate() {
        match outside_brackets(split(at + 1, line)) {
            Ok(words) => all.extend(words),
            Err(mistake) => mistakes.push(mistake),
        }
    }
    (all, mistakes)
}

#[cfg(test)]
mod tests {
    use super::*;

    #[test]
    fn comments_are_left_out_and_columns_counted() {
        let (words, mistakes) = words("DUP ( a (DO) b ) +\\ rest\n\n  \u{e9} 12h");
        let seen: Vec<_> = words
            .iter()
            .map(|w| (w.at.line, w.at.column, w.text))
            .collect();
        let expected = [(1, 1, "DUP"), (1, 18, "+"), (3, 3, "\u{e9}"), (3, 5, "12h")];
        assert_eq!(seen, expected);
        assert!(mistakes.is_empty());
    }

    #[test]
    fn a_comment_that_does_not_end_is_a_mistake() {
        let (_, mistakes) = words("1\nDUP ( why) DROP");
        assert_eq!(mistakes[0].at, Position { line: 2, column: 5 });
    }
}
