//! Wrong implementations, written by the build from `edits`: the tests show that the comparison
//! finds each of them.
