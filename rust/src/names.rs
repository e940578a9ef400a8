//! Names: canonical forms and equality.

use crate::raw;

/// An executable Classic Refal-5 program starts from the function named `Go`.
pub const PROGRAM_ENTRY_POINT: &str = "Go";

/// The canonical form of an identifier or a function's name: a to z become A to Z, `_` becomes `-`.
///
/// ```
/// assert_eq!(refal5::canonical_identifier("Read_line"), "READ-LINE");
/// ```
pub fn canonical_identifier(name: &str) -> String {
    form(name, raw::canonical_name)
}

/// Whether two identifiers are the same name: their canonical forms are equal. Allocates nothing.
///
/// ```
/// assert!(refal5::identifiers_equal("Read_line", "READ-Line"));
/// ```
pub fn identifiers_equal(left: &str, right: &str) -> bool {
    raw::names_equal(left.as_bytes(), right.as_bytes())
}

/// The canonical form of a variable's index: a to z become A to Z; `-` and `_` stay different.
///
/// ```
/// assert_eq!(refal5::canonical_variable_index("a_1"), "A_1");
/// ```
pub fn canonical_variable_index(index: &str) -> String {
    form(index, raw::canonical_index)
}

fn form(name: &str, put: fn(&[u8], &mut [u8]) -> Result<usize, crate::Refusal>) -> String {
    let mut bytes = vec![0; name.len()];
    put(name.as_bytes(), &mut bytes).expect("the output is as long as the name");
    String::from_utf8(bytes).expect("only ASCII bytes change, to ASCII bytes")
}
