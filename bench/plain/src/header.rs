//! The charset of a header.

use crate::line::WHITE;

/// Whether the charset that the header names, if it does, is UTF-8 or still to be filled in.
pub fn has_charset(header: &str) -> bool {
    match field(header, "Content-Type").and_then(|value| value.split_once("charset=")) {
        Some((_, rest)) => {
            let name = rest.split(';').next().unwrap_or(rest).trim_matches(WHITE);
            name.eq_ignore_ascii_case("UTF-8") || name == "CHARSET"
        }
        None => true,
    }
}

/// The value of the first field with the name.
fn field<'a>(header: &'a str, name: &str) -> Option<&'a str> {
    header
        .split('\n')
        .filter_map(|line| line.split_once(':'))
        .find(|(found, _)| *found == name)
        .map(|(_, value)| value.trim_matches(WHITE))
}
