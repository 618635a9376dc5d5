//! Entries to canonical text.

use crate::entry::Entry;
use std::io::{self, Write};

/// Writes the entries with a blank line between each two.
pub fn write_entries(out: &mut impl Write, entries: &[Entry]) -> io::Result<()> {
    for (i, entry) in entries.iter().enumerate() {
        if i > 0 {
            out.write_all(b"\n")?;
        }
        write_entry(out, entry)?;
    }
    Ok(())
}

fn write_entry(out: &mut impl Write, entry: &Entry) -> io::Result<()> {
    write_comments(out, "#", &entry.translator)?;
    write_comments(out, "#.", &entry.extracted)?;
    write_comments(out, "#:", &entry.references)?;
    write_flags(out, &entry.flags)?;
    let mark = if entry.obsolete { "#~| " } else { "#| " };
    write_optional(out, mark, "msgctxt", &entry.previous.ctx)?;
    write_optional(out, mark, "msgid", &entry.previous.id)?;
    write_optional(out, mark, "msgid_plural", &entry.previous.plural)?;
    let mark = if entry.obsolete { "#~ " } else { "" };
    write_optional(out, mark, "msgctxt", &entry.ctx)?;
    write_string(out, mark, "msgid", &entry.id)?;
    write_optional(out, mark, "msgid_plural", &entry.plural)?;
    for (i, form) in entry.forms.iter().enumerate() {
        if entry.plural.is_some() {
            write_string(out, mark, &format!("msgstr[{i}]"), form)?;
        } else {
            write_string(out, mark, "msgstr", form)?;
        }
    }
    Ok(())
}

fn write_comments(out: &mut impl Write, mark: &str, texts: &[String]) -> io::Result<()> {
    for text in texts {
        out.write_all(mark.as_bytes())?;
        if !text.is_empty() {
            out.write_all(b" ")?;
            out.write_all(text.as_bytes())?;
        }
        out.write_all(b"\n")?;
    }
    Ok(())
}

fn write_flags(out: &mut impl Write, flags: &[String]) -> io::Result<()> {
    if flags.is_empty() {
        return Ok(());
    }
    out.write_all(b"#, ")?;
    out.write_all(flags.join(", ").as_bytes())?;
    out.write_all(b"\n")
}

fn write_optional(
    out: &mut impl Write,
    mark: &str,
    keyword: &str,
    string: &Option<String>,
) -> io::Result<()> {
    match string {
        Some(string) => write_string(out, mark, keyword, string),
        None => Ok(()),
    }
}

/// Writes a string in one piece, or behind an empty one in a piece for each of its lines.
fn write_string(out: &mut impl Write, mark: &str, keyword: &str, string: &str) -> io::Result<()> {
    out.write_all(mark.as_bytes())?;
    out.write_all(keyword.as_bytes())?;
    out.write_all(b" ")?;
    if string.split_inclusive('\n').count() < 2 {
        return write_piece(out, string);
    }
    write_piece(out, "")?;
    for line in string.split_inclusive('\n') {
        out.write_all(mark.as_bytes())?;
        write_piece(out, line)?;
    }
    Ok(())
}

fn write_piece(out: &mut impl Write, text: &str) -> io::Result<()> {
    out.write_all(b"\"")?;
    let mut rest = text.as_bytes();
    while let Some(plain) = rest.iter().position(|b| escape(*b).is_some()) {
        out.write_all(&rest[..plain])?;
        if let Some(letter) = escape(rest[plain]) {
            out.write_all(&[b'\\', letter])?;
        }
        rest = &rest[plain + 1..];
    }
    out.write_all(rest)?;
    out.write_all(b"\"\n")
}

/// The letter that stands for a character behind a backslash.
fn escape(byte: u8) -> Option<u8> {
    match byte {
        b'\n' => Some(b'n'),
        b'\t' => Some(b't'),
        b'\r' => Some(b'r'),
        0x07 => Some(b'a'),
        0x08 => Some(b'b'),
        0x0c => Some(b'f'),
        0x0b => Some(b'v'),
        b'"' => Some(b'"'),
        b'\\' => Some(b'\\'),
        _ => None,
    }
}
