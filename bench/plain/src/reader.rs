//! PO text to entries.

use crate::draft::Draft;
use crate::entry::Entry;
use crate::fault::{Fault, Kind};
use crate::header::has_charset;
use crate::line::{Keyword, Line, Part, parse_line};
use std::collections::HashSet;
use std::mem::take;

/// The most bytes that a text may have.
pub const TEXT_LIMIT: usize = 16_777_216;

/// The most entries that a text may have besides the header.
const ENTRY_LIMIT: usize = 50_000;

/// The entries that a text has, or its first fault.
pub fn read(bytes: &[u8]) -> Result<Vec<Entry>, Fault> {
    let whole = |kind| Fault { line: 0, kind };
    if bytes.len() > TEXT_LIMIT {
        return Err(whole(Kind::Limit));
    }
    let text = str::from_utf8(bytes).map_err(|_| whole(Kind::NotUtf8))?;
    let mut reader = Reader::default();
    let mut number = 1;
    for line in text.split_terminator('\n') {
        reader
            .read_line(line)
            .map_err(|kind| Fault { line: number, kind })?;
        number += 1;
    }
    reader
        .finish()
        .map_err(|kind| Fault { line: number, kind })?;
    Ok(reader.entries)
}

#[derive(Default)]
struct Reader {
    entries: Vec<Entry>,
    /// The contexts and msgids so far.
    keys: HashSet<(Option<String>, String)>,
    draft: Draft,
}

impl Reader {
    fn read_line(&mut self, text: &str) -> Result<(), Kind> {
        let line = parse_line(text)?;
        if let Line::Blank = line {
            return Ok(());
        }
        self.draft.test_length(&line)?;
        if !self.draft.goes_on(&line) {
            self.end_string(line.begins_entry())?;
        }
        if line.begins_entry() && self.draft.has_form() {
            self.end_entry();
        }
        self.draft.test_order(&line)?;
        self.test_count(&line)?;
        self.draft.add(line);
        Ok(())
    }

    /// Ends the text.
    fn finish(&mut self) -> Result<(), Kind> {
        self.end_string(true)?;
        if self.draft.is_cut_off() {
            return Err(Kind::Order);
        }
        if self.draft.has_form() {
            self.end_entry();
        }
        Ok(())
    }

    /// The tests of a string that has ended, and with it its entry or not.
    fn end_string(&mut self, ends_entry: bool) -> Result<(), Kind> {
        match self.draft.last {
            Some(Keyword::Msgid) => self.end_msgid(),
            Some(Keyword::Msgstr) if ends_entry => self.end_msgstr(),
            _ => Ok(()),
        }
    }

    /// Only the first entry may be a header, and no key may stand twice.
    fn end_msgid(&mut self) -> Result<(), Kind> {
        let entry = &self.draft.entry;
        if entry.has_header_key() && (!self.entries.is_empty() || entry.obsolete) {
            return Err(Kind::Order);
        }
        if self.keys.insert((entry.ctx.clone(), entry.id.clone())) {
            Ok(())
        } else {
            Err(Kind::Duplicate)
        }
    }

    fn end_msgstr(&self) -> Result<(), Kind> {
        let entry = &self.draft.entry;
        let is_header = self.entries.is_empty() && entry.has_header_key();
        if is_header && entry.forms.iter().any(|form| !has_charset(form)) {
            return Err(Kind::Charset);
        }
        Ok(())
    }

    fn end_entry(&mut self) {
        self.entries.push(take(&mut self.draft).into_entry());
    }

    /// A msgid may begin no more entries than there may be.
    fn test_count(&self, line: &Line) -> Result<(), Kind> {
        let begins = matches!(
            line,
            Line::Message {
                part: Part::Begins(Keyword::Msgid, _),
                ..
            }
        );
        if begins && self.count() >= ENTRY_LIMIT {
            Err(Kind::Limit)
        } else {
            Ok(())
        }
    }

    /// How many whole entries there are besides the header.
    fn count(&self) -> usize {
        match self.entries.first() {
            Some(first) if first.has_header_key() => self.entries.len() - 1,
            _ => self.entries.len(),
        }
    }
}
