//! The entry that may go on.

use crate::entry::{Entry, Previous};
use crate::fault::Kind;
use crate::line::{Keyword, Line, Part};
use std::collections::HashSet;

/// The most bytes that a string may have.
const STRING_LIMIT: usize = 262_144;

#[derive(Default)]
pub struct Draft {
    pub entry: Entry,
    /// The keyword of the last message line.
    pub last: Option<Keyword>,
    /// There is a line.
    begun: bool,
    /// There is a message line or a previous string without the mark of an obsolete entry. `entry.obsolete` tells of
    /// one with it.
    unmarked: bool,
}

impl Draft {
    pub fn has_form(&self) -> bool {
        matches!(self.last, Some(Keyword::Msgstr | Keyword::MsgstrAt(_)))
    }

    /// Whether an entry was begun that has no form yet.
    pub fn is_cut_off(&self) -> bool {
        self.begun && !self.has_form()
    }

    /// Whether the line goes on with the last string.
    pub fn goes_on(&self, line: &Line) -> bool {
        self.continued(line).is_some()
    }

    /// The string that the line goes on with.
    fn continued(&self, line: &Line) -> Option<&String> {
        match line {
            Line::Message {
                obsolete,
                part: Part::Continues(_),
            } if self.fits_mark(*obsolete) => self.last_string(),
            Line::Previous {
                obsolete,
                part: Part::Continues(_),
            } if self.fits_mark(*obsolete) && self.last.is_none() => self.entry.previous.last(),
            _ => None,
        }
    }

    /// Whether no line has the other mark.
    fn fits_mark(&self, obsolete: bool) -> bool {
        if obsolete {
            !self.unmarked
        } else {
            !self.entry.obsolete
        }
    }

    fn last_string(&self) -> Option<&String> {
        match self.last? {
            Keyword::Msgctxt => self.entry.ctx.as_ref(),
            Keyword::Msgid => Some(&self.entry.id),
            Keyword::MsgidPlural => self.entry.plural.as_ref(),
            Keyword::Msgstr | Keyword::MsgstrAt(_) => self.entry.forms.last(),
        }
    }

    fn last_string_mut(&mut self) -> Option<&mut String> {
        match self.last? {
            Keyword::Msgctxt => self.entry.ctx.as_mut(),
            Keyword::Msgid => Some(&mut self.entry.id),
            Keyword::MsgidPlural => self.entry.plural.as_mut(),
            Keyword::Msgstr | Keyword::MsgstrAt(_) => self.entry.forms.last_mut(),
        }
    }

    /// The string that the line begins or goes on with has to keep the limit.
    pub fn test_length(&self, line: &Line) -> Result<(), Kind> {
        let len = match line {
            Line::Message { part, .. } | Line::Previous { part, .. } => match part {
                Part::Begins(_, string) => string.len(),
                Part::Continues(more) => match self.continued(line) {
                    Some(string) => string.len() + more.len(),
                    None => 0,
                },
            },
            _ => 0,
        };
        if len <= STRING_LIMIT {
            Ok(())
        } else {
            Err(Kind::Limit)
        }
    }

    /// The line has to follow the lines so far.
    pub fn test_order(&self, line: &Line) -> Result<(), Kind> {
        match line {
            Line::Message { obsolete, part } => {
                in_order(self.fits_mark(*obsolete))?;
                self.test_message(part)
            }
            Line::Previous { obsolete, part } => {
                in_order(self.fits_mark(*obsolete) && self.last.is_none())?;
                in_order(self.entry.previous.can_take(part))
            }
            _ => in_order(self.last.is_none()),
        }
    }

    fn test_message(&self, part: &Part) -> Result<(), Kind> {
        use Keyword::*;
        let Part::Begins(keyword, _) = part else {
            return in_order(self.last.is_some());
        };
        match (*keyword, self.last) {
            (Msgctxt, None) | (Msgid, None | Some(Msgctxt)) => Ok(()),
            (MsgidPlural, Some(Msgid)) => in_order(!self.entry.has_header_key()),
            (Msgstr, Some(Msgid)) | (MsgstrAt(0), Some(MsgidPlural)) => Ok(()),
            (MsgstrAt(digit), Some(MsgstrAt(before))) if digit == before + 1 => Ok(()),
            (Msgstr, Some(MsgidPlural | MsgstrAt(_))) => Err(Kind::Forms),
            (MsgstrAt(_), Some(Msgid | MsgidPlural | Msgstr | MsgstrAt(_))) => Err(Kind::Forms),
            _ => Err(Kind::Order),
        }
    }

    /// Adds a line that can follow.
    pub fn add(&mut self, line: Line) {
        self.begun = true;
        match line {
            Line::Blank => {}
            Line::Translator(text) => self.entry.translator.push(text),
            Line::Extracted(text) => self.entry.extracted.push(text),
            Line::Reference(text) => self.entry.references.push(text),
            Line::Flags(flags) => self.entry.flags.extend(flags),
            Line::Previous { obsolete, part } => {
                self.mark(obsolete);
                self.entry.previous.add(part);
            }
            Line::Message { obsolete, part } => {
                self.mark(obsolete);
                self.add_message(part);
            }
        }
    }

    fn mark(&mut self, obsolete: bool) {
        if obsolete {
            self.entry.obsolete = true;
        } else {
            self.unmarked = true;
        }
    }

    fn add_message(&mut self, part: Part) {
        match part {
            Part::Begins(keyword, string) => {
                self.last = Some(keyword);
                match keyword {
                    Keyword::Msgctxt => self.entry.ctx = Some(string),
                    Keyword::Msgid => self.entry.id = string,
                    Keyword::MsgidPlural => self.entry.plural = Some(string),
                    Keyword::Msgstr | Keyword::MsgstrAt(_) => self.entry.forms.push(string),
                }
            }
            Part::Continues(more) => {
                if let Some(string) = self.last_string_mut() {
                    string.push_str(&more);
                }
            }
        }
    }

    /// The whole entry: each flag once, at its first place, but `fuzzy` at the front.
    pub fn into_entry(self) -> Entry {
        let mut entry = self.entry;
        let mut seen = HashSet::new();
        entry.flags.retain(|flag| seen.insert(flag.clone()));
        if let Some(place) = entry.flags.iter().position(|flag| flag == "fuzzy") {
            entry.flags[..=place].rotate_right(1);
        }
        entry
    }
}

impl Previous {
    fn last(&self) -> Option<&String> {
        self.plural
            .as_ref()
            .or(self.id.as_ref())
            .or(self.ctx.as_ref())
    }

    fn can_take(&self, part: &Part) -> bool {
        match part {
            Part::Begins(Keyword::Msgctxt, _) => self.last().is_none(),
            Part::Begins(Keyword::Msgid, _) => self.id.is_none() && self.plural.is_none(),
            Part::Begins(_, _) => self.plural.is_none(),
            Part::Continues(_) => self.last().is_some(),
        }
    }

    fn add(&mut self, part: Part) {
        match part {
            Part::Begins(Keyword::Msgctxt, string) => self.ctx = Some(string),
            Part::Begins(Keyword::Msgid, string) => self.id = Some(string),
            Part::Begins(_, string) => self.plural = Some(string),
            Part::Continues(more) => {
                let last = self
                    .plural
                    .as_mut()
                    .or(self.id.as_mut())
                    .or(self.ctx.as_mut());
                if let Some(string) = last {
                    string.push_str(&more);
                }
            }
        }
    }
}

fn in_order(holds: bool) -> Result<(), Kind> {
    if holds { Ok(()) } else { Err(Kind::Order) }
}
