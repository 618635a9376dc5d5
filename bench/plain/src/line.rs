//! The forms of lines.

use crate::fault::Kind;

#[derive(Clone, Copy)]
pub enum Keyword {
    Msgctxt,
    Msgid,
    MsgidPlural,
    Msgstr,
    /// `msgstr[D]` with its digit.
    MsgstrAt(u8),
}

/// A keyword with its string, or a piece that goes on with the string before it.
pub enum Part {
    Begins(Keyword, String),
    Continues(String),
}

pub enum Line {
    Blank,
    Translator(String),
    Extracted(String),
    Reference(String),
    Flags(Vec<String>),
    Previous { obsolete: bool, part: Part },
    Message { obsolete: bool, part: Part },
}

impl Line {
    /// Whether it begins another entry behind one that has a form.
    pub fn begins_entry(&self) -> bool {
        match self {
            Line::Blank => false,
            Line::Message { part, .. } => {
                matches!(part, Part::Begins(Keyword::Msgctxt | Keyword::Msgid, _))
            }
            _ => true,
        }
    }
}

/// Spaces and tabs are white, and nothing else.
pub const WHITE: [char; 2] = [' ', '\t'];

/// What a line is, without its line end.
pub fn parse_line(text: &str) -> Result<Line, Kind> {
    if is_white(text) {
        return Ok(Line::Blank);
    }
    match text.strip_prefix('#') {
        Some(rest) => parse_comment(rest),
        None => parse_message(false, text),
    }
}

fn is_white(text: &str) -> bool {
    text.trim_start_matches(WHITE).is_empty()
}

/// A line behind its `#`.
fn parse_comment(text: &str) -> Result<Line, Kind> {
    match text.as_bytes().first() {
        Some(b'.') => Ok(Line::Extracted(comment_text(&text[1..])?)),
        Some(b':') => Ok(Line::Reference(comment_text(&text[1..])?)),
        Some(b',') => parse_flags(&text[1..]),
        Some(b'|') => parse_previous(false, &text[1..]),
        Some(b'~') => parse_obsolete(&text[1..]),
        Some(b'=') => Err(Kind::Line),
        _ => Ok(Line::Translator(comment_text(text)?)),
    }
}

/// The text of a comment, behind one space if there is one.
fn comment_text(text: &str) -> Result<String, Kind> {
    let text = text.strip_prefix(' ').unwrap_or(text);
    test_comment(text)?;
    Ok(text.to_string())
}

/// No control character but tabs may stand in a comment.
fn test_comment(text: &str) -> Result<(), Kind> {
    if text.bytes().all(|b| b == b'\t' || b >= b' ') {
        Ok(())
    } else {
        Err(Kind::Line)
    }
}

fn parse_flags(text: &str) -> Result<Line, Kind> {
    test_comment(text)?;
    let mut flags = Vec::new();
    for item in text.split(',') {
        let flag = item.trim_matches(WHITE);
        if flag.is_empty() {
            return Err(Kind::Line);
        }
        flags.push(flag.to_string());
    }
    Ok(Line::Flags(flags))
}

/// A previous string behind `#|` or `#~|`.
fn parse_previous(obsolete: bool, text: &str) -> Result<Line, Kind> {
    let text = text.strip_prefix(' ').ok_or(Kind::Line)?;
    let (word, _) = split_word(text);
    if let Some(Keyword::Msgstr | Keyword::MsgstrAt(_)) = parse_keyword(word) {
        return Err(Kind::Line);
    }
    let part = parse_part(text)?;
    Ok(Line::Previous { obsolete, part })
}

/// A line behind `#~`.
fn parse_obsolete(text: &str) -> Result<Line, Kind> {
    if let Some(rest) = text.strip_prefix(' ') {
        parse_message(true, rest)
    } else if let Some(rest) = text.strip_prefix('|') {
        parse_previous(true, rest)
    } else {
        Err(Kind::Line)
    }
}

fn parse_message(obsolete: bool, text: &str) -> Result<Line, Kind> {
    let part = parse_part(text)?;
    Ok(Line::Message { obsolete, part })
}

fn parse_part(text: &str) -> Result<Part, Kind> {
    if text.starts_with('"') {
        return Ok(Part::Continues(parse_piece(text)?));
    }
    let (word, rest) = split_word(text);
    let keyword = parse_keyword(word).ok_or(Kind::Line)?;
    let string = parse_piece(rest.trim_start_matches(WHITE))?;
    Ok(Part::Begins(keyword, string))
}

/// What stands before the first white, and the rest.
fn split_word(text: &str) -> (&str, &str) {
    text.split_at(text.find(WHITE).unwrap_or(text.len()))
}

fn parse_keyword(word: &str) -> Option<Keyword> {
    match word {
        "msgctxt" => Some(Keyword::Msgctxt),
        "msgid" => Some(Keyword::Msgid),
        "msgid_plural" => Some(Keyword::MsgidPlural),
        "msgstr" => Some(Keyword::Msgstr),
        _ => match word.strip_prefix("msgstr[")?.strip_suffix(']')?.as_bytes() {
            [digit @ b'0'..=b'7'] => Some(Keyword::MsgstrAt(digit - b'0')),
            _ => None,
        },
    }
}

/// The string that a quoted piece stands for. Nothing but white may stand behind it.
fn parse_piece(text: &str) -> Result<String, Kind> {
    let mut rest = text.strip_prefix('"').ok_or(Kind::Quote)?;
    let mut string = String::with_capacity(rest.len());
    loop {
        let plain = rest
            .bytes()
            .position(|b| b == b'"' || b == b'\\' || b < b' ')
            .ok_or(Kind::Quote)?;
        string.push_str(&rest[..plain]);
        let behind = &rest[plain + 1..];
        match rest.as_bytes()[plain] {
            b'"' if is_white(behind) => return Ok(string),
            b'\\' => {
                let letter = behind.bytes().next().ok_or(Kind::Escape)?;
                string.push(unescaped(letter).ok_or(Kind::Escape)?);
                rest = &behind[1..];
            }
            _ => return Err(Kind::Quote),
        }
    }
}

/// The character that a letter stands for behind a backslash.
fn unescaped(letter: u8) -> Option<char> {
    match letter {
        b'n' => Some('\n'),
        b't' => Some('\t'),
        b'r' => Some('\r'),
        b'a' => Some('\x07'),
        b'b' => Some('\x08'),
        b'f' => Some('\x0c'),
        b'v' => Some('\x0b'),
        b'"' => Some('"'),
        b'\\' => Some('\\'),
        _ => None,
    }
}
