//! Entries of a catalogue.

/// What the context, the msgid and the msgid_plural were before.
#[derive(Default)]
pub struct Previous {
    pub ctx: Option<String>,
    pub id: Option<String>,
    pub plural: Option<String>,
}

#[derive(Default)]
pub struct Entry {
    pub translator: Vec<String>,
    pub extracted: Vec<String>,
    pub references: Vec<String>,
    pub flags: Vec<String>,
    pub previous: Previous,
    pub ctx: Option<String>,
    pub id: String,
    pub plural: Option<String>,
    pub forms: Vec<String>,
    pub obsolete: bool,
}

impl Entry {
    pub fn has_header_key(&self) -> bool {
        self.ctx.is_none() && self.id.is_empty()
    }
}
