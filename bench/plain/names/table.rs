//! A sorted table from names to values.
use crate::report::{Findings, Name};

pub struct Table<'a, T> {
    rows: Vec<Row<'a, T>>,
}

struct Row<'a, T> {
    /// The first bytes of the name. They distinguish most names without reading the text.
    front: u64,
    text: &'a [u8],
    name: Name<'a>,
    value: T,
}

fn front(text: &[u8]) -> u64 {
    (0..8).fold(0, |front, at| front << 8 | u64::from(text.get(at).copied().unwrap_or(0)))
}

impl<'a, T: Copy> Table<'a, T> {
    /// Takes the names in the order of the text. The first declaration of a name counts, and each later one is a finding.
    pub fn new(names: impl IntoIterator<Item = (Name<'a>, T)>, findings: &mut Findings<'a>) -> Table<'a, T> {
        let row = |(name, value): (Name<'a>, T)| {
            let text = name.word(findings.text);
            Row { front: front(text), text, name, value }
        };
        let mut rows: Vec<_> = names.into_iter().map(row).collect();
        rows.sort_by_key(|row| (row.front, row.text));
        rows.dedup_by(|later, earlier| {
            let same = later.text == earlier.text;
            if same {
                findings.declared_twice(later.name);
            }
            same
        });
        Table { rows }
    }

    pub fn get(&self, text: &[u8]) -> Option<T> {
        let at = self.rows.binary_search_by_key(&(front(text), text), |row| (row.front, row.text)).ok()?;
        Some(self.rows[at].value)
    }
}
