//! Candidate words: typed to fill, parallel rows to lend.

/// Where a word comes from.
#[derive(Clone, Copy, Debug, PartialEq, Eq, Hash)]
pub enum Kind {
    /// The system dictionary: number 0.
    System,
    /// The user's own dictionary: number 1.
    User,
    /// No dictionary: a word made up for characters that no dictionary has. Number 2.
    Unknown,
}

impl Kind {
    const ALL: [Kind; 3] = [Kind::System, Kind::User, Kind::Unknown];

    /// The number that stands for this kind in a row.
    pub fn number(self) -> u8 {
        self as u8
    }

    /// The kind that a number stands for; there is none over 2.
    pub fn from_number(number: u8) -> Option<Kind> {
        Kind::ALL.get(usize::from(number)).copied()
    }
}

/// What a dictionary knows of a word: ten bytes in a row.
#[derive(Clone, Copy, Debug, PartialEq, Eq, Hash)]
pub struct WordEntry {
    /// The word's id, which is handed back as it is.
    pub id: u32,
    /// What the word costs.
    pub cost: i16,
    /// Its row of the matrix, where it is the later word of a joint.
    pub left_id: u16,
    /// Its place in such a row, where it is the earlier word of a joint.
    pub right_id: u16,
}

impl WordEntry {
    /// The entry as it lies in a dictionary: id, cost, left id, right id, each with its low byte
    /// first.
    pub fn to_le_bytes(self) -> [u8; 10] {
        let [a, b, c, d] = self.id.to_le_bytes();
        let [e, f] = self.cost.to_le_bytes();
        let [g, h] = self.left_id.to_le_bytes();
        let [i, j] = self.right_id.to_le_bytes();
        [a, b, c, d, e, f, g, h, i, j]
    }

    /// Reads an entry from a dictionary's ten bytes.
    ///
    /// ```
    /// let entry = jumelavorp::WordEntry::from_le_bytes([1, 0, 0, 0, 0, 0x80, 0, 0, 0, 0]);
    /// assert_eq!((entry.id, entry.cost), (1, -32_768));
    /// ```
    pub fn from_le_bytes(bytes: [u8; 10]) -> WordEntry {
        let [a, b, c, d, e, f, g, h, i, j] = bytes;
        WordEntry {
            id: u32::from_le_bytes([a, b, c, d]),
            cost: i16::from_le_bytes([e, f]),
            left_id: u16::from_le_bytes([g, h]),
            right_id: u16::from_le_bytes([i, j]),
        }
    }
}

/// A word that may stand in the text, from one position to another. Positions count characters.
#[derive(Clone, Copy, Debug, PartialEq, Eq, Hash)]
pub struct Candidate {
    /// The position of its first character.
    pub start: u16,
    /// The position just after its last character.
    pub end: u16,
    /// Where the word comes from.
    pub kind: Kind,
    /// What it costs beside its entry's cost, at this place of this text.
    pub extra: i16,
    /// What the dictionary knows of it.
    pub entry: WordEntry,
}

/// A job's candidates, kept as the rows that the library reads; cleared and filled again from call
/// to call. A candidate's number is its place here, from 0.
///
/// They have to be pushed in order of their starts, or the job is refused. Of two over the same
/// characters at the same cost, the one pushed first is taken.
#[derive(Clone, Debug, Default, PartialEq, Eq)]
pub struct Candidates {
    start: Vec<u16>,
    end: Vec<u16>,
    kind: Vec<u8>,
    extra: Vec<i16>,
    entry: Vec<u8>,
}

impl Candidates {
    /// An empty list.
    pub fn new() -> Candidates {
        Candidates::default()
    }

    /// An empty list that takes so many candidates before it allocates again.
    pub fn with_capacity(candidates: usize) -> Candidates {
        Candidates {
            start: Vec::with_capacity(candidates),
            end: Vec::with_capacity(candidates),
            kind: Vec::with_capacity(candidates),
            extra: Vec::with_capacity(candidates),
            entry: Vec::with_capacity(candidates.saturating_mul(10)),
        }
    }

    /// Adds a candidate behind the others.
    pub fn push(&mut self, candidate: Candidate) {
        self.start.push(candidate.start);
        self.end.push(candidate.end);
        self.kind.push(candidate.kind.number());
        self.extra.push(candidate.extra);
        self.entry.extend(candidate.entry.to_le_bytes());
    }

    /// Takes all candidates out and keeps the memory.
    pub fn clear(&mut self) {
        self.start.clear();
        self.end.clear();
        self.kind.clear();
        self.extra.clear();
        self.entry.clear();
    }

    /// How many there are.
    pub fn len(&self) -> usize {
        self.start.len()
    }

    /// Whether there are none.
    pub fn is_empty(&self) -> bool {
        self.start.is_empty()
    }

    /// The candidate of a number, such as the place of a [`Refusal`](crate::Refusal).
    pub fn get(&self, number: usize) -> Option<Candidate> {
        let entry = self.entry.chunks_exact(10).nth(number)?;
        Some(Candidate {
            start: *self.start.get(number)?,
            end: *self.end.get(number)?,
            kind: Kind::from_number(*self.kind.get(number)?)?,
            extra: *self.extra.get(number)?,
            entry: WordEntry::from_le_bytes(entry.try_into().ok()?),
        })
    }

    /// The rows, as they are lent to the library.
    pub fn rows(&self) -> CandidateRows<'_> {
        CandidateRows {
            start: &self.start,
            end: &self.end,
            kind: &self.kind,
            extra: &self.extra,
            entry: &self.entry,
        }
    }
}

impl Extend<Candidate> for Candidates {
    fn extend<I: IntoIterator<Item = Candidate>>(&mut self, candidates: I) {
        candidates.into_iter().for_each(|one| self.push(one));
    }
}

impl FromIterator<Candidate> for Candidates {
    fn from_iter<I: IntoIterator<Item = Candidate>>(candidates: I) -> Candidates {
        let mut all = Candidates::new();
        all.extend(candidates);
        all
    }
}

/// Candidates as parallel rows, for a caller who has them in this form. The rows may have any
/// lengths and contents: what does not fit is refused.
#[derive(Clone, Copy, Debug)]
pub struct CandidateRows<'a> {
    /// The position of each candidate's first character.
    pub start: &'a [u16],
    /// The position just after its last character.
    pub end: &'a [u16],
    /// The number of its [`Kind`].
    pub kind: &'a [u8],
    /// What it costs beside its entry's cost.
    pub extra: &'a [i16],
    /// Its ten entry bytes, as [`WordEntry::to_le_bytes`] gives them.
    pub entry: &'a [u8],
}

impl<'a> From<&'a Candidates> for CandidateRows<'a> {
    fn from(candidates: &'a Candidates) -> CandidateRows<'a> {
        candidates.rows()
    }
}
