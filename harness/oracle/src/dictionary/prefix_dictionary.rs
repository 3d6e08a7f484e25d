//! Stands in for the Rust's dictionaries. The system dictionary hands a job's candidates back, position
//! by position; there is no user dictionary.

/// A candidate as the Rust is to find it.
#[derive(Clone, Copy)]
pub struct Word {
    pub start: u16,
    pub end: u16,
    pub entry: [u8; 10],
}

/// The candidates in list order, and how many characters the text has.
#[derive(Default)]
pub struct PrefixDictionary {
    pub characters: usize,
    pub words: Vec<Word>,
}

impl PrefixDictionary {
    /// Characters need no code: what is searched for is known by its position.
    #[inline]
    pub fn map_code_or_invalid(&self, character: char) -> u32 {
        character.into()
    }

    /// The words that start so many codes before the end of the text, the last one first, because the
    /// Rust replays what it finds in reverse.
    pub fn common_prefix_search_codes(
        &self,
        codes: &[u32],
    ) -> impl Iterator<Item = (&[u8], usize)> + use<'_> {
        let position = self.characters - codes.len();
        let below = |at| (self.words).partition_point(|word| usize::from(word.start) < at);
        let here = &self.words[below(position)..below(position + 1)];
        let found = move |word: &'_ Word| usize::from(word.end) - position;
        here.iter()
            .rev()
            .map(move |word| (&word.entry[..], found(word)))
    }
}

/// Is never made.
pub struct UserPrefixDictionary {
    pub vals_data: Vec<u8>,
    pub da: Automaton,
}

impl UserPrefixDictionary {
    pub fn decode_val(&self, value: u32) -> (u32, u32) {
        (value, 0)
    }
}

pub struct Automaton;

impl Automaton {
    pub fn find_overlapping_iter(&self, _: &str) -> std::iter::Empty<Match> {
        std::iter::empty()
    }
}

pub struct Match {
    span: (usize, usize),
}

impl Match {
    pub fn start(&self) -> usize {
        self.span.0
    }

    pub fn end(&self) -> usize {
        self.span.1
    }

    pub fn value(&self) -> u32 {
        0
    }
}
