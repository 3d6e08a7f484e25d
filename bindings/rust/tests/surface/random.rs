//! Random jobs: the words cover the text without a gap, and the cost is their plain sum.

use jumelavorp::*;

/// A small generator (splitmix64).
struct Random(u64);

impl Random {
    fn below(&mut self, end: u64) -> u64 {
        self.0 = self.0.wrapping_add(0x9E37_79B9_7F4A_7C15);
        let mut z = self.0;
        z = (z ^ (z >> 30)).wrapping_mul(0xBF58_476D_1CE4_E5B9);
        z = (z ^ (z >> 27)).wrapping_mul(0x94D0_49BB_1331_11EB);
        (z ^ (z >> 31)) % end
    }

    fn one_of<T: Copy>(&mut self, list: &[T]) -> T {
        list[self.below(list.len() as u64) as usize]
    }

    fn any(&mut self) -> i16 {
        self.below(65_536) as u16 as i16
    }
}

const LETTERS: [char; 12] = [
    '東', '京', '都', '府', '中', '市', 'の', 'ハ', 'a', '1', 'é', '🏠',
];
const KINDS: [Kind; 3] = [Kind::System, Kind::User, Kind::Unknown];
const HEIGHT: u64 = 3;
const WIDTH: u64 = 4;

/// A job's parts, owned.
struct Parts {
    text: Vec<char>,
    list: Vec<Candidate>,
    values: Vec<i16>,
    mode: Mode,
}

impl Parts {
    /// Up to 20 characters, and at each position up to four words; each word's id is its number.
    fn any(random: &mut Random) -> Parts {
        let n = random.below(21) as u16;
        let text = (0..n).map(|_| random.one_of(&LETTERS)).collect();
        let mut list = Vec::new();
        for start in 0..n {
            for _ in 0..random.below(5) {
                let longest = u64::from(n - start).min(5);
                let entry = WordEntry {
                    id: list.len() as u32,
                    cost: random.any(),
                    left_id: random.below(HEIGHT) as u16,
                    right_id: random.below(WIDTH) as u16,
                };
                list.push(Candidate {
                    start,
                    end: start + 1 + random.below(longest) as u16,
                    kind: random.one_of(&KINDS),
                    extra: random.any(),
                    entry,
                });
            }
        }
        let values = (0..HEIGHT * WIDTH).map(|_| random.any()).collect();
        let mode = match random.below(2) {
            0 => Mode::Normal,
            _ => Mode::Decompose(Penalty {
                kanji_threshold: random.below(4) as u32,
                kanji_price: random.below(32_768) as u32,
                other_threshold: random.below(4) as u32,
                other_price: random.below(32_768) as u32,
            }),
        };
        Parts {
            text,
            list,
            values,
            mode,
        }
    }

    /// Whether some words of the list cover the text. They are sorted by start.
    fn can_be_covered(&self) -> bool {
        let mut reached = vec![false; self.text.len() + 1];
        reached[0] = true;
        for word in &self.list {
            reached[usize::from(word.end)] |= reached[usize::from(word.start)];
        }
        reached[self.text.len()]
    }

    /// A path's cost as the paper sums it.
    fn plain_sum(&self, path: &[Candidate]) -> i32 {
        let joint = |right_id: u16, left_id: u16| {
            let at = usize::from(left_id) * WIDTH as usize + usize::from(right_id);
            i32::from(self.values[at])
        };
        let (mut sum, mut right_id) = (0, 0);
        for word in path {
            sum += joint(right_id, word.entry.left_id) + self.charge(word);
            sum += i32::from(word.extra) + i32::from(word.entry.cost);
            right_id = word.entry.right_id;
        }
        sum + joint(right_id, 0)
    }

    fn charge(&self, word: &Candidate) -> i32 {
        let Mode::Decompose(penalty) = self.mode else {
            return 0;
        };
        let letters = &self.text[usize::from(word.start)..usize::from(word.end)];
        let kanji =
            |letter: &char| matches!(letter, '\u{4E00}'..='\u{9FAF}' | '\u{3400}'..='\u{4DBF}');
        let (threshold, price) = match letters.iter().all(kanji) {
            true => (penalty.kanji_threshold, penalty.kanji_price),
            false => (penalty.other_threshold, penalty.other_price),
        };
        ((letters.len() as u32).saturating_sub(threshold) * price) as i32
    }
}

#[test]
fn words_cover_the_text_at_their_plain_sum() {
    let mut random = Random(2026);
    let mut rows = Rows::new();
    let (mut done, mut refused) = (0, 0);
    for _ in 0..2_000 {
        let parts = Parts::any(&mut random);
        let text = String::from_iter(&parts.text);
        let candidates = Candidates::from_iter(parts.list.iter().copied());
        let matrix = Matrix {
            height: HEIGHT as u32,
            width: WIDTH as u32,
            values: &parts.values,
        };
        let job = Job::new(&text, &candidates, matrix, parts.mode);
        let (n, c) = (parts.text.len(), parts.list.len());

        let mut exact = Rows::with_room(n, c);
        let from_exact =
            segment(&job, &mut exact).map(|segmented| segmented.words().collect::<Vec<_>>());
        for (characters, candidates) in [(n.wrapping_sub(1), c), (n, c.wrapping_sub(1))] {
            if characters <= n && candidates <= c {
                let mut small = Rows::with_room(characters, candidates);
                assert_eq!(
                    segment(&job, &mut small).unwrap_err(),
                    Refusal::RowsTooSmall
                );
            }
        }
        let answer = segment(&job, &mut rows);
        assert_eq!(answer.is_ok(), parts.can_be_covered());
        let segmented = match answer {
            Ok(segmented) => segmented,
            Err(refusal) => {
                assert_eq!(refusal, Refusal::NoPath);
                assert_eq!(from_exact, Err(refusal));
                refused += 1;
                continue;
            }
        };
        let words: Vec<Word<'_>> = segmented.words().collect();
        assert_eq!(from_exact.as_ref(), Ok(&words));
        assert_eq!(words.len(), segmented.len());
        assert!(words.len() <= n);
        assert_eq!(words.iter().map(|word| word.text).collect::<String>(), text);
        let mut at = 0;
        for word in &words {
            assert_eq!(word.range.start, at);
            assert_eq!(word.text, &text[word.range.clone()]);
            at = word.range.end;
        }
        assert_eq!(at, text.len());

        let path: Vec<Candidate> = words
            .iter()
            .map(|word| parts.list[word.id as usize])
            .collect();
        assert_eq!(segmented.cost(), parts.plain_sum(&path));
        let lattice = segmented.lattice();
        for (word, listed) in words.iter().zip(&path) {
            assert_eq!(word.kind, listed.kind);
            let [start, end] =
                [listed.start, listed.end].map(|at| lattice.offset[usize::from(at)] as usize);
            assert_eq!(word.range, start..end);
        }
        let from_bytes = Job::from_bytes(text.as_bytes(), &candidates, matrix, parts.mode);
        assert!(segment(&from_bytes, &mut exact)
            .unwrap()
            .words()
            .rev()
            .eq(words.into_iter().rev()));
        done += 1;
    }
    assert!(
        done >= 300 && refused >= 300,
        "{done} done, {refused} refused"
    );
}
