//! UTF-8 is the only encoding.

use std::borrow::Cow;

pub struct Encoding;

static UTF_8: Encoding = Encoding;

impl Encoding {
    pub fn for_label_no_replacement(label: &[u8]) -> Option<&'static Encoding> {
        label.eq_ignore_ascii_case(b"utf-8").then_some(&UTF_8)
    }

    pub fn decode<'a>(&'static self, bytes: &'a [u8]) -> (Cow<'a, str>, &'static Encoding, bool) {
        let text = String::from_utf8_lossy(bytes);
        let changed = matches!(text, Cow::Owned(_));
        (text, self, changed)
    }
}
