//! Stands in for the Rust's character categories: no character has one, so that there are no unknown
//! words but those that are listed.

#[derive(Clone, Copy, Debug, PartialEq, Eq)]
pub struct CategoryId;

pub struct CategoryData {
    pub invoke: bool,
    pub group: bool,
    pub length: u32,
}

#[derive(Debug, Default)]
pub struct CharacterDefinition;

impl CharacterDefinition {
    /// The first of no categories, and how many there are.
    #[inline]
    pub fn lookup_categories_packed(&self, _: char) -> Option<(u32, u16)> {
        Some((0, 0))
    }

    pub fn lookup_categories(&self, _: char) -> &[CategoryId] {
        &[]
    }

    pub fn flat_category(&self, _: usize) -> CategoryId {
        unreachable!("no character has a category")
    }

    pub fn lookup_definition(&self, _: CategoryId) -> CategoryData {
        unreachable!("no character has a category")
    }
}
