//! Tests of an element.

/// What an element is asked, in place of a closure.
#[derive(Clone, Copy, Debug, PartialEq, Eq, Hash)]
pub enum Test {
    /// It is below the number.
    Below(u32),
    /// It is the number or above.
    AtLeast(u32),
    /// It is the number.
    Equal(u32),
    /// It is another than the number.
    NotEqual(u32),
}

impl Test {
    /// The kind and the number, as the exported calls take them.
    pub(crate) fn numbers(self) -> (u32, u32) {
        match self {
            Test::Below(k) => (1, k),
            Test::AtLeast(k) => (2, k),
            Test::Equal(k) => (3, k),
            Test::NotEqual(k) => (4, k),
        }
    }
}
