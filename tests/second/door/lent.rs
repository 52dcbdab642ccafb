//! A run of numbers lent to a call to be written, with a margin on both sides: all are filled with marks, so what the
//! call writes shows afterwards, outside the lent part too.

/// So many numbers stand before the lent part, and as many after it.
pub const MARGIN: usize = 8;

#[derive(Clone, PartialEq, Eq)]
pub struct Lent<Number> {
    /// The lent part and both margins.
    pub(super) numbers: Vec<Number>,
}

impl<Number: Copy> Lent<Number> {
    pub fn with_marks(length: usize, mark: impl FnMut() -> Number) -> Lent<Number> {
        let marks = std::iter::repeat_with(mark);
        Lent {
            numbers: marks.take(MARGIN + length + MARGIN).collect(),
        }
    }

    pub fn length(&self) -> usize {
        self.numbers.len() - 2 * MARGIN
    }

    pub fn part(&self) -> &[Number] {
        &self.numbers[MARGIN..MARGIN + self.length()]
    }

    pub fn margins(&self) -> (&[Number], &[Number]) {
        (&self.numbers[..MARGIN], &self.numbers[MARGIN + self.length()..])
    }

    /// Writes these numbers into the lent part, from a place of it on.
    pub fn write(&mut self, place: usize, numbers: impl Iterator<Item = Number>) {
        let end = MARGIN + self.length();
        let mut places = self.numbers[MARGIN + place..end].iter_mut();
        numbers.for_each(|number| *places.next().expect("room in the lent part") = number);
    }
}
