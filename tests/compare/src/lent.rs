//! Buffers to lend: known elements stand before and after the lent ones, and all are looked at afterwards.

/// How many known elements stand on each side.
const AROUND: usize = 16;

/// A buffer for each of two sides, with the same elements at the start.
pub struct Lent<T> {
    before: Vec<T>,
    left: Vec<T>,
    right: Vec<T>,
}

impl<T: Copy + PartialEq> Lent<T> {
    /// No elements yet.
    pub fn new() -> Self {
        Lent { before: Vec::new(), left: Vec::new(), right: Vec::new() }
    }

    /// Makes so many elements ready to lend, and those around them.
    pub fn prepare(&mut self, length: usize, mut element: impl FnMut(usize) -> T) {
        self.before.clear();
        self.before.extend((0..length + 2 * AROUND).map(&mut element));
        self.left.clone_from(&self.before);
        self.right.clone_from(&self.before);
    }

    /// What is lent to the left side.
    pub fn left(&mut self) -> &mut [T] {
        let end = self.left.len() - AROUND;
        &mut self.left[AROUND..end]
    }

    /// What is lent to the right side.
    pub fn right(&mut self) -> &mut [T] {
        let end = self.right.len() - AROUND;
        &mut self.right[AROUND..end]
    }

    /// What the left side left in the lent elements.
    pub fn held(&self) -> &[T] {
        &self.left[AROUND..self.left.len() - AROUND]
    }

    /// Whether both sides left the same, lent or not.
    pub fn is_alike(&self) -> bool {
        self.left == self.right
    }

    /// Whether the left side left everything but a stretch of the lent elements as it was; not where the stretch goes
    /// beyond them.
    pub fn is_kept_but(&self, start: usize, length: usize) -> bool {
        let lent = self.left.len() - 2 * AROUND;
        if start > lent || length > lent - start {
            return false;
        }
        let (start, end) = (AROUND + start, AROUND + start + length);
        self.left[..start] == self.before[..start] && self.left[end..] == self.before[end..]
    }

    /// Whether the left side left everything as it was.
    pub fn is_kept(&self) -> bool {
        self.left == self.before
    }
}

impl<T: Copy + PartialEq> Default for Lent<T> {
    fn default() -> Self {
        Lent::new()
    }
}
