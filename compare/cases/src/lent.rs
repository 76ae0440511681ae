//! A list lent from between guard slots, which must stay as they were.

/// A slot, and what a guard slot holds unless another number is given.
pub trait Slot: Copy + PartialEq {
    const GUARD: Self;
}

impl Slot for u64 {
    const GUARD: Self = 0xfeed_face_cafe_beef;
}

impl Slot for u8 {
    const GUARD: Self = 0xa5;
}

#[derive(Clone)]
pub struct Lent<T = u64> {
    slots: Vec<T>,
    guard: T,
}

impl<T: Slot> Lent<T> {
    pub fn new(list: &[T]) -> Self {
        Self::between(T::GUARD, list)
    }

    /// Lent from between guard slots that hold this.
    pub fn between(guard: T, list: &[T]) -> Self {
        let guards = [guard; 2];
        let slots = [&guards, list, &guards].concat();
        Self { slots, guard }
    }

    fn end(&self) -> usize {
        self.slots.len() - 2
    }

    fn guarded(&self) -> bool {
        let mut guards = self.slots[..2].iter().chain(&self.slots[self.end()..]);
        guards.all(|x| *x == self.guard)
    }

    pub fn list(&mut self) -> &mut [T] {
        let end = self.end();
        &mut self.slots[2..end]
    }

    /// Whether the list is this one, and the guard slots around it are as they were.
    pub fn holds(&self, list: &[T]) -> bool {
        self.guarded() && &self.slots[2..self.end()] == list
    }

    /// The list afterwards, with the guard slots around it if one of them has changed.
    pub fn back(mut self) -> Vec<T> {
        if self.guarded() {
            self.slots.truncate(self.end());
            self.slots.drain(..2);
        }
        self.slots
    }
}
