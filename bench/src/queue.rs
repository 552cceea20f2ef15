//! A first-in first-out ring over a slice that the caller lends, in plain safe Rust.

pub struct Full;

pub struct Queue<'a, T> {
    places: &'a mut [T],
    first: usize,
    count: usize,
}

impl<'a, T: Copy> Queue<'a, T> {
    pub fn new(places: &'a mut [T]) -> Queue<'a, T> {
        Queue { places, first: 0, count: 0 }
    }

    pub fn free(&self) -> usize {
        self.places.len() - self.count
    }

    fn place(&self, behind: usize) -> usize {
        let to_end = self.places.len() - self.first;
        if behind < to_end {
            self.first + behind
        } else {
            behind - to_end
        }
    }

    #[inline(always)]
    pub fn put(&mut self, element: T) -> Result<(), Full> {
        if self.count == self.places.len() {
            return Err(Full);
        }
        let at = self.place(self.count);
        self.places[at] = element;
        self.count += 1;
        Ok(())
    }

    pub fn take(&mut self) -> Option<T> {
        if self.count == 0 {
            return None;
        }
        let oldest = self.places[self.first];
        self.first = self.place(1);
        self.count -= 1;
        Some(oldest)
    }

    /// Lays an element into a free place, so many behind those that wait. It does not wait before `add` counts it.
    #[inline(always)]
    pub fn lay(&mut self, behind: usize, element: T) {
        if behind < self.free() {
            let at = self.place(self.count + behind);
            self.places[at] = element;
        }
    }

    /// So many elements more wait, which were laid; where they found no places, none does.
    pub fn add(&mut self, laid: usize) -> Result<(), Full> {
        if laid > self.free() {
            return Err(Full);
        }
        self.count += laid;
        Ok(())
    }
}
