//! Buffers as a caller lends them, with guards around them, and twins of them for the model.

use std::cell::Cell as Turn;

thread_local! {
    /// Gives each buffer of a scenario another alignment.
    static ALIGNMENT: Turn<usize> = const { Turn::new(0) };
}

/// Makes a scenario's alignments its own, so that it can be repeated alone.
pub fn begin_scenario() {
    ALIGNMENT.set(0);
}

/// What buffers are made of.
pub trait Cell: Copy + PartialEq + std::fmt::Display {
    const GUARD: Self;
    const ZERO: Self;
}

impl Cell for u8 {
    const GUARD: u8 = 0xA5;
    const ZERO: u8 = 0;
}

impl Cell for u64 {
    const GUARD: u64 = 0xA5A5_5A5A_C3C3_3C3C;
    const ZERO: u64 = 0;
}

/// Guards at each side, at least.
const GUARDS: usize = 16;

/// A buffer that the archive is lent. Guards stand at both sides; the start is at any alignment of its cells.
#[derive(Clone)]
pub struct Lent<T> {
    cells: Vec<T>,
    start: usize,
    length: usize,
}

impl<T: Cell> Lent<T> {
    pub fn new(content: &[T]) -> Lent<T> {
        let mut lent = Lent::zeros(content.len());
        lent.content_mut().copy_from_slice(content);
        lent
    }

    /// Zeros. A large one costs no memory before it is written.
    pub fn zeros(length: usize) -> Lent<T> {
        let turn = ALIGNMENT.get();
        ALIGNMENT.set(turn + 1);
        let start = GUARDS + turn % 8;
        let mut cells = vec![T::ZERO; start + length + GUARDS];
        cells[..start].fill(T::GUARD);
        cells[start + length..].fill(T::GUARD);
        Lent {
            cells,
            start,
            length,
        }
    }

    pub fn content(&self) -> &[T] {
        &self.cells[self.start..self.start + self.length]
    }

    pub fn content_mut(&mut self) -> &mut [T] {
        &mut self.cells[self.start..self.start + self.length]
    }

    pub fn len(&self) -> usize {
        self.length
    }

    /// The pointer to lend. An empty buffer has one that leads nowhere.
    pub fn pointer(&self) -> *const T {
        if self.length == 0 {
            std::ptr::dangling()
        } else {
            self.content().as_ptr()
        }
    }

    pub fn pointer_mut(&mut self) -> *mut T {
        if self.length == 0 {
            std::ptr::dangling_mut()
        } else {
            self.content_mut().as_mut_ptr()
        }
    }

    pub fn guards_kept(&self) -> bool {
        let before = &self.cells[..self.start];
        let after = &self.cells[self.start + self.length..];
        before.iter().chain(after).all(|cell| *cell == T::GUARD)
    }
}

/// One buffer twice: as the archive is lent it, and as the model has it. Between calls both hold the same.
#[derive(Clone)]
pub struct Twin<T> {
    pub archive: Lent<T>,
    pub model: Vec<T>,
}

impl<T: Cell> Twin<T> {
    pub fn new(content: &[T]) -> Twin<T> {
        Twin {
            archive: Lent::new(content),
            model: content.to_vec(),
        }
    }

    pub fn zeros(length: usize) -> Twin<T> {
        Twin {
            archive: Lent::zeros(length),
            model: vec![T::ZERO; length],
        }
    }

    pub fn get(&self) -> &[T] {
        &self.model
    }

    pub fn len(&self) -> usize {
        self.model.len()
    }

    /// Writes into both what fits.
    pub fn set(&mut self, place: usize, new: &[T]) {
        let end = (place + new.len()).min(self.len());
        if place < end {
            self.model[place..end].copy_from_slice(&new[..end - place]);
            self.archive.content_mut()[place..end].copy_from_slice(&new[..end - place]);
        }
    }
}
