//! The product's archive, called on slices that are watched.
use crate::cases::tape::{Line, Number};
pub use lomsakeun::{lend, sys};

/// How a slice is lent.
#[derive(Clone, Copy, PartialEq)]
pub enum Lending {
    /// Out of the middle of a longer buffer, whose ends are looked at after the call.
    Padded,
    /// As an allocation of its own of just that length, for a run that watches every access.
    Exact,
}

/// What the product answered, or what it wrote that it must not.
pub type Answer = Result<Line, String>;

/// How many elements stand on each side of a padded slice.
const PAD: usize = 32;

pub struct Lent<T> {
    buffer: Box<[T]>,
    pad: usize,
}

impl<T: Number> Lent<T> {
    pub fn new(lending: Lending, values: &[T]) -> Lent<T> {
        let pad = if lending == Lending::Padded { PAD } else { 0 };
        let mut buffer = Vec::with_capacity(values.len() + 2 * pad);
        buffer.extend((0..pad).map(T::mark));
        buffer.extend_from_slice(values);
        buffer.extend((0..pad).map(T::mark));
        Lent { buffer: buffer.into_boxed_slice(), pad }
    }

    pub fn len(&self) -> usize {
        self.buffer.len() - 2 * self.pad
    }

    pub fn as_ptr(&self) -> *const T {
        self.buffer[self.pad..].as_ptr()
    }

    pub fn as_mut_ptr(&mut self) -> *mut T {
        self.buffer[self.pad..].as_mut_ptr()
    }

    /// The slice itself.
    pub fn lent(&mut self) -> &mut [T] {
        let end = self.pad + self.len();
        &mut self.buffer[self.pad..end]
    }

    /// What the slice holds after the call, if all around it is as it was.
    pub fn after(&self) -> Result<&[T], String> {
        let end = self.pad + self.len();
        let before = self.buffer[..self.pad].iter().enumerate().all(|(i, v)| *v == T::mark(i));
        let after = self.buffer[end..].iter().enumerate().all(|(i, v)| *v == T::mark(i));
        if before && after {
            Ok(&self.buffer[self.pad..end])
        } else {
            Err("a write beside a lent slice".into())
        }
    }

    /// A slice that is only read: it is as it was.
    pub fn kept(&self, before: &[T]) -> Result<(), String> {
        if self.after()? == before {
            Ok(())
        } else {
            Err("a write to a slice that is lent to be read".into())
        }
    }
}
