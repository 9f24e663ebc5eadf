//! Buffers for ballots and tapes, which are emptied when they are dropped.

use std::fs::File;
use std::io::{self, Read};
use std::ops::{Deref, DerefMut};
use std::sync::atomic::{compiler_fence, Ordering};

/// A number that a [`Secret`] can hold.
pub trait Number: Copy + Default {}
impl Number for u8 {}
impl Number for u64 {}

/// Numbers of a fixed length that are overwritten with zeros when they are dropped: ballots, tapes, urns and dealings.
///
/// It reads like a slice. A clone is a secret too; the caller has to empty anything else that is copied out of it.
///
/// ```
/// use jugyvaros::Secret;
///
/// let ballots = Secret::from(vec![1u8, 0, 0, 1]);
/// assert_eq!(ballots.iter().filter(|&&byte| byte == 1).count(), 2);
/// assert_eq!(format!("{ballots:?}"), "Secret(4 numbers)");
/// ```
#[derive(Clone, PartialEq, Eq)]
pub struct Secret<T: Number>(Vec<T>);

impl<T: Number> Secret<T> {
    /// `length` zeros.
    pub fn zeros(length: usize) -> Self {
        Secret(vec![T::default(); length])
    }

    /// The pieces one after another. The buffer is allocated at full length, because growing it would leave a copy.
    pub fn join<'a>(pieces: impl Iterator<Item = &'a [T]> + Clone) -> Self
    where
        T: 'a,
    {
        let mut all = Vec::with_capacity(pieces.clone().map(<[T]>::len).sum());
        pieces.for_each(|piece| all.extend_from_slice(piece));
        Secret(all)
    }
}

impl Secret<u8> {
    /// `length` fresh random bits from the system, a byte each: a tape.
    pub fn random_bits(length: usize) -> io::Result<Self> {
        let mut bits = Self::zeros(length);
        File::open("/dev/urandom")?.read_exact(&mut bits)?;
        bits.iter_mut().for_each(|bit| *bit %= 2);
        Ok(bits)
    }
}

impl Secret<u64> {
    /// `length` fresh random numbers from the system: the tapes of 64 juries.
    pub fn random_words(length: usize) -> io::Result<Self> {
        let mut bytes = Secret::<u8>::zeros(8 * length);
        File::open("/dev/urandom")?.read_exact(&mut bytes)?;
        let mut words = Self::zeros(length);
        for (word, eight) in words.iter_mut().zip(bytes.chunks_exact(8)) {
            *word = eight.iter().fold(0, |word, &byte| word << 8 | u64::from(byte));
        }
        Ok(words)
    }
}

impl<T: Number> From<Vec<T>> for Secret<T> {
    fn from(numbers: Vec<T>) -> Self {
        Secret(numbers)
    }
}

impl<T: Number> Deref for Secret<T> {
    type Target = [T];
    fn deref(&self) -> &[T] {
        &self.0
    }
}

impl<T: Number> DerefMut for Secret<T> {
    fn deref_mut(&mut self) -> &mut [T] {
        &mut self.0
    }
}

impl<T: Number> AsRef<[T]> for Secret<T> {
    fn as_ref(&self) -> &[T] {
        self
    }
}

/// Shows its length, not its contents.
impl<T: Number> std::fmt::Debug for Secret<T> {
    fn fmt(&self, f: &mut std::fmt::Formatter<'_>) -> std::fmt::Result {
        write!(f, "Secret({} numbers)", self.len())
    }
}

impl<T: Number> Drop for Secret<T> {
    fn drop(&mut self) {
        // a truncated vector still holds numbers past its length, so all of its capacity is overwritten
        self.0.clear();
        for number in self.0.spare_capacity_mut() {
            // SAFETY: `number` is an aligned element of the buffer. The optimiser must keep a volatile write, even if
            // nobody reads it.
            unsafe { std::ptr::write_volatile(number.as_mut_ptr(), T::default()) };
        }
        compiler_fence(Ordering::SeqCst);
    }
}
