macro_rules! prove {
    ($($told:tt)*) => {};
}

macro_rules! vec {
    (in $alloc:expr; $item:expr; $many:expr) => {{
        let mut all = crate::plain_std::Vec::new($alloc);
        all.resize($many, $item).map(|()| all)
    }};
    ($($told:tt)*) => { std::vec![$($told)*] };
}

macro_rules! format {
    (in $alloc:expr; $($told:tt)*) => {
        Ok::<_, crate::plain_std::AllocError>(crate::plain_std::String::from(std::format!($($told)*)))
    };
    ($($told:tt)*) => { std::format!($($told)*) };
}

/// The words of Rattle's library and of its `arrayvec` that differ from Rust's, as the benches need them.
pub mod plain_std {
    use std::ops::{Deref, DerefMut};

    #[derive(Clone, Copy, Debug, PartialEq)]
    pub struct AllocError;

    #[derive(Clone, Copy, Debug)]
    pub struct Global;

    /// What may be dropped, which everything may.
    pub trait Drop {}

    impl<T: ?Sized> Drop for T {}

    /// A value on the heap, whose place may be refused.
    pub struct Box<T>(std::boxed::Box<T>);

    impl<T> Box<T> {
        pub fn new(_: Global, item: T) -> Result<Self, AllocError> {
            Ok(Box(std::boxed::Box::new(item)))
        }
    }

    impl<T> Deref for Box<T> {
        type Target = T;

        fn deref(&self) -> &T {
            &self.0
        }
    }

    impl<T> DerefMut for Box<T> {
        fn deref_mut(&mut self) -> &mut T {
            &mut self.0
        }
    }

    /// A vector whose growth may be refused.
    #[derive(Debug, PartialEq)]
    pub struct Vec<T>(std::vec::Vec<T>);

    impl<T> Vec<T> {
        #[inline]
        pub fn new(_: Global) -> Self {
            Vec(std::vec::Vec::new())
        }

        pub fn with_capacity(_: Global, capacity: usize) -> Result<Self, AllocError> {
            let mut all = std::vec::Vec::new();
            all.try_reserve_exact(capacity).map_err(|_| AllocError)?;
            Ok(Vec(all))
        }

        pub fn from_slice(alloc: Global, items: &[T]) -> Result<Self, AllocError>
        where
            T: Clone,
        {
            let mut all = Vec::with_capacity(alloc, items.len())?;
            all.0.extend_from_slice(items);
            Ok(all)
        }

        pub fn clone(&self) -> Result<Self, AllocError>
        where
            T: Clone,
        {
            Vec::from_slice(Global, self)
        }

        #[inline]
        pub fn extend_from_slice(&mut self, items: &[T]) -> Result<(), AllocError>
        where
            T: Clone,
        {
            self.0.try_reserve(items.len()).map_err(|_| AllocError)?;
            self.0.extend_from_slice(items);
            Ok(())
        }

        pub fn resize(&mut self, len: usize, item: T) -> Result<(), AllocError>
        where
            T: Clone,
        {
            self.0.try_reserve(len.saturating_sub(self.0.len())).map_err(|_| AllocError)?;
            self.0.resize(len, item);
            Ok(())
        }

        pub fn insert(&mut self, place: usize, item: T) -> Result<(), AllocError> {
            self.0.try_reserve(1).map_err(|_| AllocError)?;
            self.0.insert(place, item);
            Ok(())
        }

        pub fn remove(&mut self, place: usize) -> T {
            self.0.remove(place)
        }

        #[inline]
        pub fn capacity(&self) -> usize {
            self.0.capacity()
        }

        #[inline]
        pub fn as_mut_slice(&mut self) -> &mut [T] {
            self.0.as_mut_slice()
        }

        #[inline]
        pub fn push(&mut self, item: T) -> Result<(), AllocError> {
            if self.0.len() == self.0.capacity() {
                self.0.try_reserve(1).map_err(|_| AllocError)?;
            }
            self.0.push(item);
            Ok(())
        }

        pub fn reserve(&mut self, more: usize) -> Result<(), AllocError> {
            self.0.try_reserve(more).map_err(|_| AllocError)
        }

        #[inline]
        pub fn push_reserved(&mut self, item: T) {
            self.0.push(item);
        }

        #[inline]
        pub fn as_slice(&self) -> &[T] {
            &self.0
        }

        pub fn destroy_empty(self) {}

        pub fn pop(&mut self) -> Option<T> {
            self.0.pop()
        }

        pub fn clear(&mut self) {
            self.0.clear();
        }

        pub fn truncate(&mut self, len: usize) {
            self.0.truncate(len);
        }

        pub fn retain(&mut self, keeps: impl FnMut(&T) -> bool) {
            self.0.retain(keeps);
        }

        pub fn sort_by_key<K: Ord>(&mut self, key: impl FnMut(&T) -> K) -> Result<(), AllocError> {
            self.0.sort_by_key(key);
            Ok(())
        }
    }

    impl<T> Deref for Vec<T> {
        type Target = [T];

        #[inline]
        fn deref(&self) -> &[T] {
            &self.0
        }
    }

    impl<T> DerefMut for Vec<T> {
        #[inline]
        fn deref_mut(&mut self) -> &mut [T] {
            &mut self.0
        }
    }

    impl<'a, T> IntoIterator for &'a Vec<T> {
        type Item = &'a T;
        type IntoIter = std::slice::Iter<'a, T>;

        fn into_iter(self) -> Self::IntoIter {
            self.0.iter()
        }
    }

    impl<T> IntoIterator for Vec<T> {
        type Item = T;
        type IntoIter = std::vec::IntoIter<T>;

        fn into_iter(self) -> Self::IntoIter {
            self.0.into_iter()
        }
    }

    impl AsRef<[u8]> for Vec<u8> {
        fn as_ref(&self) -> &[u8] {
            &self.0
        }
    }

    impl std::io::Write for Vec<u8> {
        fn write(&mut self, piece: &[u8]) -> std::io::Result<usize> {
            match self.extend_from_slice(piece) {
                Ok(()) => Ok(piece.len()),
                Err(_) => Err(std::io::ErrorKind::OutOfMemory.into()),
            }
        }

        fn flush(&mut self) -> std::io::Result<()> {
            Ok(())
        }
    }

    /// A list with the items of a slice, or of an iterator.
    pub trait ToVecIn<T> {
        fn to_vec_in(&self, alloc: Global) -> Result<Vec<T>, AllocError>;
    }

    impl<T: Clone> ToVecIn<T> for [T] {
        fn to_vec_in(&self, alloc: Global) -> Result<Vec<T>, AllocError> {
            Vec::from_slice(alloc, self)
        }
    }

    pub trait CollectIn: Iterator + Sized {
        fn collect_in<L: FromItems<Self::Item>>(self, alloc: Global) -> Result<L, AllocError> {
            L::from_items(alloc, self)
        }
    }

    impl<I: Iterator> CollectIn for I {}

    pub trait FromItems<T>: Sized {
        fn from_items(alloc: Global, items: impl Iterator<Item = T>) -> Result<Self, AllocError>;
    }

    impl<T> FromItems<T> for Vec<T> {
        fn from_items(alloc: Global, items: impl Iterator<Item = T>) -> Result<Self, AllocError> {
            let mut all = Vec::new(alloc);
            for item in items {
                all.push(item)?;
            }
            Ok(all)
        }
    }

    /// A text whose growth may be refused.
    #[derive(Debug, PartialEq, Eq, PartialOrd, Ord)]
    pub struct String(std::string::String);

    impl String {
        pub fn new(_: Global) -> Self {
            String(std::string::String::new())
        }

        pub fn with_capacity(_: Global, capacity: usize) -> Result<Self, AllocError> {
            let mut text = std::string::String::new();
            text.try_reserve_exact(capacity).map_err(|_| AllocError)?;
            Ok(String(text))
        }

        pub fn from_str(alloc: Global, text: &str) -> Result<Self, AllocError> {
            let mut all = String::with_capacity(alloc, text.len())?;
            all.0.push_str(text);
            Ok(all)
        }

        pub fn from_utf8(octets: Vec<u8>) -> Result<Self, std::string::FromUtf8Error> {
            std::string::String::from_utf8(octets.0).map(String)
        }

        pub fn from_ascii(octets: Vec<u8>) -> Self {
            String(unsafe { std::string::String::from_utf8_unchecked(octets.0) })
        }

        pub fn push_str(&mut self, text: &str) -> Result<(), AllocError> {
            self.0.try_reserve(text.len()).map_err(|_| AllocError)?;
            self.0.push_str(text);
            Ok(())
        }

        pub fn push(&mut self, letter: char) -> Result<(), AllocError> {
            self.0.try_reserve(4).map_err(|_| AllocError)?;
            self.0.push(letter);
            Ok(())
        }

        pub fn as_str(&self) -> &str {
            &self.0
        }

        pub fn into_bytes(self) -> Vec<u8> {
            Vec(self.0.into_bytes())
        }
    }

    impl From<std::string::String> for String {
        fn from(text: std::string::String) -> Self {
            String(text)
        }
    }

    impl std::borrow::Borrow<str> for String {
        fn borrow(&self) -> &str {
            &self.0
        }
    }

    impl AsRef<[u8]> for String {
        fn as_ref(&self) -> &[u8] {
            self.0.as_bytes()
        }
    }

    impl std::fmt::Display for String {
        fn fmt(&self, out: &mut std::fmt::Formatter<'_>) -> std::fmt::Result {
            self.0.fmt(out)
        }
    }

    impl Deref for String {
        type Target = str;

        fn deref(&self) -> &str {
            &self.0
        }
    }
}

pub mod arrayvec {
    use std::ops::{Deref, DerefMut};

    #[derive(Clone, Copy, Debug, PartialEq)]
    pub struct CapacityError;

    /// A vector in the value itself, whose unused places hold blanks.
    #[derive(Clone, Copy, Debug)]
    pub struct ArrayVec<T, const CAP: usize> {
        xs: [T; CAP],
        len: usize,
    }

    impl<T: Default, const CAP: usize> ArrayVec<T, CAP> {
        pub fn new() -> Self {
            ArrayVec { xs: std::array::from_fn(|_| T::default()), len: 0 }
        }

        pub fn clear(&mut self) {
            for index in 0..self.len {
                self.xs[index] = T::default();
            }
            self.len = 0;
        }

        pub fn truncate(&mut self, len: usize) {
            while len < self.len {
                self.len -= 1;
                self.xs[self.len] = T::default();
            }
        }
    }

    impl<T, const CAP: usize> ArrayVec<T, CAP> {
        #[inline]
        pub fn len(&self) -> usize {
            self.len
        }

        #[inline]
        pub fn is_full(&self) -> bool {
            self.len == CAP
        }

        #[inline]
        pub fn as_slice(&self) -> &[T] {
            &self.xs[..self.len]
        }

        #[inline]
        pub fn as_mut_slice(&mut self) -> &mut [T] {
            &mut self.xs[..self.len]
        }

        #[inline]
        pub fn push(&mut self, item: T) {
            self.xs[self.len] = item;
            self.len += 1;
        }

        #[inline]
        pub fn try_push(&mut self, item: T) -> Result<(), CapacityError> {
            if self.is_full() {
                return Err(CapacityError);
            }
            self.push(item);
            Ok(())
        }
    }

    impl<T: Copy, const CAP: usize> ArrayVec<T, CAP> {
        pub fn try_extend_from_slice(&mut self, items: &[T]) -> Result<(), CapacityError> {
            if CAP - self.len < items.len() {
                return Err(CapacityError);
            }
            let end = self.len + items.len();
            self.xs[self.len..end].copy_from_slice(items);
            self.len = end;
            Ok(())
        }
    }

    impl<T: Copy + Default, const CAP: usize> TryFrom<&[T]> for ArrayVec<T, CAP> {
        type Error = CapacityError;

        fn try_from(items: &[T]) -> Result<Self, CapacityError> {
            let mut all = ArrayVec::new();
            all.try_extend_from_slice(items)?;
            Ok(all)
        }
    }

    impl<T: Default, const CAP: usize> Default for ArrayVec<T, CAP> {
        fn default() -> Self {
            ArrayVec::new()
        }
    }

    impl<T: PartialEq, const CAP: usize> PartialEq for ArrayVec<T, CAP> {
        fn eq(&self, other: &Self) -> bool {
            self.as_slice() == other.as_slice()
        }
    }

    impl<T: Eq, const CAP: usize> Eq for ArrayVec<T, CAP> {}

    impl<T, const CAP: usize> Deref for ArrayVec<T, CAP> {
        type Target = [T];

        #[inline]
        fn deref(&self) -> &[T] {
            self.as_slice()
        }
    }

    impl<T, const CAP: usize> DerefMut for ArrayVec<T, CAP> {
        #[inline]
        fn deref_mut(&mut self) -> &mut [T] {
            self.as_mut_slice()
        }
    }

    impl<'a, T, const CAP: usize> IntoIterator for &'a ArrayVec<T, CAP> {
        type Item = &'a T;
        type IntoIter = std::slice::Iter<'a, T>;

        fn into_iter(self) -> Self::IntoIter {
            self.as_slice().iter()
        }
    }
}

/// The kit's buffer, as the benches need it.
pub mod circular_buffer {
    use crate::plain_std::{AllocError, Global};
    use std::collections::VecDeque;

    pub struct HeapCircularBuffer<T> {
        items: VecDeque<T>,
        most: usize,
    }

    impl<T> HeapCircularBuffer<T> {
        pub fn with_capacity(_: Global, most: usize) -> Result<Self, AllocError> {
            Ok(HeapCircularBuffer { items: VecDeque::with_capacity(most), most })
        }

        pub fn push_front(&mut self, item: T) {
            if self.items.len() == self.most {
                self.items.pop_back();
            }
            self.items.push_front(item);
        }

        pub fn iter(&self) -> std::collections::vec_deque::Iter<'_, T> {
            self.items.iter()
        }
    }
}
