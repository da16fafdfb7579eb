//! Stand-ins for the crates that the text names. The oracle's are plain; here
//! those that take time are made as the crates make them.

#[path = "../../../oracle/src/shims.rs"]
#[allow(dead_code)]
mod plain;

pub use plain::{la_arena, lang_ast, log, stacker};

/// Hash maps and sets with the hash function of rustc_hash.
pub mod rustc_hash {
    use std::collections::{HashMap, HashSet};
    use std::hash::{BuildHasherDefault, Hasher};

    pub type FxHashMap<K, V> = HashMap<K, V, BuildHasherDefault<FxHasher>>;
    pub type FxHashSet<T> = HashSet<T, BuildHasherDefault<FxHasher>>;

    #[derive(Default)]
    pub struct FxHasher(u64);

    impl FxHasher {
        #[inline]
        fn add(&mut self, word: u64) {
            self.0 = (self.0.rotate_left(5) ^ word).wrapping_mul(0x517c_c1b7_2722_0a95);
        }
    }

    impl Hasher for FxHasher {
        #[inline]
        fn write(&mut self, bytes: &[u8]) {
            for chunk in bytes.chunks(8) {
                let mut word = [0; 8];
                word[..chunk.len()].copy_from_slice(chunk);
                self.add(u64::from_le_bytes(word));
            }
        }

        #[inline]
        fn write_u8(&mut self, n: u8) {
            self.add(u64::from(n));
        }

        #[inline]
        fn write_u32(&mut self, n: u32) {
            self.add(u64::from(n));
        }

        #[inline]
        fn write_u64(&mut self, n: u64) {
            self.add(n);
        }

        #[inline]
        fn write_usize(&mut self, n: usize) {
            self.add(n as u64);
        }

        #[inline]
        fn finish(&self) -> u64 {
            self.0
        }
    }
}

/// Vectors whose first elements need no allocation.
pub mod smallvec {
    use std::mem::MaybeUninit;
    use std::ops::{Deref, DerefMut};
    use std::{fmt, ptr, slice};

    pub trait Array {
        type Item;
        const LENGTH: usize;
    }

    impl<T, const N: usize> Array for [T; N] {
        type Item = T;
        const LENGTH: usize = N;
    }

    /// The elements are the first `length` of `near`, or all of `far`.
    pub struct SmallVec<A: Array> {
        near: MaybeUninit<A>,
        length: usize,
        far: Option<Vec<A::Item>>,
    }

    impl<A: Array> SmallVec<A> {
        #[inline]
        pub fn new() -> Self {
            SmallVec {
                near: MaybeUninit::uninit(),
                length: 0,
                far: None,
            }
        }

        #[inline]
        fn first(&self) -> *const A::Item {
            self.near.as_ptr().cast()
        }

        #[inline]
        pub fn push(&mut self, item: A::Item) {
            match &mut self.far {
                Some(far) => far.push(item),
                None if self.length < A::LENGTH => {
                    // Below the array's length; the place holds nothing yet.
                    unsafe {
                        self.near
                            .as_mut_ptr()
                            .cast::<A::Item>()
                            .add(self.length)
                            .write(item)
                    };
                    self.length += 1;
                }
                None => {
                    let mut far = self.taken(2 * A::LENGTH + 1);
                    far.push(item);
                    self.far = Some(far);
                }
            }
        }

        /// The near elements, moved into a vector.
        fn taken(&mut self, room: usize) -> Vec<A::Item> {
            let mut far = Vec::with_capacity(room.max(self.length));
            // The elements are moved: they are no longer counted here.
            unsafe {
                ptr::copy_nonoverlapping(self.first(), far.as_mut_ptr(), self.length);
                far.set_len(self.length);
            }
            self.length = 0;
            far
        }

        pub fn into_vec(mut self) -> Vec<A::Item> {
            match self.far.take() {
                Some(far) => far,
                None => self.taken(0),
            }
        }

        pub fn dedup(&mut self)
        where
            A::Item: PartialEq,
        {
            let mut items = std::mem::replace(self, SmallVec::new()).into_vec();
            items.dedup();
            self.extend(items);
        }

        pub fn retain(&mut self, mut keep: impl FnMut(&mut A::Item) -> bool) {
            let items = std::mem::replace(self, SmallVec::new()).into_vec();
            for mut item in items {
                if keep(&mut item) {
                    self.push(item);
                }
            }
        }
    }

    impl<A: Array> Drop for SmallVec<A> {
        #[inline]
        fn drop(&mut self) {
            let near = ptr::slice_from_raw_parts_mut(
                self.near.as_mut_ptr().cast::<A::Item>(),
                self.length,
            );
            // The first `length` places hold elements that nobody else has.
            unsafe { ptr::drop_in_place(near) };
        }
    }

    impl<A: Array> Deref for SmallVec<A> {
        type Target = [A::Item];
        #[inline]
        fn deref(&self) -> &Self::Target {
            match &self.far {
                Some(far) => far,
                // The first `length` places hold elements.
                None => unsafe { slice::from_raw_parts(self.first(), self.length) },
            }
        }
    }

    impl<A: Array> DerefMut for SmallVec<A> {
        #[inline]
        fn deref_mut(&mut self) -> &mut Self::Target {
            match &mut self.far {
                Some(far) => far,
                None => {
                    let first = self.near.as_mut_ptr().cast();
                    // The first `length` places hold elements.
                    unsafe { slice::from_raw_parts_mut(first, self.length) }
                }
            }
        }
    }

    impl<A: Array> Clone for SmallVec<A>
    where
        A::Item: Clone,
    {
        fn clone(&self) -> Self {
            self.iter().cloned().collect()
        }
    }

    impl<A: Array> fmt::Debug for SmallVec<A>
    where
        A::Item: fmt::Debug,
    {
        fn fmt(&self, f: &mut fmt::Formatter<'_>) -> fmt::Result {
            self[..].fmt(f)
        }
    }

    impl<A: Array> FromIterator<A::Item> for SmallVec<A> {
        #[inline]
        fn from_iter<I: IntoIterator<Item = A::Item>>(items: I) -> Self {
            let mut made = SmallVec::new();
            made.extend(items);
            made
        }
    }

    impl<A: Array> Extend<A::Item> for SmallVec<A> {
        #[inline]
        fn extend<I: IntoIterator<Item = A::Item>>(&mut self, items: I) {
            for item in items {
                self.push(item);
            }
        }
    }

    /// Elements moved out one by one; those left are dropped with it.
    pub struct IntoIter<A: Array> {
        near: MaybeUninit<A>,
        at: usize,
        end: usize,
        far: std::vec::IntoIter<A::Item>,
    }

    impl<A: Array> Iterator for IntoIter<A> {
        type Item = A::Item;
        #[inline]
        fn next(&mut self) -> Option<A::Item> {
            if self.at < self.end {
                self.at += 1;
                let first = self.near.as_ptr().cast::<A::Item>();
                // Places from `at` to `end` hold elements; this one is passed.
                return Some(unsafe { first.add(self.at - 1).read() });
            }
            self.far.next()
        }
    }

    impl<A: Array> Drop for IntoIter<A> {
        fn drop(&mut self) {
            for item in self.by_ref() {
                drop(item);
            }
        }
    }

    impl<A: Array> IntoIterator for SmallVec<A> {
        type Item = A::Item;
        type IntoIter = IntoIter<A>;
        #[inline]
        fn into_iter(mut self) -> IntoIter<A> {
            let end = std::mem::take(&mut self.length);
            IntoIter {
                near: std::mem::replace(&mut self.near, MaybeUninit::uninit()),
                at: 0,
                end,
                far: self.far.take().unwrap_or_default().into_iter(),
            }
        }
    }

    impl<'a, A: Array> IntoIterator for &'a SmallVec<A> {
        type Item = &'a A::Item;
        type IntoIter = slice::Iter<'a, A::Item>;
        #[inline]
        fn into_iter(self) -> Self::IntoIter {
            self.iter()
        }
    }
}

/// Strings of at most 22 bytes need no allocation, longer ones are shared.
pub mod smol_str {
    use std::cmp::Ordering;
    use std::fmt;
    use std::hash::{Hash, Hasher};
    use std::sync::Arc;

    const NEAR: usize = 22;

    #[derive(Clone)]
    pub enum SmolStr {
        Near(u8, [u8; NEAR]),
        Far(Arc<str>),
    }

    impl SmolStr {
        #[inline]
        fn bytes(&self) -> &[u8] {
            match self {
                SmolStr::Near(length, bytes) => &bytes[..usize::from(*length)],
                SmolStr::Far(text) => text.as_bytes(),
            }
        }
    }

    impl From<&str> for SmolStr {
        #[inline]
        fn from(text: &str) -> Self {
            if text.len() > NEAR {
                return SmolStr::Far(text.into());
            }
            let mut bytes = [0; NEAR];
            bytes[..text.len()].copy_from_slice(text.as_bytes());
            SmolStr::Near(text.len() as u8, bytes)
        }
    }

    impl fmt::Debug for SmolStr {
        fn fmt(&self, f: &mut fmt::Formatter<'_>) -> fmt::Result {
            String::from_utf8_lossy(self.bytes()).fmt(f)
        }
    }

    impl PartialEq for SmolStr {
        #[inline]
        fn eq(&self, other: &Self) -> bool {
            self.bytes() == other.bytes()
        }
    }

    impl Eq for SmolStr {}

    impl Hash for SmolStr {
        #[inline]
        fn hash<H: Hasher>(&self, state: &mut H) {
            self.bytes().hash(state);
        }
    }

    impl PartialOrd for SmolStr {
        #[inline]
        fn partial_cmp(&self, other: &Self) -> Option<Ordering> {
            Some(self.cmp(other))
        }
    }

    impl Ord for SmolStr {
        #[inline]
        fn cmp(&self, other: &Self) -> Ordering {
            self.bytes().cmp(other.bytes())
        }
    }
}
