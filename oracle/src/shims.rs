//! Stand-ins for the crates that the text names. Each is a plain data
//! structure with the part of the crate's interface that the text uses.

/// Arena with typed indices.
pub mod la_arena {
    use std::cmp::Ordering;
    use std::fmt;
    use std::hash::{Hash, Hasher};
    use std::marker::PhantomData;
    use std::ops::Index;

    pub struct Idx<T> {
        raw: u32,
        of: PhantomData<fn() -> T>,
    }

    impl<T> Idx<T> {
        pub fn index(self) -> usize {
            self.raw as usize
        }
    }

    // Written out, because a derive would ask the same of T.
    impl<T> Clone for Idx<T> {
        fn clone(&self) -> Self {
            *self
        }
    }
    impl<T> Copy for Idx<T> {}
    impl<T> PartialEq for Idx<T> {
        fn eq(&self, other: &Self) -> bool {
            self.raw == other.raw
        }
    }
    impl<T> Eq for Idx<T> {}
    impl<T> PartialOrd for Idx<T> {
        fn partial_cmp(&self, other: &Self) -> Option<Ordering> {
            Some(self.cmp(other))
        }
    }
    impl<T> Ord for Idx<T> {
        fn cmp(&self, other: &Self) -> Ordering {
            self.raw.cmp(&other.raw)
        }
    }
    impl<T> Hash for Idx<T> {
        fn hash<H: Hasher>(&self, state: &mut H) {
            self.raw.hash(state);
        }
    }
    impl<T> fmt::Debug for Idx<T> {
        fn fmt(&self, f: &mut fmt::Formatter<'_>) -> fmt::Result {
            write!(f, "Idx({})", self.raw)
        }
    }

    #[derive(Clone)]
    pub struct Arena<T> {
        items: Vec<T>,
    }

    impl<T> Arena<T> {
        pub fn new() -> Self {
            Arena { items: Vec::new() }
        }

        pub fn alloc(&mut self, item: T) -> Idx<T> {
            let raw = u32::try_from(self.items.len()).expect("an arena holds fewer than 2^32");
            self.items.push(item);
            Idx {
                raw,
                of: PhantomData,
            }
        }

        pub fn len(&self) -> usize {
            self.items.len()
        }

        pub fn is_empty(&self) -> bool {
            self.items.is_empty()
        }
    }

    impl<T> Index<Idx<T>> for Arena<T> {
        type Output = T;
        fn index(&self, idx: Idx<T>) -> &T {
            &self.items[idx.raw as usize]
        }
    }
}

/// Vectors; the inline length is ignored.
pub mod smallvec {
    use std::ops::{Deref, DerefMut};

    pub trait Array {
        type Item;
    }

    impl<T, const N: usize> Array for [T; N] {
        type Item = T;
    }

    pub struct SmallVec<A: Array>(Vec<A::Item>);

    impl<A: Array> SmallVec<A> {
        pub fn new() -> Self {
            SmallVec(Vec::new())
        }

        pub fn into_vec(self) -> Vec<A::Item> {
            self.0
        }
    }

    impl<A: Array> Deref for SmallVec<A> {
        type Target = Vec<A::Item>;
        fn deref(&self) -> &Self::Target {
            &self.0
        }
    }
    impl<A: Array> DerefMut for SmallVec<A> {
        fn deref_mut(&mut self) -> &mut Self::Target {
            &mut self.0
        }
    }
    impl<A: Array> Clone for SmallVec<A>
    where
        A::Item: Clone,
    {
        fn clone(&self) -> Self {
            SmallVec(self.0.clone())
        }
    }
    impl<A: Array> std::fmt::Debug for SmallVec<A>
    where
        A::Item: std::fmt::Debug,
    {
        fn fmt(&self, f: &mut std::fmt::Formatter<'_>) -> std::fmt::Result {
            self.0.fmt(f)
        }
    }
    impl<A: Array> FromIterator<A::Item> for SmallVec<A> {
        fn from_iter<I: IntoIterator<Item = A::Item>>(items: I) -> Self {
            SmallVec(items.into_iter().collect())
        }
    }
    impl<A: Array> Extend<A::Item> for SmallVec<A> {
        fn extend<I: IntoIterator<Item = A::Item>>(&mut self, items: I) {
            self.0.extend(items);
        }
    }
    impl<A: Array> IntoIterator for SmallVec<A> {
        type Item = A::Item;
        type IntoIter = std::vec::IntoIter<A::Item>;
        fn into_iter(self) -> Self::IntoIter {
            self.0.into_iter()
        }
    }
    impl<'a, A: Array> IntoIterator for &'a SmallVec<A> {
        type Item = &'a A::Item;
        type IntoIter = std::slice::Iter<'a, A::Item>;
        fn into_iter(self) -> Self::IntoIter {
            self.0.iter()
        }
    }
}

/// Hash maps and sets with std's hasher under a fixed key. The text never
/// answers by the order of a map, so the hash function does not matter.
pub mod rustc_hash {
    use std::collections::hash_map::DefaultHasher;
    use std::collections::{HashMap, HashSet};
    use std::hash::BuildHasherDefault;

    pub type FxHashMap<K, V> = HashMap<K, V, BuildHasherDefault<DefaultHasher>>;
    pub type FxHashSet<T> = HashSet<T, BuildHasherDefault<DefaultHasher>>;
}

/// Strings; equality and order are those of the bytes.
pub mod smol_str {
    #[derive(Debug, Clone, PartialEq, Eq, Hash, PartialOrd, Ord)]
    pub struct SmolStr(String);

    impl From<&str> for SmolStr {
        fn from(text: &str) -> Self {
            SmolStr(text.to_string())
        }
    }
}

/// Logging: nothing is written.
pub mod log {
    macro_rules! warn_quietly {
        ($($part:tt)*) => {};
    }
    pub(crate) use warn_quietly as warn;
}

/// Stack growth: the runs take place on a thread whose stack is large enough
/// for every accepted table (`run::on_large_stack`), so nothing grows.
pub mod stacker {
    pub fn maybe_grow<R>(_red_zone: usize, _size: usize, f: impl FnOnce() -> R) -> R {
        f()
    }
}

/// The text calls `lang_ast::stack`; the file it shows is lang_ty's stack.rs.
pub mod lang_ast {
    pub use crate::text::lang_ty::stack;
}
