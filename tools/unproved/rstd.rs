//! What stands for Rattle's library in the plain Rust that translating.py makes of the sources. Nothing here runs out of
//! memory; a call that may do so in Rattle only has the type of one that may.

pub use std::{cmp, error, fmt, hint, iter, mem, num, ops, slice, str, time};

pub use crate::host::{env, fs, io, process, sync, thread};

use std::ops::{Deref, DerefMut, Index, IndexMut};
use std::slice::SliceIndex;

use alloc::{AllocError, Global};

pub mod alloc {
    #[derive(Clone, Copy, Debug)]
    pub struct Global;
    #[derive(Clone, Copy, Debug)]
    pub struct AllocError;
    pub struct AllocFailed<T>(pub T);

    impl<T> From<AllocFailed<T>> for AllocError {
        fn from(_: AllocFailed<T>) -> AllocError {
            AllocError
        }
    }
}

pub mod marker {
    pub use std::marker::{PhantomData, Send, Sync};

    pub trait Model {}

    /// Of which thing something is said: it has no bytes.
    pub type Brand = ();
}

pub mod snapshot {
    use std::marker::PhantomData;

    /// A value as it was, which only clauses see.
    pub struct Snapshot<T>(PhantomData<fn() -> T>);

    impl<T> Snapshot<T> {
        pub fn of(_: &T) -> Snapshot<T> {
            Snapshot(PhantomData)
        }
    }
}

pub mod prelude {
    pub use super::{Box, String, Vec};
    pub use crate::host::HostRuntime;
}

/// A text in new memory.
#[macro_export]
macro_rules! format_in { ($alloc:expr; $($part:tt)*) => { $crate::rstd::String::written($alloc, format_args!($($part)*)) } }

#[macro_export]
macro_rules! prove { ($($condition:tt)*) => {} }
#[macro_export]
macro_rules! prove_eq { ($($condition:tt)*) => {} }

type Done<T = ()> = Result<T, AllocError>;

#[derive(PartialEq, Eq, PartialOrd, Ord)]
pub struct Vec<T>(std::vec::Vec<T>);

pub fn vec_of<T: Clone>(_: Global, item: T, count: usize) -> Done<Vec<T>> {
    Ok(Vec(vec![item; count]))
}

pub fn vec_from<T, const N: usize>(_: Global, items: [T; N]) -> Done<Vec<T>> {
    Ok(Vec(std::vec::Vec::from(items)))
}

impl<T> Vec<T> {
    #[inline(always)]
    pub fn new(_: Global) -> Vec<T> {
        Vec(std::vec::Vec::new())
    }
    #[inline(always)]
    pub fn with_capacity(_: Global, count: usize) -> Done<Vec<T>> {
        Ok(Vec(std::vec::Vec::with_capacity(count)))
    }
    #[inline(always)]
    pub fn push(&mut self, item: T) -> Result<(), alloc::AllocFailed<T>> {
        self.0.push(item);
        Ok(())
    }
    #[inline(always)]
    pub fn push_reserved(&mut self, item: T) {
        let count = self.0.len();
        assert!(count < self.0.capacity());
        unsafe {
            self.0.as_mut_ptr().add(count).write(item);
            self.0.set_len(count + 1);
        }
    }
    pub fn reserve(&mut self, more: usize) -> Done {
        self.0.reserve(more);
        Ok(())
    }
    pub fn reserve_exact(&mut self, more: usize) -> Done {
        self.0.reserve_exact(more);
        Ok(())
    }
    #[inline(always)]
    pub fn as_slice(&self) -> &[T] {
        &self.0
    }
    #[inline(always)]
    pub fn as_mut_slice(&mut self) -> &mut [T] {
        &mut self.0
    }
    pub fn pop(&mut self) -> Option<T> {
        self.0.pop()
    }
    #[inline(always)]
    pub fn clear(&mut self) {
        self.0.clear()
    }
    pub fn insert(&mut self, index: usize, item: T) -> Result<(), alloc::AllocFailed<T>> {
        self.0.insert(index, item);
        Ok(())
    }

    pub fn remove(&mut self, index: usize) -> T {
        self.0.remove(index)
    }

    #[inline(always)]
    pub fn truncate(&mut self, count: usize) {
        self.0.truncate(count)
    }
    pub fn shrink_to_fit(&mut self) {
        self.0.shrink_to_fit();
    }
    pub fn sort(&mut self) -> Done
    where
        T: Ord,
    {
        self.0.sort();
        Ok(())
    }
    pub fn retain(&mut self, test: impl FnMut(&T) -> bool) {
        self.0.retain(test)
    }
    pub fn dedup(&mut self)
    where
        T: PartialEq,
    {
        self.0.dedup()
    }
}

impl<T: Clone> Vec<T> {
    pub fn from_slice(_: Global, items: &[T]) -> Done<Vec<T>> {
        Ok(Vec(items.to_vec()))
    }
    #[inline(always)]
    pub fn extend_from_slice(&mut self, items: &[T]) -> Done {
        self.0.extend_from_slice(items);
        Ok(())
    }
}

impl<T> Deref for Vec<T> {
    type Target = [T];
    #[inline(always)]
    fn deref(&self) -> &[T] {
        &self.0
    }
}

impl<T> DerefMut for Vec<T> {
    #[inline(always)]
    fn deref_mut(&mut self) -> &mut [T] {
        &mut self.0
    }
}

impl<T, I: SliceIndex<[T]>> Index<I> for Vec<T> {
    type Output = I::Output;
    #[inline(always)]
    fn index(&self, at: I) -> &I::Output {
        &self.0[at]
    }
}

impl<T, I: SliceIndex<[T]>> IndexMut<I> for Vec<T> {
    #[inline(always)]
    fn index_mut(&mut self, at: I) -> &mut I::Output {
        &mut self.0[at]
    }
}

impl<T> IntoIterator for Vec<T> {
    type Item = T;
    type IntoIter = std::vec::IntoIter<T>;
    fn into_iter(self) -> Self::IntoIter {
        self.0.into_iter()
    }
}

impl<'a, T> IntoIterator for &'a Vec<T> {
    type Item = &'a T;
    type IntoIter = std::slice::Iter<'a, T>;
    fn into_iter(self) -> Self::IntoIter {
        self.0.iter()
    }
}

impl<T> std::borrow::Borrow<[T]> for Vec<T> {
    fn borrow(&self) -> &[T] {
        &self.0
    }
}

pub struct String(std::string::String);

impl String {
    pub fn written(_: Global, text: std::fmt::Arguments) -> Done<String> {
        Ok(String(text.to_string()))
    }
    pub fn of(text: std::string::String) -> String {
        String(text)
    }
    pub fn into_bytes(self) -> Vec<u8> {
        Vec(self.0.into_bytes())
    }
    pub fn as_str(&self) -> &str {
        &self.0
    }
    pub fn from_str(_: Global, text: &str) -> Done<String> {
        Ok(String(text.to_string()))
    }
    #[inline(always)]
    pub fn as_bytes(&self) -> &[u8] {
        self.0.as_bytes()
    }
}

pub struct Box<T>(std::boxed::Box<T>);

impl<T> Box<T> {
    pub fn new(_: Global, item: T) -> Done<Box<T>> {
        Ok(Box(std::boxed::Box::new(item)))
    }
    #[inline(always)]
    pub fn into_inner(this: Box<T>) -> T {
        *this.0
    }
}

impl<T> Deref for Box<T> {
    type Target = T;
    #[inline(always)]
    fn deref(&self) -> &T {
        &self.0
    }
}

impl<T> DerefMut for Box<T> {
    #[inline(always)]
    fn deref_mut(&mut self) -> &mut T {
        &mut self.0
    }
}

pub mod collections {
    pub use std::collections::LinkedList;

    use super::alloc::{AllocError, AllocFailed, Global};
    use std::borrow::Borrow;
    use std::ops::{Deref, DerefMut};

    pub struct VecDeque<T>(std::collections::VecDeque<T>);

    impl<T> VecDeque<T> {
        pub fn new(_: Global) -> VecDeque<T> {
            VecDeque(std::collections::VecDeque::new())
        }
        pub fn insert(&mut self, place: usize, item: T) -> Result<(), AllocFailed<T>> {
            self.0.insert(place, item);
            Ok(())
        }
        pub fn reserve(&mut self, more: usize) -> Result<(), AllocError> {
            self.0.reserve(more);
            Ok(())
        }
        pub fn push_back_reserved(&mut self, item: T) {
            self.0.push_back(item);
        }
    }

    impl<T> Deref for VecDeque<T> {
        type Target = std::collections::VecDeque<T>;
        fn deref(&self) -> &Self::Target {
            &self.0
        }
    }

    impl<T> DerefMut for VecDeque<T> {
        fn deref_mut(&mut self) -> &mut Self::Target {
            &mut self.0
        }
    }

    pub struct BTreeSet<K>(std::collections::BTreeSet<K>);

    impl<K: Ord> BTreeSet<K> {
        pub fn new(_: Global) -> BTreeSet<K> {
            BTreeSet(std::collections::BTreeSet::new())
        }
        pub fn len(&self) -> usize {
            self.0.len()
        }
        pub fn insert(&mut self, key: K) -> Result<bool, AllocError> {
            Ok(self.0.insert(key))
        }
        pub fn remove(&mut self, key: &K) -> bool {
            self.0.remove(key)
        }
        pub fn range<R: std::ops::RangeBounds<K>>(&self, range: R) -> std::collections::btree_set::Range<'_, K> {
            self.0.range(range)
        }
    }

    pub struct BTreeMap<K, V>(std::collections::BTreeMap<K, V>);

    impl<K: Ord, V> BTreeMap<K, V> {
        pub fn new(_: Global) -> BTreeMap<K, V> {
            BTreeMap(std::collections::BTreeMap::new())
        }
        pub fn is_empty(&self) -> bool {
            self.0.is_empty()
        }
        pub fn len(&self) -> usize {
            self.0.len()
        }
        pub fn values(&self) -> std::collections::btree_map::Values<'_, K, V> {
            self.0.values()
        }
        pub fn insert(&mut self, key: K, value: V) -> Result<Option<V>, AllocError> {
            Ok(self.0.insert(key, value))
        }
        pub fn contains_key<Q: Ord + ?Sized>(&self, key: &Q) -> bool
        where
            K: Borrow<Q>,
        {
            self.0.contains_key(key)
        }
        pub fn get<Q: Ord + ?Sized>(&self, key: &Q) -> Option<&V>
        where
            K: Borrow<Q>,
        {
            self.0.get(key)
        }
        pub fn get_mut<Q: Ord + ?Sized>(&mut self, key: &Q) -> Option<&mut V>
        where
            K: Borrow<Q>,
        {
            self.0.get_mut(key)
        }
        pub fn remove<Q: Ord + ?Sized>(&mut self, key: &Q) -> Option<V>
        where
            K: Borrow<Q>,
        {
            self.0.remove(key)
        }
        pub fn keys(&self) -> std::collections::btree_map::Keys<'_, K, V> {
            self.0.keys()
        }
    }
}

pub mod memchr {
    extern "C" {
        #[link_name = "memchr"]
        fn find(bytes: *const u8, byte: i32, count: usize) -> *const u8;
    }

    #[inline(always)]
    pub fn memchr(byte: u8, bytes: &[u8]) -> Option<usize> {
        let found = unsafe { find(bytes.as_ptr(), i32::from(byte), bytes.len()) };
        (!found.is_null()).then(|| found as usize - bytes.as_ptr() as usize)
    }

    pub fn memchr2(one: u8, other: u8, bytes: &[u8]) -> Option<usize> {
        bytes.iter().position(|byte| *byte == one || *byte == other)
    }
}

pub mod itoa {
    /// The most digits of a number of 64 bits.
    const ROOM: usize = 20;

    pub struct Buffer([u8; ROOM]);

    impl Buffer {
        #[inline(always)]
        pub fn new() -> Buffer {
            Buffer([0; ROOM])
        }
        #[inline(always)]
        pub fn format<T: Into<u64>>(&mut self, number: T) -> &str {
            let (mut left, mut at) = (number.into(), ROOM);
            loop {
                at -= 1;
                self.0[at] = b'0' + (left % 10) as u8;
                left /= 10;
                if left == 0 {
                    return unsafe { std::str::from_utf8_unchecked(&self.0[at..]) };
                }
            }
        }
    }
}

pub mod simd {
    pub mod prelude {
        use core::arch::x86_64::{__m128i, _mm_cmpeq_epi8, _mm_max_epu8, _mm_movemask_epi8, _mm_set1_epi8};

        /// Lanes of 8 bits, 16 to a register: of 8 lanes the others are 0.
        macro_rules! lanes {
            ($lanes:ident, $mask:ident, $count:literal, $registers:literal) => {
                #[derive(Clone, Copy)]
                pub struct $lanes([__m128i; $registers]);
                /// A bit for each lane.
                #[derive(Clone, Copy)]
                pub struct $mask(u64);

                impl $lanes {
                    #[inline(always)]
                    pub fn from_slice(bytes: &[u8]) -> $lanes {
                        let mut lanes = [0u8; 16 * $registers];
                        lanes[..$count].copy_from_slice(&bytes[..$count]);
                        $lanes(unsafe { std::mem::transmute(lanes) })
                    }
                    #[inline(always)]
                    pub fn splat(byte: u8) -> $lanes {
                        $lanes([unsafe { _mm_set1_epi8(byte as i8) }; $registers])
                    }
                    /// The lanes of a register that are equal in these two.
                    #[inline(always)]
                    fn equal(one: __m128i, other: __m128i) -> u64 {
                        unsafe { u64::from(_mm_movemask_epi8(_mm_cmpeq_epi8(one, other)) as u32) }
                    }
                    #[inline(always)]
                    fn masked(self, test: impl Fn(__m128i, usize) -> u64) -> $mask {
                        let mut bits = 0;
                        for place in 0..$registers {
                            bits |= test(self.0[place], place) << (16 * place);
                        }
                        $mask(bits & ((1 << $count) - 1))
                    }
                    #[inline(always)]
                    pub fn simd_eq(self, other: $lanes) -> $mask {
                        self.masked(|own, place| Self::equal(own, other.0[place]))
                    }
                    #[inline(always)]
                    pub fn simd_lt(self, other: $lanes) -> $mask {
                        // what isn't the greater of both is the lesser
                        self.masked(|own, place| !Self::equal(unsafe { _mm_max_epu8(own, other.0[place]) }, own) & 0xffff)
                    }
                }

                impl $mask {
                    #[inline(always)]
                    pub fn to_bitmask(self) -> u64 {
                        self.0
                    }
                }
            };
        }

        lanes!(u8x8, Mask8, 8, 1);
        lanes!(u8x16, Mask16, 16, 1);
        lanes!(u8x32, Mask32, 32, 2);
    }
}
