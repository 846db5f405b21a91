//! A slice that is lent to a call: on the heap, or flush with a page that faults when touched.

use std::fmt;
use std::mem::ManuallyDrop;
use std::ops::{Deref, DerefMut};
use std::slice;

use crate::generate::Random;
use crate::guard::Region;

/// Which end of a lent slice touches a page that faults. On the other side a margin of bytes is
/// looked at after the call instead.
#[derive(Clone, Copy, Debug, PartialEq, Eq)]
pub enum Side {
    Start,
    End,
}

impl Side {
    pub fn drawn(random: &mut Random) -> Side {
        if random.percent(50) {
            Side::Start
        } else {
            Side::End
        }
    }
}

/// Bytes beside a slice that must stay as they are, where its page has as many.
const MARGIN: usize = 256;
const UNTOUCHED: u8 = 0xa5;

/// A slice of fixed length that its owner lends to calls.
pub struct Lent<T: Copy>(Memory<T>);

enum Memory<T: Copy> {
    Heap(Box<[T]>),
    Guarded(Guarded<T>),
}

/// Where a lent slice lies.
#[derive(Clone, Copy, Debug)]
pub struct Span {
    pub name: &'static str,
    pub start: usize,
    pub bytes: usize,
    /// Whether the bytes beside it are as they were.
    pub intact: bool,
}

impl<T: Copy> Lent<T> {
    /// This content on pages of its own: one end of it touches a page that faults.
    pub fn beside_guard(content: &[T], side: Side) -> Lent<T> {
        Lent(Memory::Guarded(Guarded::new(content, side)))
    }

    pub fn span(&self, name: &'static str) -> Span {
        let intact = match &self.0 {
            Memory::Heap(_) => true,
            Memory::Guarded(guarded) => guarded.margin().iter().all(|byte| *byte == UNTOUCHED),
        };
        Span { name, start: self.as_ptr() as usize, bytes: size_of_val(&self[..]), intact }
    }
}

impl<T: Copy> From<Vec<T>> for Lent<T> {
    fn from(entries: Vec<T>) -> Lent<T> {
        Lent(Memory::Heap(entries.into()))
    }
}

impl<T: Copy> Default for Lent<T> {
    fn default() -> Lent<T> {
        Lent::from(Vec::new())
    }
}

impl<T: Copy> Clone for Lent<T> {
    fn clone(&self) -> Lent<T> {
        Lent(match &self.0 {
            Memory::Heap(entries) => Memory::Heap(entries.clone()),
            Memory::Guarded(guarded) => Memory::Guarded(Guarded::new(self, guarded.side)),
        })
    }
}

impl<T: Copy> Deref for Lent<T> {
    type Target = [T];

    fn deref(&self) -> &[T] {
        match &self.0 {
            Memory::Heap(entries) => entries,
            // SAFETY: `new` wrote so many entries there, and the region is this slice's own.
            Memory::Guarded(guarded) => unsafe {
                slice::from_raw_parts(guarded.entries, guarded.length)
            },
        }
    }
}

impl<T: Copy> DerefMut for Lent<T> {
    fn deref_mut(&mut self) -> &mut [T] {
        match &mut self.0 {
            Memory::Heap(entries) => entries,
            // SAFETY: as above, and it is borrowed as a whole.
            Memory::Guarded(guarded) => unsafe {
                slice::from_raw_parts_mut(guarded.entries, guarded.length)
            },
        }
    }
}

impl<T: Copy + PartialEq> PartialEq for Lent<T> {
    fn eq(&self, other: &Lent<T>) -> bool {
        self[..] == other[..]
    }
}

impl<T: Copy + Eq> Eq for Lent<T> {}

impl<T: Copy + fmt::Debug> fmt::Debug for Lent<T> {
    fn fmt(&self, f: &mut fmt::Formatter) -> fmt::Result {
        self[..].fmt(f)
    }
}

/// Entries in a region, at its start or at its end.
struct Guarded<T> {
    region: ManuallyDrop<Region>,
    side: Side,
    entries: *mut T,
    length: usize,
}

// SAFETY: the entries lie in the region, which is this slice's own.
unsafe impl<T: Send> Send for Guarded<T> {}
unsafe impl<T: Sync> Sync for Guarded<T> {}

impl<T: Copy> Guarded<T> {
    fn new(content: &[T], side: Side) -> Guarded<T> {
        let bytes = size_of_val(content);
        let region = ManuallyDrop::new(Region::take(bytes));
        let skipped = match side {
            Side::Start => 0,
            Side::End => region.bytes() - bytes,
        };
        // SAFETY: the region has as many bytes; pages and sizes keep the alignment of `T`.
        let entries = unsafe {
            let entries = region.start().add(skipped).cast::<T>();
            entries.copy_from_nonoverlapping(content.as_ptr(), content.len());
            entries
        };
        let mut guarded = Guarded { region, side, entries, length: content.len() };
        guarded.margin_mut().fill(UNTOUCHED);
        guarded
    }

    /// Address and length of the margin, on the side without a guard.
    fn margin_place(&self) -> (*mut u8, usize) {
        let bytes = self.length * size_of::<T>();
        let length = MARGIN.min(self.region.bytes() - bytes);
        let skipped = match self.side {
            Side::Start => bytes,
            Side::End => self.region.bytes() - bytes - length,
        };
        (self.region.start().wrapping_add(skipped), length)
    }

    fn margin(&self) -> &[u8] {
        let (at, length) = self.margin_place();
        // SAFETY: within the region and apart from the entries; `new` filled it.
        unsafe { slice::from_raw_parts(at, length) }
    }

    fn margin_mut(&mut self) -> &mut [u8] {
        let (at, length) = self.margin_place();
        // SAFETY: within the region and apart from the entries; fresh pages hold zeros.
        unsafe { slice::from_raw_parts_mut(at, length) }
    }
}

impl<T> Drop for Guarded<T> {
    fn drop(&mut self) {
        // SAFETY: taken once, here.
        unsafe { ManuallyDrop::take(&mut self.region) }.give_back();
    }
}
