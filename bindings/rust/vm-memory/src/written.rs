//! Which pages were written.

use std::sync::atomic::{AtomicU64, Ordering};
use vm_memory::bitmap::{Bitmap, BitmapSlice, WithBitmapSlice};

const PAGE: usize = 4096;

/// A bit for each page of RAM, which is set where it is written through a [`GuestRam`](crate::GuestRam), and never cleared.
#[derive(Debug)]
pub struct WrittenPages {
    words: Box<[AtomicU64]>,
}

impl WrittenPages {
    pub(crate) fn new(len: usize) -> WrittenPages {
        let words = len.div_ceil(PAGE).div_ceil(64);
        WrittenPages { words: (0..words).map(|_| AtomicU64::new(0)).collect() }
    }

    /// The numbers of those that were written, ascending.
    #[must_use]
    pub fn pages(&self) -> Vec<u32> {
        let words = (0_u32..).step_by(64).zip(&self.words);
        let bits = words.flat_map(|(first, word)| {
            let word = word.load(Ordering::Relaxed);
            (0..64).filter(move |bit| word >> bit & 1 == 1).map(move |bit| first + bit)
        });
        bits.collect()
    }

    fn mark(&self, page: usize) {
        if let Some(word) = self.words.get(page / 64) {
            word.fetch_or(1 << (page % 64), Ordering::Relaxed);
        }
    }
}

impl<'a> WithBitmapSlice<'a> for WrittenPages {
    type S = WrittenSlice<'a>;
}

impl Bitmap for WrittenPages {
    fn mark_dirty(&self, offset: usize, len: usize) {
        if let Some(last) = len.checked_sub(1) {
            (offset / PAGE..=offset.saturating_add(last) / PAGE)
                .take_while(|page| page / 64 < self.words.len())
                .for_each(|page| self.mark(page));
        }
    }

    fn dirty_at(&self, offset: usize) -> bool {
        let page = offset / PAGE;
        self.words.get(page / 64).is_some_and(|word| word.load(Ordering::Relaxed) >> (page % 64) & 1 == 1)
    }

    fn slice_at(&self, offset: usize) -> WrittenSlice<'_> {
        WrittenSlice { pages: self, from: offset }
    }
}

/// The same from an offset on.
#[derive(Clone, Copy, Debug)]
pub struct WrittenSlice<'a> {
    pages: &'a WrittenPages,
    from: usize,
}

impl WithBitmapSlice<'_> for WrittenSlice<'_> {
    type S = Self;
}

impl BitmapSlice for WrittenSlice<'_> {}

impl Bitmap for WrittenSlice<'_> {
    fn mark_dirty(&self, offset: usize, len: usize) {
        self.pages.mark_dirty(self.from.saturating_add(offset), len);
    }

    fn dirty_at(&self, offset: usize) -> bool {
        self.pages.dirty_at(self.from.saturating_add(offset))
    }

    fn slice_at(&self, offset: usize) -> Self {
        WrittenSlice { pages: self.pages, from: self.from.saturating_add(offset) }
    }
}
