//! Pages of RAM that are named.

use crate::raw;

/// Pages of RAM that were written, as [`Lent::give_back`](crate::Lent::give_back), [`Machine::mark`](crate::Machine::mark) and
/// [`Machine::push`](crate::Machine::push) take them: those of a list, those of a bitmap, both, all or none.
///
/// Pages have the numbers 0, 1 and so on from RAM's first byte, whatever its base: that of a guest-physical address is
/// `(address - base) / 4096`.
#[derive(Clone, Copy, Debug, Default, PartialEq, Eq, Hash)]
pub struct Pages<'a> {
    list: &'a [u32],
    words: &'a [u64],
    first: u32,
    span: u32,
    is_all: bool,
}

impl<'a> Pages<'a> {
    /// No page.
    pub const NONE: Pages<'static> = Pages { list: &[], words: &[], first: 0, span: 0, is_all: false };

    /// Every page.
    pub const ALL: Pages<'static> = Pages { is_all: true, ..Pages::NONE };

    /// These pages, in any order, and one may be there twice. A list takes no memory.
    #[must_use]
    pub fn list(list: &'a [u32]) -> Pages<'a> {
        Pages { list, ..Pages::NONE }
    }

    /// Those of a bitmap, as the ioctl `KVM_GET_DIRTY_LOG` fills it: bit k of word n, the lowest being bit 0, is page 64 * n + k. It reaches to
    /// RAM's end; no words name no page.
    #[must_use]
    pub fn bitmap(words: &'a [u64]) -> Pages<'a> {
        Pages { words, ..Pages::NONE }
    }

    /// Those of a bitmap of a part of RAM, as a memory slot has it: of `span` pages from `first` on. A span of 0 reaches to RAM's end.
    #[must_use]
    pub fn bitmap_of(first: u32, span: u32, words: &'a [u64]) -> Pages<'a> {
        Pages { words, first, span, ..Pages::NONE }
    }

    /// These pages too.
    #[must_use]
    pub fn and_list(self, list: &'a [u32]) -> Pages<'a> {
        Pages { list, ..self }
    }

    /// The same as C has it. Its pointers are valid for as long as the slices are.
    pub(crate) fn raw(&self) -> raw::Pages {
        let Pages { list, words, first, span, is_all } = *self;
        let (list, count, words, count_words) = (list.as_ptr(), list.len(), words.as_ptr(), words.len());
        raw::Pages { list, count, words, count_words, first, span, all: is_all.into(), ..raw::NO_PAGES }
    }
}

impl<'a> From<&'a [u32]> for Pages<'a> {
    fn from(list: &'a [u32]) -> Pages<'a> {
        Pages::list(list)
    }
}
