#![doc = include_str!("../README.md")]
//!
//! # What does not compile
//! No slice of RAM is in use once RAM goes back:
//! ```compile_fail,E0505
//! # use vm_memory::{GuestAddress, GuestMemory};
//! # fn program(ram: vmig_vm_memory::GuestRam<vmig::Lent>) {
//! let slice = ram.get_slice(GuestAddress(0), 8).unwrap();
//! let (lent, written) = ram.into_parts();
//! slice.copy_from(&[1_u8]);
//! # }
//! ```

mod region;
mod written;

pub use region::RamRegion;
pub use written::{WrittenPages, WrittenSlice};

use std::fmt;
use std::iter::{Once, once};
use vm_memory::guest_memory::GuestMemoryIterator;
use vm_memory::{GuestAddress, GuestMemory, GuestMemoryRegion};
use vmig::{Lent, Memory};

/// RAM as a [`GuestMemory`] of one region. It owns what it was made of, a [`Memory`] or a [`Lent`], until [`GuestRam::into_parts`].
pub struct GuestRam<Owner> {
    region: RamRegion,
    owner: Owner,
}

// SAFETY: the pointer of the region is to bytes of the owner, which goes with it.
unsafe impl<Owner: Send> Send for GuestRam<Owner> {}

// SAFETY: by a shared reference nothing of the owner is reached, and the bytes are read and written as volatile, as those that a guest writes too.
unsafe impl<Owner> Sync for GuestRam<Owner> {}

impl GuestRam<Lent> {
    /// RAM that is lent, from the base of its machine on.
    #[must_use]
    pub fn of_lent(mut lent: Lent) -> GuestRam<Lent> {
        let (base, len) = (GuestAddress(lent.base()), lent.ram().len());
        // SAFETY: the loan has these bytes, whole pages of which none is past the last address, until it is given back. It lies in the result
        // until then, where nobody reaches it.
        let region = unsafe { RamRegion::new(lent.as_mut_ptr(), len, base) };
        GuestRam { region, owner: lent }
    }
}

impl GuestRam<Memory> {
    /// Memory for a machine whose RAM will begin at this base, as for a loader. It is handed back where it has no bytes, or would reach past the last
    /// address.
    pub fn of_memory(mut memory: Memory, base: GuestAddress) -> Result<GuestRam<Memory>, Memory> {
        let last = (memory.len() as u64).checked_sub(1).and_then(|last| base.0.checked_add(last));
        if last.is_none() {
            return Err(memory);
        }
        let len = memory.len();
        // SAFETY: the memory has these bytes until it is dropped. It lies in the result until then, where nobody reaches it.
        let region = unsafe { RamRegion::new(memory.as_mut_ptr(), len, base) };
        Ok(GuestRam { region, owner: memory })
    }
}

impl<Owner> GuestRam<Owner> {
    /// What it was made of, and the numbers of the pages that were written through it, ascending: name them by [`vmig::Pages::list`] where RAM goes
    /// back.
    #[must_use]
    pub fn into_parts(self) -> (Owner, Vec<u32>) {
        (self.owner, self.region.bitmap().pages())
    }
}

// Not that of the owner, of which nothing is reached by a shared reference.
impl<Owner> fmt::Debug for GuestRam<Owner> {
    fn fmt(&self, f: &mut fmt::Formatter<'_>) -> fmt::Result {
        f.debug_struct("GuestRam").field("region", &self.region).finish_non_exhaustive()
    }
}

impl<Owner> GuestMemory for GuestRam<Owner> {
    type R = RamRegion;
    type I = RamRegion;

    fn num_regions(&self) -> usize {
        1
    }

    fn find_region(&self, addr: GuestAddress) -> Option<&RamRegion> {
        self.region.to_region_addr(addr).map(|_| &self.region)
    }

    fn iter(&self) -> Once<&RamRegion> {
        once(&self.region)
    }
}

impl<'a> GuestMemoryIterator<'a, RamRegion> for RamRegion {
    type Iter = Once<&'a RamRegion>;
}
