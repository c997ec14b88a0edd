//! A machine that is sent while it runs.

use crate::error::{Error, done};
use crate::machine::Machine;
use crate::raw;

/// What is left to be sent.
#[derive(Clone, Copy, Debug, Default, PartialEq, Eq, Hash)]
#[non_exhaustive]
pub struct Left {
    /// Due in this round.
    pub due_pages: u64,
    /// Due in this round.
    pub due_sectors: u64,
    /// Written since they were sent; of RAM that was lent, as far as named.
    pub dirty_pages: u64,
    /// Written since they were sent.
    pub dirty_sectors: u64,
    /// A stop would write at most so many bytes; 0 of a stopped machine.
    pub stop_bytes: u64,
}

/// What is sent next.
#[derive(Clone, Copy, Debug, PartialEq, Eq, Hash)]
pub enum Due {
    /// This page.
    Page(u32),
    /// No page is due any more in this round, and sectors are.
    Sectors,
    /// Nothing is due in this round.
    Nothing,
}

/// It is sent while it runs: `send_begin`, then `send_some` and `send_round` as often as the host likes, then `send_stop`.
impl Machine {
    /// It begins to be sent: every page and sector is due in round 1.
    pub fn send_begin(&mut self) -> Result<(), Error> {
        // SAFETY: the handle is of this machine.
        done(unsafe { raw::vmig_send_begin(&mut self.held) }).map(drop)
    }

    /// As [`Machine::send_begin`], but the library digests nothing: the host digests what it takes, as on a thread of its own, and tells the
    /// digest by [`Machine::send_tell`] after the stop.
    pub fn send_begin_told(&mut self) -> Result<(), Error> {
        // SAFETY: as above.
        done(unsafe { raw::vmig_send_begin_as(&mut self.held, raw::TOLD) }).map(drop)
    }

    /// The SHA-256 of all bytes of a stream but the last 33, in their order. These can be taken after it. Nobody compares it here: whoever
    /// receives the stream refuses another one ([`Error::StreamBadDigest`]), and the machine is still here.
    ///
    /// `NotAsked` without [`Machine::send_begin_told`], before the stop, and of a second one.
    pub fn send_tell(&mut self, digest: &[u8; 32]) -> Result<(), Error> {
        // SAFETY: as above, and the array is valid for the call.
        done(unsafe { raw::vmig_send_tell(&mut self.held, digest) }).map(drop)
    }

    /// Copies up to `most` of the pages and sectors that are due in this round. Whether something is due after it. Their bytes wait until they
    /// are taken, and are digested then.
    pub fn send_some(&mut self, most: u32) -> Result<bool, Error> {
        // SAFETY: as above.
        let status = done(unsafe { raw::vmig_send_some(&mut self.held, most) })?;
        Ok(status != raw::ROUND_DONE)
    }

    /// What is sent next in this round.
    pub fn send_next(&self) -> Result<Due, Error> {
        let mut page = 0;
        // SAFETY: as above.
        match done(unsafe { raw::vmig_send_next(&self.held, &mut page) })? {
            raw::ROUND_DONE => Ok(Due::Nothing),
            raw::SECTORS => Ok(Due::Sectors),
            _ => Ok(Due::Page(page)),
        }
    }

    /// Ends the round, if nothing is due in it, and tells whether it did.
    pub fn send_round(&mut self) -> Result<bool, Error> {
        // SAFETY: as above.
        let status = done(unsafe { raw::vmig_send_round(&mut self.held) })?;
        Ok(status != raw::ROUND_OPEN)
    }

    /// Copies all that is left, and closes the stream: how many pages and sectors it copied. The guest is paused from here on. Take what waits
    /// before it: what was not taken is digested in this call, while the guest stands, unless the host tells the digest. `CallsOut`: a call of a
    /// disk is out ([`Machine::disk_call`]).
    pub fn send_stop(&mut self) -> Result<(u64, u64), Error> {
        let (mut pages, mut sectors) = (0, 0);
        // SAFETY: as above.
        done(unsafe { raw::vmig_send_stop(&mut self.held, &mut pages, &mut sectors) })?;
        Ok((pages, sectors))
    }

    /// The machine continues as one that was never sent. After a stop that was done only where nobody runs what was sent, and nobody will.
    pub fn send_abort(&mut self) -> Result<(), Error> {
        // SAFETY: as above.
        done(unsafe { raw::vmig_send_abort(&mut self.held) }).map(drop)
    }

    /// What is left to be sent.
    pub fn send_left(&self) -> Result<Left, Error> {
        let mut left = raw::Left::default();
        // SAFETY: as above.
        done(unsafe { raw::vmig_send_left(&self.held, &mut left) })?;
        let raw::Left { due_pages, due_sectors, dirty_pages, dirty_sectors, stop_bytes, .. } = left;
        Ok(Left { due_pages, due_sectors, dirty_pages, dirty_sectors, stop_bytes })
    }

    /// Takes the first of the bytes that wait, as many as the buffer holds, and tells how many these are. Where the host tells the digest, and
    /// has not told it yet, the last 33 bytes of the stream are not among them.
    pub fn send_take(&mut self, buf: &mut [u8]) -> Result<usize, Error> {
        let mut got = 0;
        // SAFETY: as above, and the slice is valid for the call.
        done(unsafe { raw::vmig_send_take(&mut self.held, buf.as_mut_ptr(), buf.len(), &mut got) })?;
        Ok(got)
    }

    /// The whole stream of the machine, which continues. A machine that is being sent is refused. Flush the storage of its disks outside before the
    /// bytes are good: what was answered and not flushed lies in a cache, and no guest will write it again.
    pub fn save(&self) -> Result<Vec<u8>, Error> {
        let mut stream = vec![0; self.saved_len()?];
        let len = self.save_into(&mut stream)?;
        debug_assert_eq!(len, stream.len(), "nothing happens between two calls");
        Ok(stream)
    }

    /// The same into the front of a buffer, and how many bytes these are. The library makes the stream in memory of its own first.
    ///
    /// `TooSmall` where the buffer has fewer than [`Machine::saved_len`] bytes: it is as it was then.
    pub fn save_into(&self, buf: &mut [u8]) -> Result<usize, Error> {
        let mut len = 0;
        // SAFETY: as above, and the slice is valid for the call.
        match done(unsafe { raw::vmig_save(&self.held, buf.as_mut_ptr(), buf.len(), &mut len) })? {
            raw::MORE => Err(Error::TooSmall),
            _ => Ok(len),
        }
    }

    /// How many bytes [`Machine::save`] would give. It looks at each page of RAM, since a page of zeros takes 5 bytes of a stream and another one
    /// 4,101, and takes no memory.
    pub fn saved_len(&self) -> Result<usize, Error> {
        let mut len = 0;
        // SAFETY: as above, and a buffer of no bytes is not looked at.
        done(unsafe { raw::vmig_save(&self.held, std::ptr::null_mut(), 0, &mut len) })?;
        Ok(len)
    }
}
