//! Why a call was refused.

use crate::raw;
use std::fmt;
use std::io;

/// Why a call was refused. Each is the status of `vmig.h` of the same name, and nothing has changed but for what is said there. `NoMachine`,
/// `InUse`, `Lent` and `NotLent` are here because the header has them: types keep a program from them.
#[derive(Clone, Copy, Debug, PartialEq, Eq, Hash)]
#[repr(u32)]
#[non_exhaustive]
pub enum Error {
    /// There is no device of this number.
    NoDevice = raw::NO_DEVICE,

    /// The access is outside RAM.
    OutOfRam = raw::OUT_OF_RAM,

    /// The access is longer than 4,096 bytes.
    TooLong = raw::TOO_LONG,

    /// The call does not apply to this kind of device, or it has no disk.
    WrongKind = raw::WRONG_KIND,

    /// A frame has fewer than 14 bytes, or more than the longest of its device.
    BadFrame = raw::BAD_FRAME,

    /// The disk has no such sector.
    NoSector = raw::NO_SECTOR,

    /// There is no machine.
    NoMachine = raw::NO_MACHINE,

    /// There is a machine already.
    InUse = raw::IN_USE,

    /// Memory was refused.
    NoMemory = raw::NO_MEMORY,

    /// The buffer is too small.
    TooSmall = raw::TOO_SMALL,

    /// Not 1 to 16 devices, or one that is beyond the limits.
    BadShape = raw::BAD_SHAPE,

    /// The images are not as long as the disks.
    BadImages = raw::BAD_IMAGES,

    /// The machine is not being sent.
    NotSending = raw::NOT_SENDING,

    /// The machine is being sent.
    Sending = raw::SENDING,

    /// Memory was refused for bytes that wait to be taken: the machine can only be sent anew.
    SendFailed = raw::SEND_FAILED,

    /// The machine was stopped.
    Stopped = raw::STOPPED,

    /// 4,294,967,294 rounds have ended.
    NoRoundLeft = raw::NO_ROUND_LEFT,

    /// The RAM is lent.
    Lent = raw::LENT,

    /// The RAM is not lent.
    NotLent = raw::NOT_LENT,

    /// The RAM is in memory of the library.
    NotYours = raw::NOT_YOURS,

    /// The memory is not 1 to 16,384 whole pages, of a large machine 4,294,967,295, or not as long as what was asked for or lent.
    BadRam = raw::BAD_RAM,

    /// The library does not know what is asked for, or this crate what the library has: they are of different versions.
    NotKnown = raw::NOT_KNOWN,

    /// No such call of a disk is out: it is one of another machine.
    NotOut = raw::NOT_OUT,

    /// Calls of disks are out, and have to be answered before.
    CallsOut = raw::CALLS_OUT,

    /// The base is not a multiple of 4,096, or RAM would reach past the last address.
    BadBase = raw::BAD_BASE,

    /// No digest is asked for: the host does not tell it, or the stop was not made, or it was told; or it is not due where a stream arrives. Or the
    /// host tells the digest of what arrives, which is fed by [`feed_some`](crate::Arrival::feed_some) then.
    NotAsked = raw::NOT_ASKED,

    /// Another page is next, or none.
    NotNext = raw::NOT_NEXT,

    /// The stream does not begin with the magic number.
    StreamBadMagic = raw::STREAM_BAD_MAGIC,

    /// The stream has an unknown version.
    StreamBadVersion = raw::STREAM_BAD_VERSION,

    /// The machine of the stream is beyond the limits.
    StreamBadShape = raw::STREAM_BAD_SHAPE,

    /// The machine of the stream has other devices, images or pages of RAM than the arrival names; or its RAM, from the base of the arrival
    /// on, would pass the last address.
    StreamMismatch = raw::STREAM_MISMATCH,

    /// A record's tag is unknown, or not allowed at this point of the stream.
    StreamBadTag = raw::STREAM_BAD_TAG,

    /// There is no page of this number, or the record of a page has only zeros.
    StreamBadPage = raw::STREAM_BAD_PAGE,

    /// There is no such sector.
    StreamBadSector = raw::STREAM_BAD_SECTOR,

    /// The number of a round's end is not the next one.
    StreamBadRound = raw::STREAM_BAD_ROUND,

    /// A device record is out of order, or the device's body is invalid: so it is of most arrivals whose base is not that of the machine that
    /// was sent.
    StreamBadDevice = raw::STREAM_BAD_DEVICE,

    /// The digest is not that of the bytes before it.
    StreamBadDigest = raw::STREAM_BAD_DIGEST,

    /// The stream lacks a page, a sector or a device.
    StreamMissing = raw::STREAM_MISSING,

    /// Bytes follow the digest.
    StreamTrailing = raw::STREAM_TRAILING,

    /// The stream ends before its digest does.
    StreamTruncated = raw::STREAM_TRUNCATED,

    /// Memory was refused for what arrives.
    StreamNoMemory = raw::STREAM_NO_MEMORY,

    /// The stream was refused before.
    StreamFailed = raw::STREAM_FAILED,

    /// The machine that the stream announces is larger than was allowed.
    StreamTooLarge = raw::STREAM_TOO_LARGE,

    /// A status that this crate does not know: the library is newer.
    Unknown = u32::MAX,
}

/// Each error with its text.
const TEXTS: &[(Error, &str)] = &[
    (Error::NoDevice, "no such device"),
    (Error::OutOfRam, "the access is outside RAM"),
    (Error::TooLong, "the access is longer than 4,096 bytes"),
    (Error::WrongKind, "the call does not apply to this kind of device"),
    (Error::BadFrame, "invalid frame length: not 14 bytes to the longest of the device"),
    (Error::NoSector, "no such sector"),
    (Error::NoMachine, "no machine"),
    (Error::InUse, "the handle has a machine already"),
    (Error::NoMemory, "out of memory"),
    (Error::TooSmall, "buffer too small"),
    (Error::BadShape, "invalid machine configuration"),
    (Error::BadImages, "the images do not match the disks"),
    (Error::NotSending, "the machine is not being sent"),
    (Error::Sending, "the machine is being sent"),
    (Error::SendFailed, "out of memory for stream bytes: the migration failed"),
    (Error::Stopped, "machine already stopped"),
    (Error::NoRoundLeft, "round counter exhausted"),
    (Error::Lent, "the RAM is lent"),
    (Error::NotLent, "the RAM is not lent"),
    (Error::NotYours, "the RAM is in memory of the library"),
    (Error::BadRam, "invalid RAM size: not whole pages, none or more than the limits, or not that of the RAM that was lent"),
    (Error::NotKnown, "not supported: the library and this crate are of different versions"),
    (Error::NotOut, "no such call of a disk is out"),
    (Error::CallsOut, "calls of disks are out: answer them before"),
    (Error::BadBase, "invalid base: not a multiple of 4,096, or RAM would reach past the last address"),
    (Error::NotAsked, "no digest is asked for"),
    (Error::NotNext, "another page is next, or none"),
    (Error::StreamBadMagic, "bad magic: not a machine stream"),
    (Error::StreamBadVersion, "unsupported stream version"),
    (Error::StreamBadShape, "invalid machine configuration in the stream"),
    (Error::StreamMismatch, "the machine of the stream is not the one that is expected"),
    (Error::StreamBadTag, "unexpected record in the stream"),
    (Error::StreamBadPage, "invalid page record in the stream"),
    (Error::StreamBadSector, "invalid sector record in the stream"),
    (Error::StreamBadRound, "round end out of order in the stream"),
    (Error::StreamBadDevice, "device record out of order or invalid in the stream"),
    (Error::StreamBadDigest, "digest mismatch"),
    (Error::StreamMissing, "missing page, sector or device in the stream"),
    (Error::StreamTrailing, "trailing bytes after the stream"),
    (Error::StreamTruncated, "truncated stream"),
    (Error::StreamNoMemory, "out of memory for the machine that arrives"),
    (Error::StreamFailed, "the stream was refused already"),
    (Error::StreamTooLarge, "the machine of the stream exceeds the limits that were set"),
    (Error::Unknown, "unknown status: the library is newer than this crate"),
];

impl Error {
    /// The error of a status that is a refusal.
    pub(crate) fn of(status: u32) -> Error {
        let found = TEXTS.iter().find(|(error, _)| *error as u32 == status);
        found.map_or(Error::Unknown, |(error, _)| *error)
    }
}

/// The status of a call that was done, or why it was refused.
pub(crate) fn done(status: u32) -> Result<u32, Error> {
    if (1..64).contains(&status) { Err(Error::of(status)) } else { Ok(status) }
}

impl fmt::Display for Error {
    fn fmt(&self, f: &mut fmt::Formatter<'_>) -> fmt::Result {
        let found = TEXTS.iter().find(|(error, _)| error == self);
        f.write_str(found.map_or("refused", |(_, text)| text))
    }
}

impl std::error::Error for Error {}

/// A call that was refused, and the value that it took, as it was: a machine with its guest, a loan or what was to become one.
///
/// It does not become an [`Error`] by itself, which would drop the value. In a `Box<dyn std::error::Error + Send + Sync>`, and in an error of the
/// crate anyhow, the value is kept, and `downcast` finds it.
///
/// ```
/// use vmig::{Device, Error, Machine, Memory};
///
/// let mut memory = Memory::zeros(2)?;
/// memory[0] = 7;
/// let refused = Machine::builder().memory(memory).base(1).device(Device::Entropy).build().unwrap_err();
/// assert_eq!(refused.error, Error::BadBase);
/// let machine = refused.into_value().base(0x1000).build()?;
/// assert_eq!(machine.into_parts().memory.expect("memory of this program")[0], 7);
/// # Ok::<(), Box<dyn std::error::Error>>(())
/// ```
#[must_use = "it has what the call was given"]
pub struct Refused<T> {
    /// Why it was refused.
    pub error: Error,
    // Out of reach of a shared reference: see below.
    value: T,
}

// SAFETY: by a shared reference nothing of the value is reached, so threads that share one do not share a machine.
unsafe impl<T: Send> Sync for Refused<T> {}

impl<T> Refused<T> {
    pub(crate) const fn new(error: Error, value: T) -> Refused<T> {
        Refused { error, value }
    }

    /// The value.
    pub fn into_value(self) -> T {
        self.value
    }

    /// The value, where it stays.
    pub const fn value_mut(&mut self) -> &mut T {
        &mut self.value
    }

    /// Why it was refused, and the value.
    pub fn into_parts(self) -> (Error, T) {
        (self.error, self.value)
    }
}

impl<T> fmt::Debug for Refused<T> {
    fn fmt(&self, f: &mut fmt::Formatter<'_>) -> fmt::Result {
        f.debug_struct("Refused").field("error", &self.error).finish_non_exhaustive()
    }
}

impl<T> fmt::Display for Refused<T> {
    fn fmt(&self, f: &mut fmt::Formatter<'_>) -> fmt::Result {
        fmt::Display::fmt(&self.error, f)
    }
}

impl<T> std::error::Error for Refused<T> {
    fn source(&self) -> Option<&(dyn std::error::Error + 'static)> {
        Some(&self.error)
    }
}

/// Why a disk was not brought to its file.
#[derive(Debug)]
#[non_exhaustive]
pub enum SyncError {
    /// The call was refused, and nothing was tried.
    Refused(Error),

    /// The system could not do it. The disk is lost from here on: see [`crate::Machine::sync_failed`].
    Failed(io::Error),

    /// The disk was lost before. Nothing was tried: the system tells an error once, so another try could pass for a success.
    Lost,
}

impl fmt::Display for SyncError {
    fn fmt(&self, f: &mut fmt::Formatter<'_>) -> fmt::Result {
        match self {
            SyncError::Refused(error) => error.fmt(f),
            SyncError::Failed(error) => write!(f, "the disk could not be brought to its file: {error}"),
            SyncError::Lost => f.write_str("the disk is lost: bringing it to its file failed before"),
        }
    }
}

impl std::error::Error for SyncError {
    fn source(&self) -> Option<&(dyn std::error::Error + 'static)> {
        match self {
            SyncError::Refused(error) => Some(error),
            SyncError::Failed(error) => Some(error),
            SyncError::Lost => None,
        }
    }
}

impl From<Error> for SyncError {
    fn from(error: Error) -> SyncError {
        SyncError::Refused(error)
    }
}

#[cfg(test)]
mod tests {
    use super::*;
    use std::collections::HashSet;

    /// The statuses of the header that was installed, as (name, number).
    fn in_header() -> Vec<(String, u32)> {
        let text = std::fs::read_to_string(env!("VMIG_HEADER")).expect("the header lies beside the library");
        let lines = text.lines().map(str::trim_start).filter(|line| line.starts_with("VMIG_"));
        let named = lines.filter_map(|line| line.split_once(" = "));
        let numbered = named.filter_map(|(name, rest)| Some((name, rest.split([',', ' ']).next()?.parse().ok()?)));
        numbered.map(|(name, number)| (name.to_owned(), number)).collect()
    }

    #[test]
    fn each_refusal_of_the_header_has_its_error() {
        let refusals: Vec<_> =
            in_header().into_iter().skip_while(|(name, _)| name != "VMIG_NO_DEVICE").take_while(|(_, number)| *number < 64).collect();
        assert_eq!(refusals.last().expect("refusals").0, "VMIG_STREAM_TOO_LARGE");
        for (name, number) in refusals {
            let camel: String = name[5..].split('_').map(|word| word[..1].to_owned() + &word[1..].to_lowercase()).collect();
            assert_eq!(format!("{:?}", Error::of(number)), camel);
            assert_eq!(done(number), Err(Error::of(number)));
        }
    }

    #[test]
    fn a_status_from_64_on_was_done() {
        for (name, number) in in_header().iter().filter(|(_, number)| *number >= 64) {
            assert_eq!(done(*number), Ok(*number), "{name}");
        }
        assert_eq!(done(0), Ok(0));
    }

    #[test]
    fn an_unknown_refusal_is_an_error() {
        for number in [6, 13, 16, 63] {
            assert_eq!(done(number), Err(Error::Unknown));
        }
    }

    #[test]
    fn each_error_has_a_text_of_its_own() {
        let texts: HashSet<_> = TEXTS.iter().map(|(error, text)| (error.to_string(), *text)).collect();
        assert_eq!(texts.len(), TEXTS.len());
        assert!(texts.iter().all(|(told, text)| told == text && !text.ends_with('.')));
    }

    #[test]
    fn errors_are_errors_of_the_standard_library() {
        let refused = Refused::new(Error::Lent, vec![1]);
        assert_eq!((refused.to_string(), format!("{refused:?}")), ("the RAM is lent".into(), "Refused { error: Lent, .. }".into()));
        let boxed: Box<dyn std::error::Error + Send + Sync> = refused.into();
        assert_eq!(boxed.source().expect("an error").to_string(), "the RAM is lent");
        let (error, value) = boxed.downcast::<Refused<Vec<i32>>>().expect("what was boxed").into_parts();
        assert_eq!((error, value), (Error::Lent, vec![1]));
    }

    #[test]
    fn a_sync_error_says_what_it_is() {
        let refused = SyncError::from(Error::WrongKind);
        assert_eq!(refused.to_string(), Error::WrongKind.to_string());
        assert!(std::error::Error::source(&refused).is_some() && std::error::Error::source(&SyncError::Lost).is_none());
        let failed = SyncError::Failed(io::Error::from(io::ErrorKind::StorageFull));
        assert!(failed.to_string().starts_with("the disk could not be brought"));
        assert!(SyncError::Lost.to_string().contains("lost") && std::error::Error::source(&failed).is_some());
    }
}
