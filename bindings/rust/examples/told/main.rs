//! A machine moves whose stream its host digests, on a thread beside the machine: `told [MIB]`. The digest is the library's. The crate in `sha2`
//! makes the same move with the crate `sha2`, which uses the processor's instructions for it.

mod moving;

use vmig::Digest;

impl moving::Sha256 for Digest {
    fn add(&mut self, bytes: &[u8]) {
        Digest::add(self, bytes);
    }

    fn end(mut self) -> [u8; 32] {
        Digest::end(&mut self)
    }
}

fn main() -> Result<(), moving::Failure> {
    moving::run("told", Digest::new())
}
