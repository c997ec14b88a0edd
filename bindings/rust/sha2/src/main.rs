//! The move of the example `told` of the crate `vmig`, whose digest the crate `sha2` makes: `vmig-sha2 [MIB]`. That crate looks by itself whether the
//! processor has instructions for it.
//!
//! It is a crate of its own, as cargo asks a registry for each optional dependency of a package that it builds.

#[path = "../../examples/told/moving.rs"]
mod moving;

use sha2::{Digest, Sha256};

impl moving::Sha256 for Sha256 {
    fn add(&mut self, bytes: &[u8]) {
        self.update(bytes);
    }

    fn end(self) -> [u8; 32] {
        self.finalize().into()
    }
}

fn main() -> Result<(), moving::Failure> {
    moving::run("vmig-sha2", Sha256::new())
}

#[cfg(test)]
mod tests {
    use super::moving::Sha256 as _;
    use sha2::{Digest, Sha256};

    /// Bytes in pieces have the digest that the library for C makes of them.
    #[test]
    fn both_digests_are_one() {
        let bytes: Vec<u8> = (0..10_000_u32).flat_map(|word| (word.wrapping_mul(2_654_435_761)).to_le_bytes()).collect();
        for length in [1, 63, 64, 65, 4101, bytes.len()] {
            let (mut one, mut other) = (Sha256::new(), vmig::Digest::new());
            for piece in bytes.chunks(length) {
                one.add(piece);
            }
            other.add(&bytes);
            assert_eq!(one.end(), other.end(), "{length}");
        }
    }
}
