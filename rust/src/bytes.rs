//! Fields, all little-endian, and the sums over them: the check of a block, the stamp of a policy.

pub(crate) fn u16_at(bytes: &[u8], at: usize) -> u16 {
    u16::from_le_bytes([bytes[at], bytes[at + 1]])
}

pub(crate) fn u32_at(bytes: &[u8], at: usize) -> u32 {
    u32::from_le_bytes([bytes[at], bytes[at + 1], bytes[at + 2], bytes[at + 3]])
}

pub(crate) fn put_u16(bytes: &mut [u8], at: usize, number: u16) {
    bytes[at..at + 2].copy_from_slice(&number.to_le_bytes());
}

pub(crate) fn put_u32(bytes: &mut [u8], at: usize, number: u32) {
    bytes[at..at + 4].copy_from_slice(&number.to_le_bytes());
}

/// What every block begins with.
pub(crate) fn put_header(block: &mut [u8], kind: u32, number: usize, total: usize) {
    put_u32(block, 0, kind);
    put_u16(block, 4, number as u16);
    put_u16(block, 6, total as u16);
}

/// The two sums over the words of some bytes, as they stand in an image.
pub(crate) fn sums(bytes: &[u8]) -> [u8; 8] {
    let (mut a, mut b) = (1u32, 0u32);
    for word in bytes.as_chunks().0 {
        a = a.wrapping_add(u32::from_le_bytes(*word));
        b = b.wrapping_add(a);
    }
    let mut both = [0; 8];
    both[..4].copy_from_slice(&a.to_le_bytes());
    both[4..].copy_from_slice(&b.to_le_bytes());
    both
}

/// Writes the check of every block of an image.
pub(crate) fn seal(image: &mut [u8]) {
    for block in image.as_chunks_mut::<512>().0 {
        let check = sums(&block[..504]);
        block[504..].copy_from_slice(&check);
    }
}

#[cfg(test)]
mod tests {
    use super::sums;

    /// Document 01's examples.
    #[test]
    fn examples() {
        let of = |words: &[u32]| {
            let bytes: Vec<u8> = words.iter().flat_map(|word| word.to_le_bytes()).collect();
            let both = sums(&bytes);
            let (a, b) = both.split_at(4);
            (
                u32::from_le_bytes(a.try_into().unwrap()),
                u32::from_le_bytes(b.try_into().unwrap()),
            )
        };
        assert_eq!(of(&[]), (1, 0));
        assert_eq!(of(&[4294967295]), (0, 0));
        assert_eq!(of(&[1, 2]), (4, 6));
        assert_eq!(of(&[0; 126]), (1, 126));
    }
}
