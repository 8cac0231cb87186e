//! The largest texts, lists and images; and a text longer than a reply's number.

use super::given::refuse;
use super::*;
use independent::Reply;
use std::ffi::{c_char, c_int, c_long, c_uint, c_void};
use std::ptr::null_mut;
use support::{engine, largest};

/// Written and read again; a byte too little room in either; white space in every place of the text.
#[test]
fn the_largest_policy() {
    let texts = &mut Texts::new();
    let (names, policy) = (largest::names(), largest::policy());
    let image = write_policy(&policy);
    assert_eq!((image.len(), names.len()), (64 * BLOCK, 65_536));
    let text = texts.write(&image, &names, 1 << 20).unwrap();
    assert_eq!(text.len(), 329_951);
    assert!(texts.read(&text, &names, &image, image.len()) == Ok(image.clone()));
    let short = refuse(43, 0);
    assert_eq!(texts.write(&image, &names, text.len() - 1), Err(short));
    assert_eq!(
        texts.read(&text, &names, &image, image.len() - 1),
        Err(short)
    );
    let spaced: Vec<u8> = text
        .iter()
        .flat_map(|&byte| match byte {
            b'=' => b"\r\n = \t".to_vec(),
            b' ' => b"\n\n".to_vec(),
            _ => vec![byte],
        })
        .collect();
    assert!(texts.read(&spaced, &names, &image, image.len()) == Ok(image.clone()));
    // The very last name, and the last byte.
    let last = text.len() - 1;
    assert_eq!(
        texts.read(&text[..last], &names, &image, ROOMY),
        Err(refuse(41, last))
    );
    let (others, entry) = names.split_at(names.len() - ENTRY);
    assert!(text.windows(60).any(|name| name == &entry[4..]));
    assert_eq!(texts.read(&text, others, &image, ROOMY), Err(refuse(42, 0)));
}

const ROOMY: usize = BLOCK * 64;

// Of the C library, which std links in any case.
extern "C" {
    fn memfd_create(name: *const c_char, flags: c_uint) -> c_int;
    fn ftruncate(file: c_int, length: c_long) -> c_int;
    fn mmap(
        at: *mut c_void,
        len: usize,
        prot: c_int,
        flags: c_int,
        fd: c_int,
        from: c_long,
    ) -> *mut c_void;
}

/// So many bytes of white space, all of it the same piece of memory over and over.
fn much_white_space(length: usize) -> &'static [u8] {
    const PIECE: usize = 1 << 26;
    const READ: c_int = 1;
    const READ_WRITE: c_int = 3;
    const SHARED: c_int = 1;
    const FIXED: c_int = 0x10;
    let pieces = length.div_ceil(PIECE);
    // SAFETY: the pieces are laid over memory that was mapped for them, are never given back, and are
    // not written to once a slice of them is out.
    unsafe {
        let file = memfd_create(c"white".as_ptr(), 0);
        assert_eq!(ftruncate(file, PIECE as c_long), 0);
        let piece = mmap(null_mut(), PIECE, READ_WRITE, SHARED, file, 0);
        assert_ne!(piece as isize, -1);
        std::slice::from_raw_parts_mut(piece.cast::<u8>(), PIECE).fill(b' ');
        let all = mmap(null_mut(), pieces * PIECE, READ, SHARED, file, 0);
        assert_ne!(all as isize, -1);
        for i in 0..pieces {
            let at = all.byte_add(PIECE * i);
            assert_eq!(mmap(at, PIECE, READ, SHARED | FIXED, file, 0), at);
        }
        std::slice::from_raw_parts(all.cast(), length)
    }
}

/// A reply's number has 32 bits: a byte above 4294967295 is given as 4294967295. The engine alone is
/// asked; the judge would take minutes.
#[test]
#[cfg_attr(debug_assertions, ignore = "reads 4 GiB twice")]
fn a_text_of_more_than_4_gib() {
    let most = u32::MAX as usize;
    let text = much_white_space(most + 1_000);
    let second = write_policy(&given::second());
    for length in [most - 1, most + 1_000] {
        let byte = length.min(most);
        let mut output = [7; 10];
        let reply = engine::read_rules(&text[..length], &[], &second, &mut output);
        assert_eq!(
            (reply, output),
            (Reply::refuse(41, byte, 0), [7; 10]),
            "{length}"
        );
    }
}
