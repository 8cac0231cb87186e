//! Where an image lies: in bytes that are lent, or in bytes of its own.

use std::ops::{Deref, DerefMut};
use std::sync::Arc;

/// The bytes of a policy or of a list of names. Those of its own are shared by all its clones.
#[derive(Clone)]
pub(crate) enum ReadImage<'p> {
    Lent(&'p [u8]),
    Shared(Arc<[u8]>),
}

impl ReadImage<'_> {
    pub(crate) fn into_owned(self) -> ReadImage<'static> {
        ReadImage::Shared(match self {
            ReadImage::Lent(bytes) => bytes.into(),
            ReadImage::Shared(bytes) => bytes,
        })
    }
}

impl Deref for ReadImage<'_> {
    type Target = [u8];

    fn deref(&self) -> &[u8] {
        match self {
            ReadImage::Lent(bytes) => bytes,
            ReadImage::Shared(bytes) => bytes,
        }
    }
}

/// The bytes of a table, which nobody else can touch.
pub(crate) enum TableImage<'t> {
    Lent(&'t mut [u8]),
    Owned(Vec<u8>),
}

impl TableImage<'_> {
    pub(crate) fn into_vec(self) -> Vec<u8> {
        match self {
            TableImage::Lent(bytes) => bytes.to_vec(),
            TableImage::Owned(bytes) => bytes,
        }
    }
}

impl Deref for TableImage<'_> {
    type Target = [u8];

    fn deref(&self) -> &[u8] {
        match self {
            TableImage::Lent(bytes) => bytes,
            TableImage::Owned(bytes) => bytes,
        }
    }
}

impl DerefMut for TableImage<'_> {
    fn deref_mut(&mut self) -> &mut [u8] {
        match self {
            TableImage::Lent(bytes) => bytes,
            TableImage::Owned(bytes) => bytes,
        }
    }
}
