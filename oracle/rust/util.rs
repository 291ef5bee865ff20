//! Stands in for customasm's `util`: typed item numbers, file handles, and the little of `BigInt` that instruction
//! resolution names. Nothing here decides a match.
use crate::*;

/// A typed index. Equality is by number, as `InstructionMatch::is_same` needs it.
pub struct ItemRef<T> {
    raw: usize,
    phantom: std::marker::PhantomData<T>,
}

impl<T> ItemRef<T> {
    pub fn new(raw: usize) -> ItemRef<T> {
        ItemRef {
            raw,
            phantom: std::marker::PhantomData,
        }
    }

    pub fn get_raw(&self) -> usize {
        self.raw
    }
}

// By hand, so that nothing is asked of `T`, and that a clone can be seen.
impl<T> Copy for ItemRef<T> {}

impl<T> Clone for ItemRef<T> {
    fn clone(&self) -> Self {
        count::see(|t| t.items += 1);
        *self
    }
}

impl<T> PartialEq for ItemRef<T> {
    fn eq(&self, other: &Self) -> bool {
        self.raw == other.raw
    }
}

impl<T> std::fmt::Debug for ItemRef<T> {
    fn fmt(&self, f: &mut std::fmt::Formatter) -> std::fmt::Result {
        write!(f, "#{}", self.raw)
    }
}

pub type FileServerHandle = usize;

/// No file is ever read here.
pub trait FileServer {}

pub struct NoFiles;

impl FileServer for NoFiles {}

/// An encoding: only its size is looked at.
#[derive(Clone, Debug)]
pub struct BigInt {
    pub size: Option<usize>,
}

impl BigInt {
    pub fn sign(&self) -> isize {
        0
    }

    pub fn min_size(&self) -> usize {
        0
    }
}
