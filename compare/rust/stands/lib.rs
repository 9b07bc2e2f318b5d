//! Stood in: what the published files name of the crates `byte`, `zigbee_types`, `heapless`, `itertools` and `defmt_or_log`, and no more.
//! The driver gives this one crate all five names. Written from how the published files use those names; the crates were not at hand.
use std::marker::PhantomData;
use std::ops::{Deref, DerefMut};

// byte: a reader and a writer for each type, told a context, and a place that moves on

#[derive(Debug, Clone, Copy, PartialEq, Eq)]
pub enum Error {
    Incomplete,
    BadOffset(usize),
    BadInput { err: &'static str },
}

pub type Result<T> = std::result::Result<T, Error>;

pub mod ctx {
    pub enum Bytes {
        Len(usize),
    }
}

pub trait TryRead<'a, C = ()>: Sized {
    fn try_read(bytes: &'a [u8], ctx: C) -> Result<(Self, usize)>;
}

pub trait TryWrite<C = ()> {
    fn try_write(self, bytes: &mut [u8], ctx: C) -> Result<usize>;
}

pub fn check_len(bytes: &[u8], len: usize) -> Result<usize> {
    if len <= bytes.len() { Ok(len) } else { Err(Error::Incomplete) }
}

pub trait BytesExt<C> {
    fn read_with<'a, T: TryRead<'a, C>>(&'a self, at: &mut usize, ctx: C) -> Result<T>;
    fn write_with<T: TryWrite<C>>(&mut self, at: &mut usize, value: T, ctx: C) -> Result<()>;
}

impl<C> BytesExt<C> for [u8] {
    fn read_with<'a, T: TryRead<'a, C>>(&'a self, at: &mut usize, ctx: C) -> Result<T> {
        let (value, len) = T::try_read(self.get(*at..).ok_or(Error::BadOffset(*at))?, ctx)?;
        *at += len;
        Ok(value)
    }

    fn write_with<T: TryWrite<C>>(&mut self, at: &mut usize, value: T, ctx: C) -> Result<()> {
        *at += value.try_write(self.get_mut(*at..).ok_or(Error::BadOffset(*at))?, ctx)?;
        Ok(())
    }
}

fn first<const N: usize>(bytes: &[u8]) -> Result<[u8; N]> {
    bytes.first_chunk().copied().ok_or(Error::Incomplete)
}

impl<C> TryWrite<C> for &[u8] {
    fn try_write(self, bytes: &mut [u8], _: C) -> Result<usize> {
        check_len(bytes, self.len())?;
        bytes[..self.len()].copy_from_slice(self);
        Ok(self.len())
    }
}

impl<'a> TryRead<'a, ctx::Bytes> for &'a [u8] {
    fn try_read(bytes: &'a [u8], ctx::Bytes::Len(len): ctx::Bytes) -> Result<(Self, usize)> {
        check_len(bytes, len)?;
        Ok((&bytes[..len], len))
    }
}

macro_rules! numbers {
    ($($number:ty)*) => { $(
        impl<'a, C> TryRead<'a, C> for $number {
            fn try_read(bytes: &'a [u8], _: C) -> Result<(Self, usize)> {
                Ok((Self::from_le_bytes(first(bytes)?), size_of::<Self>()))
            }
        }
        impl<C> TryWrite<C> for $number {
            fn try_write(self, bytes: &mut [u8], ctx: C) -> Result<usize> {
                self.to_le_bytes().as_slice().try_write(bytes, ctx)
            }
        }
    )* };
}
numbers!(u8 u16 u32 u64);

impl<'a, C> TryRead<'a, C> for bool {
    fn try_read(bytes: &'a [u8], ctx: C) -> Result<(Self, usize)> {
        u8::try_read(bytes, ctx).map(|(value, len)| (value != 0, len))
    }
}

impl<C> TryWrite<C> for bool {
    fn try_write(self, bytes: &mut [u8], ctx: C) -> Result<usize> {
        u8::from(self).try_write(bytes, ctx)
    }
}

// zigbee_types: addresses are numbers low byte first; arrays and lists stand as they are

macro_rules! addresses {
    ($($name:ident: $number:ty),*) => { $(
        #[derive(Debug, Clone, Copy, PartialEq, Eq, Default)]
        pub struct $name(pub $number);
        impl<'a, C> TryRead<'a, C> for $name {
            fn try_read(bytes: &'a [u8], ctx: C) -> Result<(Self, usize)> {
                <$number>::try_read(bytes, ctx).map(|(value, len)| (Self(value), len))
            }
        }
        impl<C> TryWrite<C> for $name {
            fn try_write(self, bytes: &mut [u8], ctx: C) -> Result<usize> {
                self.0.try_write(bytes, ctx)
            }
        }
    )* };
}
addresses!(IeeeAddress: u64, ShortAddress: u16);

#[derive(Debug, Clone, Copy, PartialEq, Eq)]
pub struct ByteArray<const N: usize>(pub [u8; N]);

impl<const N: usize> ByteArray<N> {
    pub fn as_slice(&self) -> &[u8] {
        &self.0
    }
}

impl<'a, C, const N: usize> TryRead<'a, C> for ByteArray<N> {
    fn try_read(bytes: &'a [u8], _: C) -> Result<(Self, usize)> {
        Ok((Self(first(bytes)?), N))
    }
}

impl<C, const N: usize> TryWrite<C> for ByteArray<N> {
    fn try_write(self, bytes: &mut [u8], ctx: C) -> Result<usize> {
        self.as_slice().try_write(bytes, ctx)
    }
}

pub struct ByteArrayRef;

pub enum TypeArrayCtx {
    Len(usize),
}

#[derive(Debug, Clone)]
pub struct TypeArrayRef<'a, T>(&'a [u8], PhantomData<T>);

impl<'a, T> TryRead<'a, TypeArrayCtx> for TypeArrayRef<'a, T> {
    fn try_read(bytes: &'a [u8], TypeArrayCtx::Len(count): TypeArrayCtx) -> Result<(Self, usize)> {
        let (list, len) = <&[u8]>::try_read(bytes, ctx::Bytes::Len(count * size_of::<T>()))?;
        Ok((Self(list, PhantomData), len))
    }
}

impl<C, T> TryWrite<C> for TypeArrayRef<'_, T> {
    fn try_write(self, bytes: &mut [u8], ctx: C) -> Result<usize> {
        self.0.try_write(bytes, ctx)
    }
}

/// A table: at most N rows. Flash is left out, so that a quiet change is a change.
#[derive(Debug, Clone, PartialEq, Eq)]
pub struct StorageVec<T, const N: usize>(std::vec::Vec<T>);

impl<T, const N: usize> Default for StorageVec<T, N> {
    fn default() -> Self {
        Self(std::vec::Vec::new())
    }
}

impl<T, const N: usize> Deref for StorageVec<T, N> {
    type Target = [T];
    fn deref(&self) -> &[T] {
        &self.0
    }
}

impl<T, const N: usize> DerefMut for StorageVec<T, N> {
    fn deref_mut(&mut self) -> &mut [T] {
        &mut self.0
    }
}

impl<T, const N: usize> StorageVec<T, N> {
    pub fn push(&mut self, row: T) -> std::result::Result<(), T> {
        if self.0.len() == N {
            return Err(row);
        }
        self.0.push(row);
        Ok(())
    }

    pub fn position(&self, wanted: impl FnMut(&T) -> bool) -> Option<usize> {
        self.0.iter().position(wanted)
    }

    pub fn update(&mut self, at: usize, change: impl FnOnce(&mut T)) {
        self.0.get_mut(at).map(change);
    }

    pub fn update_quiet(&mut self, at: usize, change: impl FnOnce(&mut T)) {
        self.update(at, change);
    }

    pub fn remove(&mut self, at: usize) -> T {
        self.0.remove(at)
    }
}

impl<'a, C, T, const N: usize> TryRead<'a, C> for StorageVec<T, N> {
    fn try_read(_: &'a [u8], _: C) -> Result<(Self, usize)> {
        unreachable!("no table is read from bytes")
    }
}

impl<C, T, const N: usize> TryWrite<C> for StorageVec<T, N> {
    fn try_write(self, _: &mut [u8], _: C) -> Result<usize> {
        unreachable!("no table is written to bytes")
    }
}

// heapless and itertools: imported, and used for log lines alone; defmt_or_log: says nothing

pub struct Vec;

pub mod index_map {
    pub struct FnvIndexMap;
}

pub trait Itertools {}

#[macro_export]
macro_rules! silent {
    ($($words:tt)*) => {};
}
pub use silent as debug;
pub use silent as info;
pub use silent as trace;
pub use silent as warn;
