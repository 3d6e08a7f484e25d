//! Names only: nothing is ever archived.

pub use no_derives::{Archive, Deserialize, Serialize};

use rancor::Fallible;
use std::marker::PhantomData;

pub struct Place<T>(PhantomData<T>);

pub trait Archive {
    type Archived;
    type Resolver;

    fn resolve(&self, resolver: Self::Resolver, out: Place<Self::Archived>);
}

pub trait Serialize<S: Fallible + ?Sized>: Archive {
    fn serialize(&self, serializer: &mut S) -> Result<Self::Resolver, S::Error>;
}

pub trait Deserialize<T, D: Fallible + ?Sized> {
    fn deserialize(&self, deserializer: &mut D) -> Result<T, D::Error>;
}

pub mod rancor {
    pub trait Fallible {
        type Error;
    }
}

pub mod ser {
    pub trait Writer {}

    pub trait Allocator {}
}

pub mod vec {
    use super::{Place, rancor::Fallible};

    pub struct ArchivedVec<T>(Vec<T>);

    pub struct VecResolver;

    impl<T> ArchivedVec<T> {
        pub fn as_slice(&self) -> &[T] {
            &self.0
        }

        pub fn len(&self) -> usize {
            self.0.len()
        }

        pub fn is_empty(&self) -> bool {
            self.0.is_empty()
        }

        pub fn resolve_from_slice(_: &[T], _: VecResolver, _: Place<Self>) {}

        pub fn serialize_from_slice<S: Fallible + ?Sized>(
            _: &[T],
            _: &mut S,
        ) -> Result<VecResolver, S::Error> {
            Ok(VecResolver)
        }
    }
}

pub mod util {
    /// Not aligned: nothing is read from it.
    #[derive(Default)]
    pub struct AlignedVec<const ALIGNMENT: usize>(Vec<u8>);

    impl<const ALIGNMENT: usize> AlignedVec<ALIGNMENT> {
        pub fn new() -> Self {
            Self::default()
        }

        pub fn extend_from_slice(&mut self, bytes: &[u8]) {
            self.0.extend_from_slice(bytes);
        }
    }
}
