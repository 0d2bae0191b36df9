//! Stands for `twin_table`: the handle of a table that is shared for good. The proved crate makes it of two addresses, by the
//! machine values of the toolchain's table. The library has its own way to a mapping (`attach`), so here there is no such handle,
//! and the compiler leaves out what a region would do with one.

use atomic_table::{Shared, TableRule};
use std::convert::Infallible;
use std::marker::PhantomData;

/// A table that is shared for good. No value of it is made.
pub struct Twin<S: 'static, V: 'static, K: 'static, P: TableRule<S, V, K> + 'static> {
    never: Infallible,
    marker: PhantomData<&'static Shared<S, V, K, P>>,
}

impl<S, V, K, P: TableRule<S, V, K>> Twin<S, V, K, P> {
    /// The table.
    #[must_use]
    #[inline]
    pub fn shared(&self) -> &Shared<S, V, K, P> {
        let _ = self.marker;
        match self.never {}
    }
}
