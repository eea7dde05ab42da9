//! A stand-in for the registry crate rtree_rs, so that geometry-rs builds without a registry.
//!
//! It has the names and types that geometry-rs uses and no more. The R-tree is not part of this
//! project and no test asks for it (`enable_rtree` stays false), so nothing here is ever called;
//! if something is, it panics.

use std::marker::PhantomData;

const NEVER: &str = "the stand-in for rtree_rs was called: the R-tree is not part of this project";

pub struct Rect<const D: usize, C> {
    never: PhantomData<[C; D]>,
}

impl<const D: usize, C> Rect<D, C> {
    pub fn new(_min: [C; D], _max: [C; D]) -> Self {
        panic!("{NEVER}")
    }
}

/// What a search would hand out.
pub struct Item<'a, T> {
    pub data: &'a T,
}

pub struct RTree<const D: usize, C, T> {
    never: PhantomData<([C; D], T)>,
}

impl<const D: usize, C, T> RTree<D, C, T> {
    // The source calls `RTree::new()`, and wants no `Default`.
    #[allow(clippy::new_without_default)]
    pub fn new() -> Self {
        panic!("{NEVER}")
    }

    pub fn insert(&mut self, _rect: Rect<D, C>, _data: T) {
        panic!("{NEVER}")
    }

    pub fn search(&self, _rect: Rect<D, C>) -> std::vec::IntoIter<Item<'_, T>> {
        panic!("{NEVER}")
    }
}
