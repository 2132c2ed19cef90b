// What a tree's nodes are reached by: a pointer of the tree alone, or with `--cfg shared` one that versions share.
#[cfg(not(shared))]
mod alone {
    pub type Pointer<T> = Box<T>;

    pub fn owned<T>(pointer: &mut Pointer<T>) -> &mut T {
        pointer
    }

    // Its parts are moved out of it one by one.
    pub fn taken<T>(pointer: Pointer<T>) -> Box<T> {
        pointer
    }

    // A tree that is alone has no versions.
    pub fn held<T>(_tree: &Option<Pointer<T>>) {}
}

#[cfg(shared)]
mod shared {
    use std::sync::Arc;

    pub type Pointer<T> = Arc<T>;

    // A node that a version has is copied first.
    pub fn owned<T: Clone>(pointer: &mut Pointer<T>) -> &mut T {
        Arc::make_mut(pointer)
    }

    pub fn taken<T: Clone>(pointer: Pointer<T>) -> T {
        Arc::unwrap_or_clone(pointer)
    }

    pub fn held<T>(tree: &Option<Pointer<T>>) -> Option<Pointer<T>> {
        tree.clone()
    }
}

#[cfg(not(shared))]
pub use alone::{Pointer, held, owned, taken};
#[cfg(shared)]
pub use shared::{Pointer, held, owned, taken};
