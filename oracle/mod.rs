//! The few lines that the crate's folder `splay` lacks: its three files stand
//! beside this one, byte for byte as published.
//!
//! `include!` puts a file's text into the module written around it, so the
//! functions `root` below may read private fields without a change to the
//! file. They only lend: nothing here can change a tree.

pub mod node;

pub mod tree {
    include!("tree.rs");

    impl<K, V, C> SplayTree<K, V, C>
    where
        C: Fn(&K, &K) -> Ordering,
    {
        /// The root node, or `None` for an empty tree; what `Debug` prints.
        pub fn root(&self) -> Option<&Node<K, V>> {
            self.root_ref().as_deref()
        }
    }

    impl<K, V> IntoIter<K, V> {
        /// The root of what is not yet taken, or `None`.
        pub fn root(&self) -> Option<&Node<K, V>> {
            self.cur.as_deref()
        }
    }
}

pub mod set {
    include!("set.rs");

    use super::node::Node;

    impl<T, C> SplaySet<T, C>
    where
        C: Fn(&T, &T) -> Ordering,
    {
        /// The root node of the set's tree, or `None` for an empty set.
        pub fn root(&self) -> Option<&Node<T, ()>> {
            self.tree.root()
        }
    }

    impl<T> IntoIter<T> {
        /// The root of what is not yet taken, or `None`.
        pub fn root(&self) -> Option<&Node<T, ()>> {
            self.inner.root()
        }
    }
}

pub use self::set::SplaySet;
pub use self::tree::SplayTree;
