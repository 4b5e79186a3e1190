//! Stand-in for indexmap: a set that keeps the order in which its values were
//! first put in.

use std::collections::HashSet;
use std::hash::{BuildHasher, Hash};

#[derive(Clone, Debug)]
pub struct IndexSet<T, S> {
    order: Vec<T>,
    known: HashSet<T, S>,
}

impl<T: Copy + Eq + Hash, S: BuildHasher> IndexSet<T, S> {
    pub fn contains(&self, value: &T) -> bool {
        self.known.contains(value)
    }

    pub fn is_empty(&self) -> bool {
        self.order.is_empty()
    }

    pub fn iter(&self) -> std::slice::Iter<'_, T> {
        self.order.iter()
    }

    pub fn reverse(&mut self) {
        self.order.reverse();
    }
}

impl<T: Copy + Eq + Hash, S: BuildHasher> Extend<T> for IndexSet<T, S> {
    fn extend<I: IntoIterator<Item = T>>(&mut self, values: I) {
        for value in values {
            if self.known.insert(value) {
                self.order.push(value);
            }
        }
    }
}

impl<T: Copy + Eq + Hash, S: BuildHasher + Default> FromIterator<T> for IndexSet<T, S> {
    fn from_iter<I: IntoIterator<Item = T>>(values: I) -> Self {
        let mut set = IndexSet {
            order: Vec::new(),
            known: HashSet::default(),
        };
        set.extend(values);
        set
    }
}

impl<T, S> IntoIterator for IndexSet<T, S> {
    type Item = T;
    type IntoIter = std::vec::IntoIter<T>;

    fn into_iter(self) -> Self::IntoIter {
        self.order.into_iter()
    }
}
