//! Stores: the objects of a run, their classes, and the file that keeps them, an object a line, its numbers with tabs.

use fickle::OBJECT_WIDTH;
use std::collections::BTreeMap;

/// Class Identity of every plain program, and by how much a class's number is larger there.
const IDENTITY: u32 = 1;
const ADDED_CLASSES: u32 = 2;

/// The objects that a run made, as their numbers.
pub struct Objects<'a>(&'a [u32]);

impl<'a> Objects<'a> {
    /// The first `made` objects of a store.
    pub fn new(store: &'a [u32], made: u32) -> Objects<'a> {
        Objects(&store[..made as usize * OBJECT_WIDTH])
    }

    /// The class of each, in the order in which they were made.
    pub fn classes(&self) -> Vec<u32> {
        self.0.chunks(OBJECT_WIDTH).map(|object| object[0]).collect()
    }

    /// The places of the Identities, from 1.
    pub fn identities(&self) -> Vec<u32> {
        (1..).zip(self.classes()).filter(|(_, class)| *class == IDENTITY).map(|(place, _)| place).collect()
    }

    /// The source class of each object that a plain run stands for: that of the object in the Identity's first field, less
    /// the classes that the plain program adds. None where the store is not one of a plain program.
    pub fn source_classes(&self) -> Option<Vec<u32>> {
        let class = |identity: &u32| {
            let implementor = self.0[(*identity as usize - 1) * OBJECT_WIDTH + 1].checked_sub(2)?;
            let place = (implementor as usize).checked_sub(1)? * OBJECT_WIDTH;
            self.0.get(place)?.checked_sub(ADDED_CLASSES)
        };
        self.identities().iter().map(class).collect()
    }

    /// The lines of a store file.
    pub fn lines(&self) -> String {
        let line = |object: &[u32]| object.iter().map(u32::to_string).collect::<Vec<_>>().join("\t") + "\n";
        self.0.chunks(OBJECT_WIDTH).map(line).collect()
    }
}

/// How many there are of each class.
pub fn counted(classes: &[u32]) -> BTreeMap<u32, u32> {
    let mut counts = BTreeMap::new();
    for class in classes {
        *counts.entry(*class).or_insert(0) += 1;
    }
    counts
}
