//! A small made-up tree in a folder of its own, for the tests: whole at first, then broken in one place.

use crate::tree::Tree;
use std::fs;
use std::path::PathBuf;

pub struct Small {
    root: PathBuf,
}

impl Small {
    /// The files, each with its path, under a folder of this name.
    pub fn new(name: &str, files: &[(&str, &str)]) -> Small {
        let root = std::env::temp_dir().join(format!("ties-{}-{name}", std::process::id()));
        let small = Small { root };
        for (path, text) in files {
            small.write(path, text);
        }
        small
    }

    fn write(&self, path: &str, text: &str) {
        let path = self.root.join(path);
        fs::create_dir_all(path.parent().unwrap()).unwrap();
        fs::write(path, text).unwrap();
    }

    /// Replace a text that stands in the file once.
    pub fn change(self, path: &str, old: &str, new: &str) -> Small {
        let text = self.tree().read(path).unwrap();
        assert_eq!(text.matches(old).count(), 1, "{old:?} in {path}");
        self.write(path, &text.replace(old, new));
        self
    }

    pub fn add(self, path: &str, text: &str) -> Small {
        self.write(path, text);
        self
    }

    pub fn remove(self, path: &str) -> Small {
        fs::remove_file(self.root.join(path)).unwrap();
        self
    }

    pub fn tree(&self) -> Tree {
        Tree::new(&self.root)
    }
}

impl Drop for Small {
    fn drop(&mut self) {
        let _ = fs::remove_dir_all(&self.root);
    }
}

/// The files of a made-up tree, and what is tried on it.
pub struct Trial {
    pub files: &'static [(&'static str, &'static str)],
    pub faults: fn(&Tree) -> Vec<String>,
}

impl Trial {
    pub fn whole(&self, name: &str) -> Small {
        Small::new(name, self.files)
    }

    /// Nothing is found where all is well.
    pub fn well(&self, name: &str) {
        self.found(&self.whole(name), &[]);
    }

    /// The faults after one text of a file is changed for another.
    pub fn after(&self, name: &str, path: &str, old: &str, new: &str, expected: &[&str]) {
        self.found(&self.whole(name).change(path, old, new), expected);
    }

    /// The faults of a tree.
    pub fn found(&self, small: &Small, expected: &[&str]) {
        assert_faults(&(self.faults)(&small.tree()), expected);
    }
}

/// There are as many faults as expected, and each has the text that it should have.
fn assert_faults(faults: &[String], expected: &[&str]) {
    assert_eq!(faults.len(), expected.len(), "{faults:#?}");
    for (fault, expected) in faults.iter().zip(expected) {
        assert!(fault.contains(expected), "{fault:?} has no {expected:?}");
    }
}
