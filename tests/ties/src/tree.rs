//! The files of the repository, under a root.
//!
//! What a crate's specs say stands in two rooms: what is believed in specs/, why it holds in specs/laws/ or proofs/laws/. A crate's theorems stand in
//! specs/Theorems.antt or proofs/Theorems.antt: in proofs/ where an edit of a definition has to leave all of specs/ as it is.

use crate::antt::{declared, Declared};
use crate::{header, rattle, wrong};
use std::collections::BTreeSet;
use std::fs;
use std::path::{Path, PathBuf};

pub const THEOREMS: &str = "Theorems";

pub struct Tree {
    root: PathBuf,
}

impl Tree {
    pub fn new(root: &Path) -> Tree {
        Tree { root: root.to_path_buf() }
    }

    /// The repository that this package stands in, or the one that the program's first argument names.
    pub fn given() -> Tree {
        let here = Path::new(env!("CARGO_MANIFEST_DIR")).join("../..");
        Tree::new(&std::env::args_os().nth(1).map_or(here, PathBuf::from))
    }

    pub fn has(&self, path: &str) -> bool {
        self.root.join(path).exists()
    }

    pub fn read(&self, path: &str) -> Option<String> {
        fs::read_to_string(self.root.join(path)).ok()
    }

    /// The names in a folder that have this ending, without it, in order.
    fn listed(&self, folder: &str, ending: &str) -> BTreeSet<String> {
        let entries = fs::read_dir(self.root.join(folder)).into_iter().flatten().flatten();
        entries.filter_map(|entry| entry.file_name().to_str()?.strip_suffix(ending).map(String::from)).collect()
    }

    pub fn crates(&self) -> BTreeSet<String> {
        self.listed("crates", "")
    }

    /// The files of a crate's first room, and its theorems.
    pub fn spec_files(&self, name: &str) -> BTreeSet<String> {
        let mut files = self.listed(&format!("crates/{name}/specs"), ".antt");
        files.extend(self.has(&format!("crates/{name}/proofs/{THEOREMS}.antt")).then(|| THEOREMS.to_string()));
        files
    }

    /// The files of a crate's two rooms; of the second as laws/FILE.
    pub fn files_of_both_rooms(&self, name: &str) -> BTreeSet<String> {
        let laws = ["specs", "proofs"].into_iter().flat_map(|part| {
            self.listed(&format!("crates/{name}/{part}/laws"), ".antt").into_iter().map(|file| format!("laws/{file}"))
        });
        self.spec_files(name).into_iter().chain(laws).collect()
    }

    /// Where a file of a crate's two rooms stands: in specs/, or a law or the theorems in proofs/.
    pub fn paths_of_spec(&self, name: &str, file: &str) -> Vec<String> {
        let is_second = file == THEOREMS || file.starts_with("laws/");
        let parts = if is_second { &["specs", "proofs"][..] } else { &["specs"] };
        let paths = parts.iter().map(|part| format!("crates/{name}/{part}/{file}.antt"));
        paths.filter(|path| self.has(path)).collect()
    }

    pub fn source_files(&self, name: &str) -> BTreeSet<String> {
        self.listed(&format!("crates/{name}/src"), ".rt")
    }

    /// What a file of a crate's two rooms declares.
    pub fn spec(&self, name: &str, file: &str) -> Option<Declared> {
        let texts = self.paths_of_spec(name, file).into_iter().filter_map(|path| self.read(&path));
        texts.map(|text| declared(&text)).reduce(Declared::with)
    }

    /// The spec files that declare a name, as crate/File; a law's is crate/laws/File.
    pub fn declaring(&self, name: &str) -> Vec<String> {
        let mut found = Vec::new();
        for of in self.listed("crates", "") {
            for file in self.files_of_both_rooms(&of) {
                if self.spec(&of, &file).unwrap_or_default().names.contains(name) {
                    found.push(format!("{of}/{file}"));
                }
            }
        }
        found
    }

    pub fn functions(&self, path: &str) -> Option<Vec<rattle::Function>> {
        self.read(path).map(|text| rattle::functions(&text))
    }

    /// The functions of all of a crate's sources.
    pub fn functions_of(&self, name: &str) -> Vec<rattle::Function> {
        let files = self.listed(&format!("crates/{name}/src"), ".rt");
        files.iter().filter_map(|file| self.functions(&format!("crates/{name}/src/{file}.rt"))).flatten().collect()
    }

    /// A crate's must-fail edits.
    pub fn edits_of(&self, name: &str) -> Vec<wrong::Edit> {
        let folder = format!("crates/{name}/must-fail");
        let text = |file: &String| self.read(&format!("{folder}/{file}.edit")).unwrap_or_default();
        self.listed(&folder, ".edit").iter().map(|file| wrong::read(file, &text(file))).collect()
    }

    /// The names of a crate's wrong programs.
    pub fn wrongs_of(&self, name: &str) -> BTreeSet<String> {
        self.edits_of(name).into_iter().flat_map(|edit| edit.wrongs).map(|wrong| wrong.name).collect()
    }

    /// Every wrong program, as crate/name.
    pub fn wrongs(&self) -> BTreeSet<String> {
        let named = |of: String| self.wrongs_of(&of).into_iter().map(move |name| format!("{of}/{name}"));
        self.crates().into_iter().flat_map(named).collect()
    }

    /// The files in these folders of a folder, and below them, by their paths from it, in order.
    pub fn files_below(&self, folder: &str, parts: &[&str]) -> BTreeSet<String> {
        let mut found = BTreeSet::new();
        let mut todo: Vec<String> = parts.iter().map(|part| part.to_string()).collect();
        while let Some(path) = todo.pop() {
            let entries = fs::read_dir(self.root.join(folder).join(&path)).into_iter().flatten().flatten();
            for entry in entries {
                let inner = format!("{path}/{}", entry.file_name().to_string_lossy());
                if entry.path().is_dir() {
                    todo.push(inner);
                } else {
                    found.insert(inner);
                }
            }
        }
        found
    }

    /// The names of the functions that include/planner.h declares, in its order.
    pub fn header_functions(&self) -> Vec<String> {
        let text = self.read("include/planner.h").unwrap_or_default();
        header::read(&text).prototypes.into_iter().map(|prototype| prototype.name).collect()
    }
}
