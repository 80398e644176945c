//! The repository's files, and the faults found in them.

use crate::markdown::Document;
use std::fs;
use std::path::{Path, PathBuf};
use std::process::exit;

/// Faults in the order of files and lines; line 0 is the file as a whole.
#[derive(Default)]
pub struct Faults(Vec<(String, usize, String)>);

impl Faults {
    pub fn add(&mut self, file: &str, line: usize, words: impl Into<String>) {
        self.0.push((file.to_string(), line, words.into()));
    }

    /// Prints them and gives their number.
    pub fn printed(&mut self) -> usize {
        self.0.sort();
        for (file, line, words) in &self.0 {
            println!("{file}:{line}: {words}");
        }
        self.0.len()
    }
}

pub struct Repository {
    root: PathBuf,
    /// Every Markdown file, by its path.
    pub documents: Vec<Document>,
}

impl Repository {
    pub fn read(root: &Path) -> Repository {
        let mut repository = Repository {
            root: root.to_path_buf(),
            documents: Vec::new(),
        };
        for path in repository.files_below("") {
            if path.ends_with(".md") {
                let text = repository.text(&path);
                repository.documents.push(Document::new(&path, &text));
            }
        }
        repository
    }

    /// The files of a folder and of those in it, without what is built and what is hidden.
    fn files_below(&self, folder: &str) -> Vec<String> {
        let mut files = Vec::new();
        for name in self.names_in(folder) {
            let path = format!("{folder}{name}");
            if name.starts_with('.') || name == "target" {
                continue;
            } else if self.root.join(&path).is_dir() {
                files.extend(self.files_below(&format!("{path}/")));
            } else {
                files.push(path);
            }
        }
        files
    }

    /// The names in a folder, sorted; none where there is no such folder.
    pub fn names_in(&self, folder: &str) -> Vec<String> {
        let listed = fs::read_dir(self.root.join(folder));
        let mut names: Vec<String> = listed
            .into_iter()
            .flatten()
            .flatten()
            .map(|entry| entry.file_name().to_string_lossy().into_owned())
            .collect();
        names.sort();
        names
    }

    /// The names in a folder that have an ending, without it.
    pub fn stems_in(&self, folder: &str, ending: &str) -> Vec<String> {
        let names = self.names_in(folder).into_iter();
        names
            .filter_map(|name| name.strip_suffix(ending).map(str::to_string))
            .collect()
    }

    pub fn has(&self, path: &str) -> bool {
        self.root.join(path).exists()
    }

    /// What a file holds, where it is there.
    pub fn text_of(&self, path: &str) -> Option<String> {
        fs::read_to_string(self.root.join(path)).ok()
    }

    /// What a file holds that nothing can be checked without.
    pub fn text(&self, path: &str) -> String {
        self.text_of(path).unwrap_or_else(|| missing(path))
    }

    pub fn find_document(&self, path: &str) -> Option<&Document> {
        self.documents.iter().find(|document| document.path == path)
    }

    /// A document that nothing can be checked without.
    pub fn document(&self, path: &str) -> &Document {
        self.find_document(path).unwrap_or_else(|| missing(path))
    }

    /// The documents that say how things are today: README.md and docs/, without the history in
    /// docs/changes.
    pub fn current(&self) -> impl Iterator<Item = &Document> {
        self.documents.iter().filter(|document| {
            let in_docs = document.path.strip_prefix("docs/");
            document.path == "README.md" || in_docs.map_or(false, |name| !name.contains('/'))
        })
    }

    /// The crates of crates.txt, each the first word of what stands before a colon.
    pub fn crates(&self) -> Vec<String> {
        let text = self.text("crates.txt");
        let heads = text.lines().filter_map(|line| line.split_once(':'));
        let names = heads.filter_map(|(head, _)| head.split_whitespace().next());
        names.map(str::to_string).collect()
    }
}

fn missing(path: &str) -> ! {
    println!("{path}:0: it is not there, or no text");
    exit(1);
}
