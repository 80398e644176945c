//! Names in the documents: links, paths, targets of the Makefile, names of the C header.

use crate::markdown::{links, without_targets, Document};
use crate::repository::{Faults, Repository};
use std::collections::BTreeSet;

/// What a path of the repository begins with.
const FOLDERS: &[&str] = &[
    "crates/",
    "docs/",
    "tests/",
    "examples/",
    "include/",
    "man/",
    "bench/",
    ".ci/",
];

/// What a path of a crate goes on with.
const PARTS_OF_A_CRATE: &[&str] = &["src", "specs", "proofs", "must-fail"];

/// A path from the folder of a document, without `.` and `..`.
fn path_from(document: &str, path: &str) -> String {
    let mut parts: Vec<&str> = document.split('/').collect();
    parts.pop();
    for part in path.split('/') {
        match part {
            "" | "." => {}
            ".." => {
                parts.pop();
            }
            part => parts.push(part),
        }
    }
    parts.join("/")
}

/// Why a link leads nowhere.
fn link_fault(repository: &Repository, document: &Document, link: &str) -> Option<String> {
    let (path, anchor) = link.split_once('#').unwrap_or((link, ""));
    let to = match path {
        "" => document.path.clone(),
        path => path_from(&document.path, path),
    };
    if !repository.has(&to) {
        return Some(format!("the link {link} leads to no file"));
    }
    let slugs = repository.find_document(&to).map(Document::slugs);
    let known = slugs.map_or(false, |slugs| slugs.iter().any(|slug| slug == anchor));
    let lost = link.contains('#') && !known;
    lost.then(|| format!("the link {link} leads to no heading"))
}

/// Each link but those to other places leads to a file and, where it names one, to a heading.
pub fn check_links(repository: &Repository, faults: &mut Faults) {
    for document in &repository.documents {
        for (number, line) in document.prose() {
            let own = links(line).into_iter().filter(|link| !link.contains("://"));
            let lost = own.filter_map(|link| link_fault(repository, document, &link));
            for words in lost {
                faults.add(&document.path, number, words);
            }
        }
    }
}

/// Whether a name fits a pattern, in which `*` is any characters.
fn fits(pattern: &str, name: &str) -> bool {
    let Some((start, rest)) = pattern.split_once('*') else {
        return pattern == name;
    };
    let after = name.strip_prefix(start);
    after.map_or(false, |after| {
        let tails = (0..=after.len()).filter_map(|at| after.get(at..));
        tails.into_iter().any(|tail| fits(rest, tail))
    })
}

/// Whether some file of a folder fits a pattern.
fn any_fits(repository: &Repository, folder: &str, pattern: &str) -> bool {
    let (first, rest) = pattern.split_once('/').unwrap_or((pattern, ""));
    let mut names = repository.names_in(folder).into_iter();
    names.any(|name| {
        let path = format!("{folder}{name}");
        fits(first, &name) && (rest.is_empty() || any_fits(repository, &(path + "/"), rest))
    })
}

/// Whether a path is there, as it is or as a file of definitions or proofs.
pub fn is_there(repository: &Repository, path: &str) -> bool {
    if path.contains('*') {
        any_fits(repository, "", path)
    } else {
        repository.has(path) || repository.has(&format!("{path}.antt"))
    }
}

/// The words of a line that may be paths.
pub fn path_words(line: &str) -> impl Iterator<Item = &str> {
    let splits = |c: char| !(c.is_ascii_alphanumeric() || "_./*-".contains(c));
    line.split(splits).map(|word| {
        let word = word.trim_start_matches("**");
        let word = word.strip_suffix("**").unwrap_or(word);
        word.trim_end_matches(['.', '-'])
    })
}

/// The path that a word names: from the repository's folder, or from a crate's name on.
pub fn path_named(crates: &[String], word: &str) -> Option<String> {
    if FOLDERS.iter().any(|folder| word.starts_with(folder)) {
        return Some(word.to_string());
    }
    let mut parts = word.split('/');
    let of_crate = parts
        .next()
        .map_or(false, |first| crates.iter().any(|name| name == first));
    let goes_on = parts
        .next()
        .map_or(false, |part| PARTS_OF_A_CRATE.contains(&part));
    (of_crate && goes_on).then(|| format!("crates/{word}"))
}

/// The targets of the Makefile.
fn targets(repository: &Repository) -> BTreeSet<String> {
    let text = repository.text("Makefile");
    let rules = text.lines().filter_map(|line| line.split_once(':'));
    let named =
        rules.filter(|(names, _)| !names.starts_with(['\t', '#', '.']) && !names.contains('='));
    named
        .flat_map(|(names, _)| names.split_whitespace().map(str::to_string))
        .collect()
}

/// The targets that a line of code makes.
fn targets_made(code: &str) -> Vec<&str> {
    let words: Vec<&str> = code.split_whitespace().collect();
    let made = words.windows(2).filter(|pair| pair[0] == "make");
    let is_target = |word: &&str| word.chars().all(|c| c.is_ascii_lowercase() || c == '-');
    made.map(|pair| pair[1]).filter(is_target).collect()
}

/// The words of C in a text.
fn c_words(text: &str) -> impl Iterator<Item = &str> {
    text.split(|c: char| !(c.is_ascii_alphanumeric() || c == '_'))
}

/// A line's names that are the repository's own and are not there.
fn unknown_names(
    repository: &Repository,
    crates: &[String],
    c_names: &str,
    line: &str,
) -> Vec<String> {
    let paths = path_words(line).filter_map(|word| path_named(crates, word));
    let lost = paths.filter(|path| !is_there(repository, path));
    let mut faults: Vec<String> = lost.map(|path| format!("{path} is not there")).collect();
    let own = |word: &&str| word.to_lowercase().starts_with("canyonsieve_");
    for name in c_words(line).filter(own) {
        if !c_words(c_names).any(|known| known == name) {
            faults.push(format!(
                "{name} stands neither in the header nor in the Makefile"
            ));
        }
    }
    faults
}

/// Paths, targets and C names of the documents of today are there.
pub fn check_names(repository: &Repository, faults: &mut Faults) {
    let crates = repository.crates();
    let targets = targets(repository);
    let c_names = repository.text("include/canyonsieve.h") + &repository.text("Makefile");
    for document in repository.current() {
        for (number, line) in document.numbered() {
            let line = without_targets(line);
            for words in unknown_names(repository, &crates, &c_names, &line) {
                faults.add(&document.path, number, words);
            }
        }
        for (number, code) in document.code() {
            for target in targets_made(code) {
                if !targets.contains(target) {
                    let words = format!("the Makefile has no target {target}");
                    faults.add(&document.path, number, words);
                }
            }
        }
    }
}

#[cfg(test)]
mod tests {
    use super::*;

    #[test]
    fn patterns_fit() {
        assert!(fits("*.txt", "a.txt") && fits("a*b*c", "abbc") && fits("*", ""));
        assert!(!fits("*.txt", "a.line") && !fits("a*b", "abc") && !fits("a", "ab"));
    }

    #[test]
    fn paths_go_from_the_folder_of_a_document() {
        assert_eq!(path_from("docs/a.md", "b.md"), "docs/b.md");
        assert_eq!(
            path_from("docs/changes/a.md", "../../README.md"),
            "README.md"
        );
    }

    #[test]
    fn paths_are_found_in_words() {
        let crates = ["posts".to_string()];
        let line = "see **docs/A.md**, `posts/specs/Lent` (examples/*.txt). and/or posts/edit";
        let paths: Vec<String> = path_words(line)
            .filter_map(|word| path_named(&crates, word))
            .collect();
        assert_eq!(
            paths,
            ["docs/A.md", "crates/posts/specs/Lent", "examples/*.txt"]
        );
    }

    #[test]
    fn targets_are_found_in_code() {
        assert_eq!(targets_made("make && x"), Vec::<&str>::new());
        assert_eq!(targets_made("a && make install PREFIX=/b"), ["install"]);
    }
}
