//! The twin held against the library: the refusal, the line, the amounts and the count of upward
//! roundings of every text, and every place of the posts call.

use crate::texts::{section_2008, supplements};
use crate::twin;
use second::engine;
use second::posts::POST_BYTES;
use second::random::Random;
use second::samples::calls::{any_posts_call, posts_call, POSTS_CAUSES};
use second::samples::damaged::mixed::{mixed_frames, one_byte_changed, random_damage};
use second::samples::damaged::CAUSES;
use second::samples::{accepted, writing};
use std::collections::BTreeMap;
use std::fmt::Debug;
use std::path::Path;
use std::process::exit;
use std::{fs, io};

/// The inputs drawn of each kind.
const ACCEPTED: u64 = 10_000;
const LARGEST: u64 = 20;
const DAMAGED: u64 = 20_000;
const MIXED: u64 = 10_000;
const FOR_EACH_CAUSE: u64 = 50;
const POSTS_CALLS: u64 = 10_000;
const SECTION_2008: u64 = 10_000;
const FOR_EACH_CLASS: u64 = 4_000;

/// Prints an input on which the two differ, and ends.
fn fail(call: &str, input: &[u8], library: impl Debug, twin: impl Debug) -> ! {
    println!("DIFFERENCE in {call}");
    println!("input:   {}", String::from_utf8_lossy(input));
    println!("library: {library:?}");
    println!("twin:    {twin:?}");
    exit(1);
}

/// Compares one text and gives its refusal.
fn compare_case(text: &[u8]) -> u64 {
    let library = engine::case(text);
    let twin = twin::case(text);
    if library != twin {
        fail("the case call", text, library, twin);
    }
    twin.refusal
}

/// Compares one posts call and gives its refusal. Every place holds a word before, so that one left
/// alone shows.
fn compare_posts(bytes: &[u8], places: usize) -> u64 {
    let mut library_places = vec![0xA5A5_A5A5_A5A5_A5A5; places];
    let mut twin_places = library_places.clone();
    let library = engine::posts(bytes, &mut library_places);
    let twin = twin::posts(bytes, &mut twin_places);
    if (library, &library_places) != (twin, &twin_places) {
        let input = writing::digits(bytes);
        let library = (library, library_places);
        fail("the posts call", &input, library, (twin, twin_places));
    }
    twin.0
}

/// Compares texts and prints how many they were, by refusal.
fn compare_cases(words: &str, texts: impl IntoIterator<Item = Vec<u8>>) {
    print_counts(words, texts.into_iter().map(|text| compare_case(&text)));
}

fn print_counts(words: &str, refusals: impl Iterator<Item = u64>) {
    let mut counts: BTreeMap<u64, u64> = BTreeMap::new();
    for refusal in refusals {
        *counts.entry(refusal).or_default() += 1;
    }
    let total: u64 = counts.values().sum();
    print!("{total:>8}  {words}; by refusal");
    for (refusal, count) in counts {
        print!(" {refusal}: {count}");
    }
    println!();
}

/// Compares the texts of a size, none of which may be refused.
pub fn compare_size(texts: &[Vec<u8>]) {
    for text in texts {
        if compare_case(text) != 0 {
            fail("a text to be timed", text, "refused", "refused");
        }
    }
}

/// Compares a list of posts, with as many places, and gives its refusal.
fn compare_list(list: &[u8]) -> u64 {
    compare_posts(list, list.len() / POST_BYTES)
}

/// Compares lists of posts, none of which may be refused.
pub fn compare_lists(lists: &[Vec<u8>]) {
    for list in lists {
        if compare_list(list) != 0 {
            let input = writing::digits(list);
            fail("a list to be timed", &input, "refused", "refused");
        }
    }
}

/// The refusal given of an input in digits, which has to be the one wanted.
fn as_wanted(words: &str, input: &[u8], given: u64, wanted: u64) -> u64 {
    if given != wanted {
        fail(words, input, given, wanted);
    }
    given
}

/// Compares texts, each with the refusal wanted of it.
fn compare_refused(words: &str, texts: impl Iterator<Item = (u64, Vec<u8>)>) {
    let refusals = texts.map(|(wanted, text)| {
        let given = compare_case(&text);
        as_wanted(words, &text, given, wanted)
    });
    print_counts(words, refusals);
}

/// Compares lists of posts, each with the refusal wanted of it.
fn compare_refused_lists(words: &str, lists: impl Iterator<Item = (u64, Vec<u8>)>) {
    let refusals = lists.map(|(wanted, list)| {
        let given = compare_list(&list);
        as_wanted(words, &writing::digits(&list), given, wanted)
    });
    print_counts(words, refusals);
}

/// Compares every example, and each with its line.
fn compare_examples() -> io::Result<()> {
    let folder = Path::new(env!("CARGO_MANIFEST_DIR")).join("../examples");
    let mut refusals = Vec::new();
    for entry in fs::read_dir(folder)? {
        let path = entry?.path();
        if path.extension().map_or(true, |ending| ending != "txt") {
            continue;
        }
        let text = fs::read(&path)?;
        refusals.push(compare_case(&text));
        let line = fs::read(path.with_extension("line"))?;
        let printed = second::cases::printed(&twin::case(&text));
        if printed != line {
            fail("an example's line", &text, line, printed);
        }
    }
    print_counts("examples, their lines too", refusals.into_iter());
    Ok(())
}

/// Texts of the second program: accepted, damaged by each cause that document 01 names, damaged at
/// random.
fn compare_samples(random: &mut Random) {
    let accepted = (0..ACCEPTED).map(|_| writing::case_text(&accepted::case(random)));
    compare_cases("accepted texts", accepted);
    let largest = (0..LARGEST).map(|_| writing::case_text(&accepted::largest_case(random)));
    compare_cases("accepted texts of 32,768 bytes", largest);
    let causes = CAUSES
        .iter()
        .flat_map(|cause| [cause; FOR_EACH_CAUSE as usize]);
    let damaged = causes.map(|cause| cause.damaged(random).text);
    compare_cases("texts damaged by each cause", damaged);
    let changed = one_byte_changed(random);
    compare_cases("one byte of a text changed, or cut short", changed);
    let damaged = (0..DAMAGED).map(|_| random_damage(random));
    compare_cases("texts damaged at random", damaged);
    let mixed = (0..MIXED).map(|_| mixed_frames(random));
    compare_cases("texts of mixed frames", mixed);
}

/// Lists of posts of the second program.
fn compare_posts_calls(random: &mut Random) {
    let accepted = (0..POSTS_CALLS).map(|_| posts_call(random));
    let accepted = accepted.map(|call| compare_posts(&call.bytes, call.places));
    print_counts("accepted posts calls", accepted);
    let damaged = (0..POSTS_CALLS).map(|_| any_posts_call(random));
    let damaged = damaged.map(|call| compare_posts(&call.bytes, call.places));
    print_counts("posts calls damaged at random", damaged);
    let causes = POSTS_CAUSES
        .iter()
        .flat_map(|cause| [cause; FOR_EACH_CAUSE as usize]);
    let refused = causes.map(|cause| (cause.make)(random));
    let refused = refused.map(|call| compare_posts(&call.bytes, call.places));
    print_counts("posts calls refused by each cause", refused);
}

/// Texts of the 2008 Section, those of each cause refused by its number.
fn compare_section_2008(random: &mut Random) {
    let drawn = (0..SECTION_2008).map(|_| section_2008::drawn(random));
    compare_cases("texts of the 2008 Section", drawn);
    let refused = (0..FOR_EACH_CAUSE).flat_map(|_| section_2008::refused(random));
    let words = "texts of the 2008 Section refused by each cause";
    compare_refused(words, refused);
}

/// Lists of posts and texts of each class of supplements, and those of each cause refused by its
/// number.
fn compare_supplements(random: &mut Random) {
    for class in &supplements::CLASSES {
        let lists = (0..FOR_EACH_CLASS).map(|_| compare_list(&class.list(random)));
        print_counts(&format!("lists of posts {}", class.words), lists);
        let texts = (0..FOR_EACH_CLASS).map(|_| class.text(random));
        compare_cases(&format!("texts {}", class.words), texts);
    }
    let refused = (0..FOR_EACH_CAUSE).flat_map(|_| supplements::refused_lists(random));
    let words = "lists of posts with supplements refused by each cause";
    compare_refused_lists(words, refused);
    let refused = (0..FOR_EACH_CAUSE).flat_map(|_| supplements::refused_texts(random));
    let words = "texts with supplements refused by each cause";
    compare_refused(words, refused);
}

/// Compares all but the inputs that are timed.
pub fn compare_all(random: &mut Random) -> io::Result<()> {
    compare_examples()?;
    compare_samples(random);
    compare_posts_calls(random);
    compare_section_2008(random);
    compare_supplements(random);
    Ok(())
}
