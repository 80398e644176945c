//! Holds the engine against the second program on inputs drawn from a fixed seed. Any difference
//! ends the run with the input in hexadecimal; a class with too few inputs fails it too.

mod classes;
mod employers;
mod roundings;
mod supplements;
mod tally;
mod ten_pays;

use classes::{
    Test, ABATEMENT_CLASSES, CASE_CLASSES, CHARGE_CLASSES, DATES_CLASSES, POSTS_CLASSES,
};
use employers::CHANGE_CLASSES;
use roundings::{classify_roundings, expect_roundings, Listed, COUNT_CLASSES};
use second::cases::{read, Case};
use second::posts::{Post, POST_BYTES};
use second::random::Random;
use second::samples::calls::{
    abatement_call, any_abatement_call, any_charge_call, any_dates_call, any_posts_call,
    charge_call, dates_call, every_birth_day, every_day, posts_call, CallCause, PostsCall,
    ABATEMENT_CAUSES, CHARGE_CAUSES, DATES_CAUSES, POSTS_CAUSES,
};
use second::samples::damaged::mixed::{mixed_frames, one_byte_changed, random_damage};
use second::samples::damaged::CAUSES;
use second::samples::employers::{any_change_call, change_call, CHANGE_CAUSES};
use second::samples::roundings::case_going_up;
use second::samples::writing::{case_text, post_records};
use second::samples::{accepted, writing};
use second::{document_01, engine};
use std::fmt::Debug;
use std::process::exit;
use supplements::{SUPPLEMENT_CASE_CLASSES, SUPPLEMENT_CLASSES};
use tally::Tally;
use ten_pays::TEN_PAYS_CLASSES;

const SEED: u64 = 0x0001_9950_0002_0150;

/// The accepted cases, the largest ones among them, those in which all roundings go up, and the texts
/// damaged without a cause named.
const CASES: u64 = 105_000;
const LARGEST_CASES: u64 = 100;
const CASES_GOING_UP: u64 = 600;
const RANDOM_DAMAGES: u64 = 40_000;
const MIXED_FRAMES: u64 = 20_000;

/// The inputs for each cause of refusal; the accepted inputs of each call apart, and those that may
/// be refused.
const FOR_EACH_CAUSE: u64 = 150;
const CALLS: u64 = 40_000;
const ANY_CALLS: u64 = 20_000;

/// The class of all inputs, and the words put before the others, by call.
const ALL_INPUTS: &str = "inputs in all";
const CASE: &str = "case";
const POSTS: &str = "posts";
const CHARGE: &str = "charge";
const DATES: &str = "dates";
const ABATEMENT: &str = "abatement";
const CHANGE: &str = "change of employer";

/// The classes of what is worked once more without supplements, by document 01's rule.
const PLAIN_CASES: &str = "case: once more without supplements, by document 01's rule";
const ACCEPTED_PLAIN_CASES: &str = "case: the same, accepted";
const PLAIN_POSTS: &str = "posts: once more without supplements, by document 01's rule";

/// Guard words on either side of the lent places.
const GUARDS: usize = 4;

fn fail(call: &str, input: &str, given: impl Debug, expected: impl Debug) -> ! {
    println!("DIFFERENCE in {call}");
    println!("input:  {input}");
    println!("engine: {given:?}");
    println!("second: {expected:?}");
    exit(1);
}

fn hexadecimal(bytes: &[u8]) -> String {
    String::from_utf8(writing::digits(bytes)).expect("digits")
}

/// The refusal that a cause names must be the second program's own too.
fn hold_to_cause<Answer: Debug + PartialEq>(
    call: &str,
    words: &str,
    input: &str,
    named: Answer,
    given: Answer,
) {
    if named != given {
        println!("the cause is not the one meant: {call}, {words}");
        fail(call, input, given, named);
    }
}

/// Counts an accepted input in each class whose test it passes.
fn classify<Of>(tally: &mut Tally, call: &str, classes: &[Test<Of>], input: &Of) {
    for (words, _, test) in classes {
        if test(input) {
            tally.add(&format!("{call}: {words}"));
        }
    }
}

fn expect_classes<Of>(tally: &mut Tally, call: &str, classes: &[Test<Of>]) {
    for (words, least, _) in classes {
        tally.expect(&format!("{call}: {words}"), *least);
    }
}

fn cause_words(call: &str, refusal: u64, words: &str) -> String {
    format!("{call} refused by {refusal}: {words}")
}

/// Compares one text and gives its refusal and line.
fn compare_case(tally: &mut Tally, text: &[u8]) -> (u64, u64) {
    let expected = second::case(text);
    let given = engine::case(text);
    if given != expected {
        fail(CASE, &hexadecimal(text), given, expected);
    }
    tally.add(ALL_INPUTS);
    tally.add("inputs of the case call");
    if expected.refusal == 0 {
        tally.add("case: accepted");
        let case = read(text).expect("an accepted text");
        classify(tally, CASE, CASE_CLASSES, &case);
        classify(tally, CASE, TEN_PAYS_CLASSES, &case);
        classify(tally, CASE, SUPPLEMENT_CASE_CLASSES, &case);
        let listed = Listed::of(&case);
        classify(tally, CASE, COUNT_CLASSES, &listed);
        classify_roundings(tally, CASE, &listed);
    }
    if expected.line > 255 {
        tally.add("case: refused at a line above 255");
    }
    if expected.line > 1_000 {
        tally.add("case: refused at a line above 1,000");
    }
    (expected.refusal, expected.line)
}

/// Takes the supplements out of a case and compares it by document 01's rule. A debit may then be above
/// what it is taken from.
fn compare_plain_case(tally: &mut Tally, mut case: Case) {
    for year in &mut case.years {
        year.posts = plain(&year.posts);
    }
    let text = case_text(&case);
    let (expected, given) = (document_01::closed(&case), engine::case(&text));
    if given != expected {
        fail(PLAIN_CASES, &hexadecimal(&text), given, expected);
    }
    tally.add(ALL_INPUTS);
    tally.add(PLAIN_CASES);
    if expected.refusal == 0 {
        tally.add(ACCEPTED_PLAIN_CASES);
    }
}

/// The posts without their supplements.
fn plain(posts: &[Post]) -> Vec<Post> {
    let posts = posts.iter().copied();
    posts.map(Post::without_supplement).collect()
}

/// Compares an accepted case by its text, then once more without supplements.
fn compare_accepted(tally: &mut Tally, case: Case) {
    let text = case_text(&case);
    let given = compare_case(tally, &text);
    hold_to_cause(CASE, "accepted", &hexadecimal(&text), (0, 0), given);
    if read(&text).as_ref() != Ok(&case) {
        fail(CASE, &hexadecimal(&text), "another case", "the case drawn");
    }
    compare_plain_case(tally, case);
    if text.len() == second::frames::LARGEST_TEXT {
        tally.add("case: accepted, 32,768 bytes");
    }
}

fn compare_cases(tally: &mut Tally, random: &mut Random) {
    for number in 0..CASES {
        let case = if number < LARGEST_CASES {
            accepted::largest_case(random)
        } else {
            accepted::case(random)
        };
        compare_accepted(tally, case);
    }
}

fn compare_damaged(tally: &mut Tally, random: &mut Random) {
    for cause in CAUSES {
        for _ in 0..FOR_EACH_CAUSE {
            let damaged = cause.damaged(random);
            let given = compare_case(tally, &damaged.text);
            let input = hexadecimal(&damaged.text);
            let named = (cause.refusal, damaged.line);
            hold_to_cause(CASE, cause.words, &input, named, given);
            tally.add(&cause_words(CASE, cause.refusal, cause.words));
        }
    }
    for text in one_byte_changed(random) {
        let (refusal, _) = compare_case(tally, &text);
        tally.add(&format!("case with one byte changed: refusal {refusal}"));
    }
    for _ in 0..RANDOM_DAMAGES {
        let (refusal, _) = compare_case(tally, &random_damage(random));
        tally.add(&format!("case damaged at random: refusal {refusal}"));
    }
    for _ in 0..MIXED_FRAMES {
        let (refusal, _) = compare_case(tally, &mixed_frames(random));
        tally.add(&format!("case of mixed frames: refusal {refusal}"));
    }
}

/// Compares one posts call, every lent place and the words on both sides of them.
fn compare_posts(tally: &mut Tally, random: &mut Random, call: &PostsCall) -> u64 {
    let words = GUARDS + call.places + GUARDS;
    let mut lent: Vec<u64> = (0..words).map(|_| random.word()).collect();
    let before = lent.clone();
    let mut own = lent.clone();
    let range = GUARDS..GUARDS + call.places;
    let expected = second::posts(&call.bytes, &mut own[range.clone()]);
    let given = engine::posts(&call.bytes, &mut lent[range]);
    let input = || format!("{} with {} places", hexadecimal(&call.bytes), call.places);
    if (given, &lent) != (expected, &own) {
        fail(POSTS, &input(), (given, lent), (expected, own));
    }
    let posts = call.bytes.len() / POST_BYTES;
    let unwritten = if expected.0 == 0 { GUARDS + posts } else { 0 };
    if lent[..GUARDS] != before[..GUARDS] || lent[unwritten..] != before[unwritten..] {
        fail(POSTS, &input(), lent, before);
    }
    tally.add(ALL_INPUTS);
    tally.add("inputs of the posts call");
    if expected.0 == 0 {
        tally.add("posts: accepted");
        if posts < call.places {
            tally.add("posts: spare places");
        }
    }
    expected.0
}

/// Compares accepted posts without supplements by document 01's rule.
fn compare_plain_posts(tally: &mut Tally, posts: &[Post]) {
    let bytes = post_records(posts);
    let mut parts = vec![0; posts.len()];
    let given = engine::posts(&bytes, &mut parts);
    let own = document_01::parts_of(posts);
    let expected = (0, document_01::aggregate_of(posts, &own).number);
    if (given, &parts) != (expected, &own) {
        let input = hexadecimal(&bytes);
        fail(PLAIN_POSTS, &input, (given, parts), (expected, own));
    }
    tally.add(ALL_INPUTS);
    tally.add(PLAIN_POSTS);
}

fn compare_all_posts(tally: &mut Tally, random: &mut Random) {
    for _ in 0..CALLS {
        let call = posts_call(random);
        let refusal = compare_posts(tally, random, &call);
        hold_to_cause(POSTS, "accepted", &hexadecimal(&call.bytes), 0, refusal);
        let posts = posts_of(&call.bytes);
        classify(tally, POSTS, POSTS_CLASSES, &posts);
        classify(tally, POSTS, SUPPLEMENT_CLASSES, &posts);
        compare_plain_posts(tally, &plain(&posts));
    }
    for _ in 0..ANY_CALLS {
        let call = any_posts_call(random);
        let refusal = compare_posts(tally, random, &call);
        tally.add(&format!("posts damaged at random: refusal {refusal}"));
    }
    for cause in POSTS_CAUSES {
        for _ in 0..FOR_EACH_CAUSE {
            let call = (cause.make)(random);
            let refusal = compare_posts(tally, random, &call);
            let input = hexadecimal(&call.bytes);
            hold_to_cause(POSTS, cause.words, &input, cause.refusal, refusal);
            tally.add(&cause_words(POSTS, cause.refusal, cause.words));
        }
    }
}

/// The posts of accepted bytes, read through a text of one year.
fn posts_of(bytes: &[u8]) -> Vec<Post> {
    let mut frames = vec![b"\x01\x07\xB2\x04\x01\x07\xF5\x04\x01\x00\x43\x00".to_vec()];
    frames.push(vec![2, 0x07, 0xDF, 0, 0]);
    let records = bytes.chunks(POST_BYTES);
    frames.extend(records.map(|record| [&[3], record].concat()));
    let text = writing::text_of(&writing::lines_of(&frames));
    let mut case = read(&text).expect("a case of accepted posts");
    case.years.remove(0).posts
}

/// Compares a call of numbers: accepted inputs, then each cause of refusal.
struct NumbersCall<Input: 'static, Number> {
    name: &'static str,
    draw: fn(&mut Random) -> Input,
    draw_any: fn(&mut Random) -> Input,
    engine: fn(&Input) -> (u64, Number),
    second: fn(&Input) -> (u64, Number),
    causes: &'static [CallCause<Input>],
    classes: &'static [Test<Input>],
}

impl<Input: Debug, Number: Debug + PartialEq> NumbersCall<Input, Number> {
    fn expect(&self, tally: &mut Tally) {
        tally.expect(&format!("inputs of the {} call", self.name), CALLS);
        expect_classes(tally, self.name, self.classes);
        for cause in self.causes {
            tally.expect(&cause_words(self.name, cause.refusal, cause.words), 50);
        }
    }

    fn compare(&self, tally: &mut Tally, input: &Input) -> u64 {
        let (expected, given) = ((self.second)(input), (self.engine)(input));
        if given != expected {
            fail(self.name, &format!("{input:X?}"), given, expected);
        }
        tally.add(ALL_INPUTS);
        tally.add(&format!("inputs of the {} call", self.name));
        expected.0
    }

    fn compare_all(&self, tally: &mut Tally, random: &mut Random) {
        for _ in 0..CALLS {
            let input = (self.draw)(random);
            let refusal = self.compare(tally, &input);
            hold_to_cause(self.name, "accepted", &format!("{input:X?}"), 0, refusal);
            classify(tally, self.name, self.classes, &input);
        }
        for _ in 0..ANY_CALLS {
            let refusal = self.compare(tally, &(self.draw_any)(random));
            tally.add(&format!("{} at limits: refusal {refusal}", self.name));
        }
        for cause in self.causes {
            for _ in 0..FOR_EACH_CAUSE {
                let input = (cause.make)(random);
                let refusal = self.compare(tally, &input);
                let words = format!("{input:X?}");
                hold_to_cause(self.name, cause.words, &words, cause.refusal, refusal);
                tally.add(&cause_words(self.name, cause.refusal, cause.words));
            }
        }
    }
}

const CHARGE_CALL: NumbersCall<[u64; 10], u64> = NumbersCall {
    name: CHARGE,
    draw: charge_call,
    draw_any: any_charge_call,
    engine: engine::charge,
    second: second::charge,
    causes: CHARGE_CAUSES,
    classes: CHARGE_CLASSES,
};

const DATES_CALL: NumbersCall<[u64; 7], i64> = NumbersCall {
    name: DATES,
    draw: dates_call,
    draw_any: any_dates_call,
    engine: engine::months_early,
    second: second::months_early,
    causes: DATES_CAUSES,
    classes: DATES_CLASSES,
};

const ABATEMENT_CALL: NumbersCall<[u64; 4], u64> = NumbersCall {
    name: ABATEMENT,
    draw: abatement_call,
    draw_any: any_abatement_call,
    engine: engine::abatement,
    second: second::abatement,
    causes: ABATEMENT_CAUSES,
    classes: ABATEMENT_CLASSES,
};

const CHANGE_CALL: NumbersCall<[u64; 15], (u64, u64)> = NumbersCall {
    name: CHANGE,
    draw: change_call,
    draw_any: any_change_call,
    engine: engine::change_of_employer,
    second: second::change_of_employer,
    causes: CHANGE_CAUSES,
    classes: CHANGE_CLASSES,
};

/// Names the classes of inputs drawn without a cause, so that they are printed in order.
fn expect_refusals(tally: &mut Tally) {
    for words in [
        "case with one byte changed",
        "case damaged at random",
        "case of mixed frames",
    ] {
        for refusal in (0..=14).chain([27, 28]) {
            tally.expect(&format!("{words}: refusal {refusal}"), 0);
        }
    }
}

/// Names every class that must be reached.
fn expected() -> Tally {
    let mut tally = Tally::default();
    tally.expect(ALL_INPUTS, 200_000);
    tally.expect("inputs of the case call", 100_000);
    tally.expect("case: accepted", 40_000);
    tally.expect("case: accepted, 32,768 bytes", 50);
    expect_classes(&mut tally, CASE, CASE_CLASSES);
    expect_classes(&mut tally, CASE, TEN_PAYS_CLASSES);
    expect_classes(&mut tally, CASE, SUPPLEMENT_CASE_CLASSES);
    tally.expect(PLAIN_CASES, CASES);
    tally.expect(ACCEPTED_PLAIN_CASES, 50_000);
    expect_classes(&mut tally, CASE, COUNT_CLASSES);
    expect_roundings(&mut tally, CASE);
    tally.expect("case: refused at a line above 255", 50);
    tally.expect("case: refused at a line above 1,000", 50);
    for cause in CAUSES {
        tally.expect(&cause_words(CASE, cause.refusal, cause.words), 50);
    }
    tally.expect("inputs of the posts call", CALLS);
    tally.expect("posts: accepted", CALLS);
    tally.expect("posts: spare places", 1_000);
    expect_classes(&mut tally, POSTS, POSTS_CLASSES);
    expect_classes(&mut tally, POSTS, SUPPLEMENT_CLASSES);
    tally.expect(PLAIN_POSTS, CALLS);
    for cause in POSTS_CAUSES {
        tally.expect(&cause_words(POSTS, cause.refusal, cause.words), 50);
    }
    CHARGE_CALL.expect(&mut tally);
    DATES_CALL.expect(&mut tally);
    ABATEMENT_CALL.expect(&mut tally);
    CHANGE_CALL.expect(&mut tally);
    expect_refusals(&mut tally);
    tally
}

fn main() {
    let mut tally = expected();
    let mut random = Random::new(SEED);
    compare_all_posts(&mut tally, &mut random);
    CHARGE_CALL.compare_all(&mut tally, &mut random);
    DATES_CALL.compare_all(&mut tally, &mut random);
    for call in every_day() {
        let refusal = DATES_CALL.compare(&mut tally, &call);
        tally.add(&format!("dates, every day: refusal {refusal}"));
    }
    for call in every_birth_day() {
        let refusal = DATES_CALL.compare(&mut tally, &call);
        tally.add(&format!("dates, every birth day: refusal {refusal}"));
    }
    ABATEMENT_CALL.compare_all(&mut tally, &mut random);
    compare_cases(&mut tally, &mut random);
    compare_damaged(&mut tally, &mut random);
    CHANGE_CALL.compare_all(&mut tally, &mut random);
    for _ in 0..CASES_GOING_UP {
        compare_accepted(&mut tally, case_going_up(&mut random));
    }
    if !tally.reached() {
        println!("some class has too few inputs");
        exit(1);
    }
    println!("no difference");
}
