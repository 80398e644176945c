//! Counts of inputs by class, each class with the least count it must reach.

use std::collections::HashMap;

struct Class {
    words: String,
    least: u64,
    count: u64,
}

#[derive(Default)]
pub struct Tally {
    classes: Vec<Class>,
    places: HashMap<String, usize>,
}

impl Tally {
    /// Names a class and the least count of it.
    pub fn expect(&mut self, words: &str, least: u64) {
        self.places.insert(words.to_string(), self.classes.len());
        self.classes.push(Class {
            words: words.to_string(),
            least,
            count: 0,
        });
    }

    /// Counts one input of a class; one not named before needs none.
    pub fn add(&mut self, words: &str) {
        if !self.places.contains_key(words) {
            self.expect(words, 0);
        }
        self.classes[self.places[words]].count += 1;
    }

    /// Prints all counts and says whether each class has reached its least.
    pub fn reached(&self) -> bool {
        let named = |class: &&Class| class.count > 0 || class.least > 0;
        for class in self.classes.iter().filter(named) {
            let short = if class.count < class.least {
                "  TOO FEW"
            } else {
                ""
            };
            println!(
                "{:>8} (at least {:>6})  {}{short}",
                class.count, class.least, class.words
            );
        }
        self.classes.iter().all(|class| class.count >= class.least)
    }
}
