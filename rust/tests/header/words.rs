//! The words for refusals that the program in Rattle writes, and those of its definitions.

use crate::rattle::Sources;
use crate::syntax::{between, without_comments};

const SOURCE: &str = "wrong_words/lib.rt";
const DEFINITIONS: &str = "wrong_words/Words.antt";

/// What is none of the others.
pub const ELSE: &str = "_";

/// Names and the words for them, in order.
pub type Words = Vec<(String, String)>;

/// The cases of `Reason`, in the order of the numbers that reading tells.
pub fn reasons(sources: &Sources) -> Vec<String> {
    let text = without_comments(&sources["refusal/lib.rt"]);
    let (cases, _) = between(&text, "pub enum Reason {", "}").expect("the enum");
    cases.split_whitespace().map(name).collect()
}

/// What a function answers, by the cases of its match: `Reason::Flags => b"..",`, on one line or on several.
pub fn answered(sources: &Sources, function: &str) -> Words {
    let (body, _) =
        between(&sources[SOURCE], &format!("fn {function}("), "\n}").expect("the function");
    let pieces: Vec<_> = body.split(" => ").collect();
    let arms = pieces.windows(2);
    arms.map(|arm| {
        let case = arm[0].lines().last().expect("a case");
        let (words, _) = between(arm[1], "b\"", "\"").expect("words");
        (name(case), words.to_string())
    })
    .collect()
}

/// What is wrong, a line for each reason: `wrong_words why.Flags = ascii ".."`.
pub fn defined_for_reasons(definitions: &Sources) -> Words {
    let lines = definitions[DEFINITIONS].lines();
    lines
        .filter_map(|line| line.strip_prefix("wrong_words ")?.split_once(" = "))
        .map(|(case, text)| {
            let (words, _) = between(text, "ascii \"", "\"").expect("words");
            (name(case), words.to_string())
        })
        .collect()
}

/// The layers, by the constants of their places: `pick (eqb place root) (ascii "..") (ascii "..")`.
pub fn defined_for_layers(definitions: &Sources) -> Words {
    let (body, _) = between(&definitions[DEFINITIONS], "\nlayer_words place =", "\n\n")
        .expect("the definition");
    let pieces: Vec<_> = body.split("(ascii \"").collect();
    let pairs = pieces.windows(2);
    pairs
        .map(|pair| {
            let place = between(pair[0], "(eqb place ", ")").map_or(ELSE, |(name, _)| name);
            let (words, _) = pair[1].split_once('"').expect("the words' end");
            (place.to_uppercase(), words.to_string())
        })
        .collect()
}

/// The name in `Vector(VectorIn),`, in `Reason::Vector(_)` or in `(why.Vector v)`.
fn name(case: &str) -> String {
    let mut words = case.split([' ', '(', ')', ',']);
    let path = words.find(|word| !word.is_empty()).expect("a case");
    let name = path.rsplit([':', '.']).next();
    name.expect("a case's name").to_string()
}
