//! Lists of German words in dictionary order, and words that can be cut into them in several ways.
use crate::tree;

/// Eight words, into which Staubecken and Wachstube can be cut in two ways each.
pub const EIGHT: [&str; 8] = [
    "becken", "ecken", "stau", "staub", "stube", "tube", "wach", "wachs",
];

/// Many words; their tree has 210 states.
#[rustfmt::skip]
pub const MANY: [&str; 65] = [
    "alt", "arme", "ast", "bau", "bauch", "baum", "becken", "bein", "charme", "der", "druck", "drucker", "ecken", "eil", "eisen",
    "ende", "endung", "ente", "er", "erde", "erleben", "erzeugnis", "fluch", "flucht", "gelder", "haltung", "haus", "instinkt",
    "land", "leben", "mast", "musik", "musiker", "nach", "nacht", "nachteil", "rand", "raum", "see", "spar", "spargel", "stau",
    "staub", "staubecken", "stinkt", "stube", "tal", "talent", "teil", "tier", "tisch", "topf", "traum", "tube", "ur", "urin",
    "vers", "wach", "wachs", "wacht", "wachtraum", "zeit", "zeug", "zeugnis", "zug",
];

/// Words with the number of ways to cut them into the many words; the longest have 63 and 64 letters.
pub const COMPOUNDS: [(&str, usize); 17] = [
    ("staubecken", 3),
    ("wachstube", 2),
    ("wachtraum", 3),
    ("baumast", 2),
    ("musikerleben", 3),
    ("druckerzeugnis", 3),
    ("nachteilzug", 3),
    ("fluchtraum", 2),
    ("altbaucharme", 2),
    ("urinstinkt", 2),
    ("spargelder", 2),
    ("talente", 1),
    ("landhaus", 1),
    ("haustiere", 0),
    ("wachstub", 0),
    (
        "wachtraumstaubeckenbaumastmusikerlebendruckerzeugnisnachteilzug",
        486,
    ),
    (
        "fluchtraumwachtraumwachstubestaubeckenbaumastnachteilzugaltbauch",
        216,
    ),
];

/// Words as letters.
pub fn letters(words: &[&str]) -> Vec<Vec<u8>> {
    words.iter().map(|word| tree::letters(word)).collect()
}
