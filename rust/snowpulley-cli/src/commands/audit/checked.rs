//! What was checked of an answer: who gave which part of it, what is proved of
//! the library's part, and what nobody checked.

/// What is proved, in plain words, and its name in docs/AUDIT.md.
pub type Proved = (&'static str, &'static str);

pub struct Checked {
    /// What the library answered, and what the tool worked out.
    pub sources: &'static str,
    pub theorems: &'static [Proved],
}

/// The contract that every answer keeps.
pub const CONTRACT: Proved = (
    "Whatever the list and the key, the library answers just what the definition of this report \
     says.",
    "explain",
);

pub const WINNER: Checked = Checked {
    sources: "The proved library answered which delivery is in force (WON), and how each other \
              one compares with it. The tool itself read the fields of each delivery and counted \
              the deliveries.",
    theorems: &[
        (
            "The delivery in force is what a new store holds, and all that it holds, after the \
             deliveries of this key were offered to it in the order of the list.",
            "winner_is_held",
        ),
        (
            "Each outcome is true of the stamps of its delivery and of the one in force, and of \
             their contents where the stamps are the same. One delivery is in force; if the same \
             entry came more than once, the first of them.",
            "reasons_mean",
        ),
    ],
};

pub const NO_DELIVERY: Checked = Checked {
    sources: "The proved library answered that no delivery is of this key. The tool itself read \
              the fields of each delivery and counted the deliveries.",
    theorems: &[
        (
            "Every delivery of the list is of another key, and its outcome says so.",
            "none_means",
        ),
        (
            "A new store that was offered the deliveries of this key is still empty.",
            "winner_is_held",
        ),
    ],
};

pub const UNREADABLE: Checked = Checked {
    sources: "The proved library answered that the list is not readable, and no more. Which \
              delivery cannot be read, and why, is the tool's own reading.",
    theorems: &[
        (
            "This answer is given for every list that is not readable, and for no other.",
            "report_refused",
        ),
        (
            "A list is readable exactly if it has at most 1,000 frames (messages), one behind the \
             other, and each of them reads as a REPL.",
            "readable_exactly",
        ),
    ],
};

impl Checked {
    /// What is proved, by name.
    pub fn names(&self) -> String {
        let names: Vec<&str> = self.theorems.iter().map(|(_, name)| *name).collect();
        let theorems = match names.len() {
            1 => "theorem",
            _ => "theorems",
        };
        let (contract, names) = (CONTRACT.1, names.join(", "));
        format!("Proved: contract of {contract}; {theorems} {names} (docs/AUDIT.md).")
    }
}

/// Above what the answer does not say.
pub const LIMITS_TITLE: &str = "What this report does not say";

pub const LIMITS: [&str; 6] = [
    "The module's own PUT and DEL (what was set or deleted on the module itself), and what came \
     in a merged store (all of another module's at once), are not in the list. If one of them has \
     a greater stamp, or the same stamp and higher contents, the module holds that one, or nothing \
     if it was a tombstone that a purge removed.",
    "The list may lack deliveries that came, or have some that did not come.",
    "The module may have refused a delivery of the list, as with a full store, with a clock that \
     can count no further, or below its purge line. A purge may have removed a tombstone that is \
     in force here.",
    "A module's clock may have been wrong. The stamps are taken as they are.",
    "A reused stamp is pointed out only where the delivery in force has it: deliveries that lost \
     by their stamps are not compared with each other.",
    "The tool that made this report is tested, not proved.",
];
