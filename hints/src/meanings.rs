//! What each refusal number means, where no more can be told, and how to mend what is refused.

/// What is wrong, and how to mend it.
type Meaning = (&'static str, &'static str);

/// The meaning of a refusal number.
pub fn meaning_of(number: u32) -> Meaning {
    let found = MEANINGS.iter().find(|(known, ..)| *known == number);
    found.map_or(("it is refused", "document 01 has the meaning of the number"), |(_, what, mend)| {
        (what, mend)
    })
}

const MEANINGS: [(u32, &str, &str); 23] = [
    (1, "the page is too long", "a page has at most 16,384 bytes"),
    (
        2,
        "a character is not allowed",
        "a page has the characters from space to `~` and LF line ends, no others",
    ),
    (
        3,
        "this line is not what a page has at this place",
        "docs/RULES.md has the order of the lines, each of at most 1,024 bytes",
    ),
    (4, "there are too many fields", "at most 128 cells and 128 field lines"),
    (5, "this field line has not the form of one", "docs/RULES.md has the form of a field line"),
    (6, "an expression on this line is too large", "at most depth 12 and 120 stored bytes"),
    (7, "this field line and its cell disagree", "cells and field lines belong together in their order"),
    (
        8,
        "an earlier field has a name of this one",
        "no label or short name of a field is either name of another",
    ),
    (
        9,
        "an expression on this line has a wrong name or type",
        "only earlier fixed fields are read, by a short name or a label of that form",
    ),
    (
        10,
        "this field cannot stand behind the `variable` one",
        "only fixed fields without a condition follow it",
    ),
    (11, "the output is too short", "give it more room"),
    (21, "this is not a good table", "write it again from its page"),
    (22, "the packet is too long", "a packet has at most 8,191 bytes"),
    (23, "the run is too short", "give it four numbers a field"),
    (
        24,
        "the packet ends before the bits of this field do",
        "the packet is cut short, or a width is too large",
    ),
    (
        25,
        "the value breaks the constraint of this field",
        "the packet is of another kind, or the page too strict",
    ),
    (26, "an expression of this field reads an absent field", "test first whether that field is there"),
    (27, "a step of an expression of this field leaves 0 to 4,294,967,295", "test the numbers first"),
    (28, "bits are left over behind the last field", "the packet is longer than the page says"),
    (29, "an expression of this field divides by zero", "test the divisor first"),
    (30, "no field has this name or index", "give a label, a short name or an index from 0"),
    (31, "this field is left, and reads one that is to be cut out", "cut it out too, or mend the page"),
    (34, "the fields that there would be make no good table", "docs/RULES.md has the rules on fields"),
];
