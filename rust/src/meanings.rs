//! What each refusal number means.

/// What a refusal number means, in words for a person.
#[derive(Clone, Copy, Debug, PartialEq, Eq)]
pub struct Meaning {
    /// The number.
    pub number: u32,
    /// What is wrong.
    pub what: &'static str,
    /// How to mend it.
    pub mend: &'static str,
}

/// The meanings of all numbers, in order.
pub fn meanings() -> &'static [Meaning] {
    &MEANINGS
}

const MEANINGS: [Meaning; 23] = [
    Meaning {
        number: 1,
        what: "the page is longer than 16,384 bytes",
        mend: "shorten the remarks behind the full stops",
    },
    Meaning {
        number: 2,
        what: "a character is not allowed: a page has plain ASCII characters and LF line ends only",
        mend: "look for tabs, CR line ends and accented letters: LC_ALL=C grep -n '[^ -~]' PAGE shows \
               the lines",
    },
    Meaning {
        number: 3,
        what: "this line is not what a page has at this place",
        mend: "in order: `A NAME is formatted as follows:`, an empty line, two rulers, a border, rows \
               with a border below each, an empty line, `where:`, an empty line, field lines. A row is \
               one line between `:`, or 1 to 4 lines between `|` with the same bars in each. A line of it \
               is as long as its border and has bars at even columns only (counted from 0), and each cell \
               has a label: downwards in a cell of one bit, else line by line. No line, its remark included, \
               is over 1,024 bytes",
    },
    Meaning {
        number: 4,
        what: "there are over 128 cells or over 128 field lines",
        mend: "every line below `where:` counts as a field",
    },
    Meaning {
        number: 5,
        what: "this field line has not the form of one, or its width is not 1 to 32 bits",
        mend: "the form is `Label (Short): 2 bytes; CONSTRAINT; present only when CONDITION.` and behind \
               the full stop nothing, or a space and a remark. Short name, constraint and condition may \
               be left out. At most one space on each side of an operator, none inside parentheses",
    },
    Meaning {
        number: 6,
        what: "an expression on this line is too large: its depth is over 12 or its stored form over 120 \
               bytes",
        mend: "a number or name has depth 1, an operator 1 more than its deepest operand: write it with \
               fewer operators inside each other, or with fewer numbers",
    },
    Meaning {
        number: 7,
        what: "this field line and its cell in the diagram disagree",
        mend: "cells and field lines belong together in their order. The cell shows the label or the \
               short name. A field of fixed width has a cell as wide as itself between `|`, any other a \
               row of its own between `:`",
    },
    Meaning {
        number: 8,
        what: "an earlier field has a name of this one: its label or short name is there already",
        mend: "choose another one: no label or short name of a field is either name of another; case counts",
    },
    Meaning {
        number: 9,
        what: "an expression on this line reads a name that it cannot read, or mixes numbers with yes \
               and no",
        mend: "a name is that of a fixed field on an earlier line, its short name or a label of that \
               form; a constraint may read its own field too. A width is a number, a constraint or \
               condition a comparison",
    },
    Meaning {
        number: 10,
        what: "this field cannot stand behind the `variable` one",
        mend: "behind it only fields of fixed width without a condition may follow, and only one field \
               is `variable`",
    },
    Meaning { number: 11, what: "the output is too short", mend: "give it more room" },
    Meaning {
        number: 21,
        what: "this is not a good table",
        mend: "write it again from its page with `umarekoza table PAGE -o TABLE`",
    },
    Meaning {
        number: 22,
        what: "the packet is longer than 8,191 bytes",
        mend: "see that the file holds one packet only; one that is written in hexadecimal needs `--hex`",
    },
    Meaning { number: 23, what: "the run is too short", mend: "give it four numbers a field" },
    Meaning {
        number: 24,
        what: "the packet ends before the bits of this field do",
        mend: "the packet is cut short, or the page gives this field or an earlier one too many bits",
    },
    Meaning {
        number: 25,
        what: "the value breaks the constraint of this field",
        mend: "the packet is of another kind than the page (one that is written in hexadecimal needs \
               `--hex`), or the page is too strict",
    },
    Meaning {
        number: 26,
        what: "an expression of this field reads a field that is absent",
        mend: "test first, on the page, whether that field is there, as in `L == 1 && Bor > 0`",
    },
    Meaning {
        number: 27,
        what: "a step of an expression of this field is below 0 or over 4,294,967,295",
        mend: "look on the page for a difference that falls below 0 or a product or power that grows too \
               large, or test first, as in `N >= 2 && N - 2 < 5`",
    },
    Meaning {
        number: 28,
        what: "bits are left over behind the last field",
        mend: "the packet is longer than the page says; a field of `variable` width takes what is left",
    },
    Meaning {
        number: 29,
        what: "an expression of this field divides by zero, by `/` or by `%`",
        mend: "test the divisor first, on the page, as in `N != 0 && 6 / N < 5`",
    },
    Meaning {
        number: 30,
        what: "no field has this name or index",
        mend: "give a label, a short name or an index from 0",
    },
    Meaning {
        number: 31,
        what: "this field is left, and reads one that is to be cut out",
        mend: "cut it out too, or write its expression on the page without that field",
    },
    Meaning {
        number: 34,
        what: "the fields that there would be make no good table",
        mend: "at least 1 field and at most 128, no name twice, widths that fill the rows, references to \
               earlier fixed fields only, and one field of `variable` width at most, with fixed ones \
               behind it: cut out or put in more fields at once, or mend the page and write its table again",
    },
];

#[cfg(test)]
mod tests {
    use super::meanings;
    use crate::{FIELDS_MOST, PACKET_MOST, TEXT_MOST};

    /// A number with a comma before its last three digits.
    fn spelled(number: usize) -> String {
        match (number / 1000, number % 1000) {
            (0, number) => number.to_string(),
            (thousands, rest) => format!("{},{rest:03}", spelled(thousands)),
        }
    }

    #[test]
    fn every_number_has_one_meaning() {
        let numbers: Vec<u32> = meanings().iter().map(|meaning| meaning.number).collect();
        let expected: Vec<u32> = (1..=11).chain(21..=31).chain([34]).collect();
        assert_eq!(numbers, expected);
    }

    #[test]
    fn limits_in_words() {
        for (number, limit) in [(1, TEXT_MOST), (4, FIELDS_MOST), (22, PACKET_MOST)] {
            let meaning = meanings().iter().find(|meaning| meaning.number == number).unwrap();
            assert!(meaning.what.contains(&spelled(limit)), "{}", meaning.what);
        }
    }
}
