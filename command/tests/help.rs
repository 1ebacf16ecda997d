//! Help, the meanings of numbers, the man page and the completions: all from one list of verbs and options.

mod common;

use common::*;

const VERBS: [&str; 11] =
    ["table", "read", "bytes", "check", "readers", "cut", "put", "convert", "explain", "man", "completions"];
const OPTIONS: [&str; 11] =
    ["output", "hex", "lines", "json", "field", "page", "table", "to-hex", "recursive", "before", "dry-run"];

#[test]
fn help_of_each_verb() {
    let place = Place::new("help");
    let help = place.run(&["--help"]);
    assert_eq!((help.status, help.err.as_str()), (0, ""));
    place.run(&["help"]).accepted(&help.out);
    for verb in VERBS {
        assert!(help.text().contains(&format!("\n  {verb} ")), "{verb}");
        let of_verb = place.run(&["help", verb]);
        assert!(of_verb.text().contains(&format!("Usage: umarekoza {verb}")), "{}", of_verb.text());
        place.run(&[verb, "--help"]).accepted(&of_verb.out);
    }
    assert!(help.text().contains("Exit status: 0 accepted, 1 refused, 2 wrong arguments"));
    place.run(&["--version"]).accepted(concat!("umarekoza ", env!("CARGO_PKG_VERSION"), "\n"));
}

#[test]
fn what_a_number_means() {
    let place = Place::new("explain");
    place.run(&["explain", "28"]).accepted(
        "28: bits are left over behind the last field\n  \
         to mend it: the packet is longer than the page says; a field of `variable` width takes what is left\n",
    );
    let six = place.run(&["explain", "6"]).text();
    assert!(six.contains("its depth is over 12") && six.contains("a number or name has depth 1"));
    let all = place.run(&["explain"]).text();
    let known = |number: u32| {
        all.contains(&format!("{number}: ")) && place.run(&["explain", &number.to_string()]).status == 0
    };
    assert!((1..=11).chain(21..=31).chain([34]).all(known));
    let numbers = "1, 2, 3, 4, 5, 6, 7, 8, 9, 10, 11, 21, 22, 23, 24, 25, 26, 27, 28, 29, 30, 31, 34";
    let unknown = format!("umarekoza: no refusal has the number 12; the numbers are {numbers}\n");
    place.run(&["explain", "12"]).left(2, "", &unknown);
}

#[test]
fn the_man_page_has_each_verb_and_option() {
    let place = Place::new("man");
    let page = place.run(&["man"]);
    assert_eq!((page.status, page.err.as_str()), (0, ""));
    let page = page.text();
    assert!(page.starts_with(".TH UMAREKOZA 1 "));
    assert!(page.contains("\numarekoza help [VERB]\n"));
    for verb in VERBS {
        assert!(page.contains(&format!("\n.SS {verb}\n")), "{verb}");
    }
    assert!(page.contains("what they read is renumbered, from the index on"), "{page}");
    for option in OPTIONS {
        assert!(page.contains(&format!("\\-\\-{}", option.replace('-', "\\-"))), "{option}");
    }
}

#[test]
fn completions_have_each_verb_and_option() {
    let place = Place::new("completions");
    for shell in ["bash", "zsh", "fish"] {
        let script = place.run(&["completions", shell]);
        assert_eq!((script.status, script.err.as_str()), (0, ""));
        for word in VERBS.iter().chain(&OPTIONS) {
            assert!(script.text().contains(word), "{shell}: {word}");
        }
    }
}

#[test]
fn bash_completes() {
    let place = Place::new("bash");
    let complete = |words: &str, count: usize| {
        place.shell(&format!(
            "source <(umarekoza completions bash); COMP_WORDS=({words}); COMP_CWORD={count}; \
             _umarekoza umarekoza \"${{COMP_WORDS[{count}]}}\"; echo \"${{COMPREPLY[@]}}\""
        ))
    };
    complete("umarekoza re", 1).accepted("read readers\n");
    complete("umarekoza co", 1).accepted("convert completions\n");
    complete("umarekoza cut ''", 2).accepted("-o -h --output --dry-run --json --page --table --help\n");
    complete("umarekoza put --b", 2).accepted("--before\n");
    complete("umarekoza convert ''", 2).accepted("-o -h --output --help\n");
    complete("umarekoza read --j", 2).accepted("--json\n");
    complete("umarekoza check --r", 2).accepted("--recursive\n");
    complete("umarekoza bytes ''", 2).accepted("-h --hex --page --table --to-hex --help\n");
    complete("umarekoza explain ''", 2).accepted("-h --help\n");
    complete("umarekoza read page", 2).accepted("\n");
}
