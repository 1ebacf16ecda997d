//! The library and the model agree, and every refusal number turns up.

use umarekoza_compare::exports::LIBRARY;
use umarekoza_compare::runs::{run, Settings};

#[test]
fn library_and_model_agree() {
    let settings = Settings::from_environment().unwrap();
    println!("{} cases from seed {}", settings.cases, settings.seed);
    let outcome = run(settings, LIBRARY).unwrap_or_else(|wrong| panic!("{wrong}"));
    println!("{outcome:?}");
    assert_eq!(outcome.stored.cases, 3818);
    assert!(outcome.generated.cases > 0, "no case was generated");
    assert_eq!(outcome.generated.cases, settings.cases);
    assert!(outcome.generated.comparisons >= 5 * settings.cases);
    for number in (0..=11).chain(21..=31).chain([34]) {
        assert!(outcome.stored.numbers.contains_key(&number), "no {number} among the stored cases");
        let due = settings.cases >= 10_000;
        assert!(
            !due || outcome.generated.numbers.contains_key(&number),
            "no {number} among the generated cases"
        );
    }
}
