//! `snowpulley refusal`.

mod common;

use common::run;

#[test]
fn all_refusals_are_listed() {
    run(&["refusal"]).says(0, "refusals.txt");
    assert_eq!(
        run(&["refusal"]).lines().len(),
        1 + reference::Refusal::ALL.len()
    );
}

#[test]
fn one_refusal_is_explained() {
    run(&["refusal", "10"]).says(0, "refusal-10.txt");
    assert_eq!(run(&["refusal", "0x0a"]).out, run(&["refusal", "10"]).out);
}

#[test]
fn a_number_that_no_refusal_has_is_a_negative_answer() {
    for number in ["0", "18", "32", "36", "99"] {
        let none = run(&["refusal", number]);
        let told = format!("no refusal has the number {number}\n");
        assert_eq!((none.status, none.out), (1, told));
    }
}
