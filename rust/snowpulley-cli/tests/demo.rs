//! `snowpulley demo`.

mod common;

use common::{here, run};

#[test]
fn the_demo_says_what_it_should() {
    let demo = run(&["demo"]);
    assert!(!demo.out.contains("WRONG"));
    demo.says(0, "demo.txt");
}

/// The audit speaks of every theorem and clause that the demo names.
#[test]
fn the_audit_has_the_demos_theorems() {
    let audit = std::fs::read_to_string(here().join("../../docs/AUDIT.md")).unwrap();
    for line in run(&["demo"]).lines() {
        let Some(names) = line.strip_prefix("  ").and_then(|line| line.get(..29)) else {
            continue;
        };
        for name in names.split([':', ',']).map(str::trim) {
            let name = match name {
                "history" => "delivery_history",
                name => name,
            };
            let known = name.is_empty() || audit.contains(&format!("`{name}`"));
            assert!(known, "docs/AUDIT.md does not name {name}");
        }
    }
}
