//! A short comparison, for `cargo test`. The long one is `host/compare`.

use check::run::Run;

#[test]
fn twenty_thousand_cases() {
    let mut run = Run::new(2);
    run.lists(20);
    run.until(20_000);
    run.report();
    assert!(run.calls.wrong.is_empty());
}
