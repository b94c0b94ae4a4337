//! The journey of the example, every step of which is asserted.

#[path = "../examples/journey.rs"]
mod journey;

#[test]
fn journey() {
    assert_eq!(journey::main(), Ok(()));
}
