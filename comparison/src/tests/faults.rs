//! The faults: each is written as it should be and fits the Rust.

use std::fs;
use std::path::Path;

use crate::faults::{all, Fault};

#[test]
fn every_fault_fits_once() {
    let faults = all(&Path::new(env!("CARGO_MANIFEST_DIR")).join("faults")).unwrap();
    assert!(faults.len() >= 24);
    let folder = Path::new(crate::SOURCES).join("lang/crates/vo-app-runtime/src");
    for fault in faults {
        let source = fs::read_to_string(folder.join(&fault.file)).unwrap();
        let faulty = fault.applied(&source);
        assert!(faulty.is_some_and(|faulty| faulty != source), "{}", fault.name);
    }
}

#[test]
fn a_fault_that_does_not_fit_is_refused() {
    let text = "composition.rs\nWhat.\n--- replace\na\n--- with\nb\n";
    let fault = Fault::read("one", text).unwrap();
    assert_eq!(fault.applied("x\na\n"), Some("x\nb\n".to_string()));
    assert_eq!(fault.applied("x\n"), None);
    assert_eq!(fault.applied("a\na\n"), None);
    assert!(Fault::read("two", &text.replace("composition.rs", "other.rs")).is_none());
    assert!(Fault::read("three", &text.replace("\nb\n", "\na\n")).is_none());
    assert!(Fault::read("four", "composition.rs\nWhat.\n").is_none());
}
