//! The package's own build, where the archive isn't made yet.

use std::process::Command;

#[test]
fn without_an_archive_it_names_the_one_command_to_run_first() {
    let empty = env!("CARGO_TARGET_TMPDIR");
    let built = Command::new(env!("CARGO"))
        .args(["check", "--offline", "--quiet"])
        .current_dir(env!("CARGO_MANIFEST_DIR"))
        .env("CARGO_TARGET_DIR", empty)
        .env("BRACKET_ARCHIVES", empty)
        .output()
        .unwrap();
    let said = String::from_utf8_lossy(&built.stderr);
    assert!(!built.status.success(), "{said}");
    assert!(said.contains("Run this one command first"), "{said}");
    assert!(said.contains("/bindings/archive\n"), "{said}");
    assert!(said.contains("There is no libbracket.a in"), "{said}");
    assert!(!said.contains("linking"), "{said}");
}
