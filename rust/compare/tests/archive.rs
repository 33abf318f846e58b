//! The linked archive beside the reference. Without YARVELOW_LIB there is no archive and nothing is compared.

#![cfg(archive)]

use compare::{harness, Archive};
use std::env;

/// A number from the environment, or the usual one.
fn setting(name: &str, usual: u64) -> u64 {
    env::var(name).map_or(usual, |text| text.parse().expect("a number"))
}

/// As many events as a gate can wait for.
#[test]
fn archive_is_the_reference() {
    let count = harness::all(&Archive, 1, 400_000).unwrap();
    assert!(count > 300_000, "only {count} answers");
}

/// What is bad, in a hundred thousand images that break every rule.
#[test]
fn archive_says_what_is_bad() {
    assert_eq!(harness::bad_tables(&Archive, 1, 100_000), Ok(400_000));
}

/// A long run: `cargo test --release -p compare -- --ignored`. COMPARE_EVENTS and COMPARE_SEED change its length and its seed.
#[test]
#[ignore = "ten million events"]
fn archive_is_the_reference_for_long() {
    let seed = setting("COMPARE_SEED", 2);
    let count = harness::all(&Archive, seed, setting("COMPARE_EVENTS", 16_000_000)).unwrap();
    println!("{count} answers compared, seed {seed}");
}

/// Another one, by the same command. COMPARE_IMAGES and COMPARE_SEED change its length and its seed.
#[test]
#[ignore = "ten million images"]
fn archive_says_what_is_bad_for_long() {
    let seed = setting("COMPARE_SEED", 2);
    let images = setting("COMPARE_IMAGES", 10_000_000);
    let count = harness::bad_tables(&Archive, seed, images).unwrap();
    println!("{count} answers of {images} images compared, seed {seed}");
}
