//! How long the tests by chance are, and where chance stood when one fails.

/// So many in a release build; a tenth in a debug build, for a plain `cargo test`.
pub const fn full(number: usize) -> usize {
    if cfg!(debug_assertions) {
        number / 10
    } else {
        number
    }
}

/// Says where chance stood when a test fails.
pub struct Where(pub String);

impl Drop for Where {
    fn drop(&mut self) {
        if std::thread::panicking() {
            eprintln!("it was in {}", self.0);
        }
    }
}

/// A number from the environment, for the long runs.
pub fn number_from(name: &str, otherwise: u64) -> u64 {
    std::env::var(name).map_or(otherwise, |text| text.parse().expect("a number"))
}
