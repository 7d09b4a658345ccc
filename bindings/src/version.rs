//! The release that the linked library is of.

use std::fmt;

use crate::raw;

/// A version number. A later release has a greater one.
#[derive(Clone, Copy, Debug, PartialEq, Eq, PartialOrd, Ord, Hash)]
pub struct Version {
    pub major: u32,
    pub minor: u32,
    pub patch: u32,
}

impl fmt::Display for Version {
    fn fmt(&self, f: &mut fmt::Formatter<'_>) -> fmt::Result {
        write!(f, "{}.{}.{}", self.major, self.minor, self.patch)
    }
}

/// The version of the linked library, which is this package's where both are of one release.
///
/// ```
/// assert_eq!(leskwyn::version().to_string(), env!("CARGO_PKG_VERSION"));
/// ```
#[must_use]
pub fn version() -> Version {
    // SAFETY: the function takes nothing and reads nothing.
    let number = unsafe { raw::leskwyn_version() };
    Version { major: number / 1_000_000, minor: number / 1_000 % 1_000, patch: number % 1_000 }
}
