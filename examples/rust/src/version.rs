//! Of which version the library is.

use crate::face;

/// The version of the header that this crate was written for.
pub const VERSION: u64 = 1;

/// The version of the library that is linked, which a host compares with [`VERSION`].
pub fn version() -> u64 {
    face::version()
}
