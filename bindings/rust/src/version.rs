//! The version of this crate, the one of the library that it is linked to, and whether they fit.
use crate::{sys, Refusal};
use core::fmt;

/// A version of the crate or of the library; the files have versions of their own.
#[derive(Clone, Copy, Debug, PartialEq, Eq, PartialOrd, Ord, Hash)]
pub struct Version {
    /// Of another major version nothing fits.
    pub major: u32,
    /// A library of a later minor version fits, one of an earlier does not.
    pub minor: u32,
    /// Of whatever patch, all fit.
    pub patch: u32,
}

/// The version of this crate.
pub const VERSION: Version = Version {
    major: decimal(env!("CARGO_PKG_VERSION_MAJOR")),
    minor: decimal(env!("CARGO_PKG_VERSION_MINOR")),
    patch: decimal(env!("CARGO_PKG_VERSION_PATCH")),
};

/// The number that some digits say.
const fn decimal(digits: &str) -> u32 {
    let (mut number, mut at) = (0, 0);
    while at < digits.len() {
        number = 10 * number + (digits.as_bytes()[at] - b'0') as u32;
        at += 1;
    }
    number
}

/// The version of the library that is linked, or was loaded.
///
/// It fits where its major version is that of [`VERSION`] and its minor version is not below. Where it does not fit, every call of the
/// library is refused by [`Refusal::OtherLibrary`], and [`lot_costs`](crate::lot_costs) finds none.
///
/// ```
/// let library = placer::library_version();
/// assert_eq!(library.major, placer::VERSION.major);
/// assert!(library.minor >= placer::VERSION.minor);
/// println!("crate {}, library {library}", placer::VERSION);
/// ```
pub fn library_version() -> Version {
    // SAFETY: it takes no argument and has no effect.
    Version::of(unsafe { sys::placer_version() })
}

impl Version {
    /// The version that the library tells as one number.
    fn of(number: u32) -> Version {
        Version { major: number / 1_000_000, minor: number / 1_000 % 1_000, patch: number % 1_000 }
    }

    /// Whether a library of this version fits a crate of another.
    fn fits(self, needed: Version) -> Result<(), Refusal> {
        if self.major == needed.major && self.minor >= needed.minor {
            Ok(())
        } else {
            Err(Refusal::OtherLibrary { library: self })
        }
    }
}

/// Whether the library fits this crate.
pub(crate) fn library_fits() -> Result<(), Refusal> {
    library_version().fits(VERSION)
}

impl fmt::Display for Version {
    fn fmt(&self, f: &mut fmt::Formatter<'_>) -> fmt::Result {
        write!(f, "{}.{}.{}", self.major, self.minor, self.patch)
    }
}

#[cfg(test)]
mod tests {
    use super::*;

    fn version(major: u32, minor: u32, patch: u32) -> Version {
        Version { major, minor, patch }
    }

    #[test]
    fn numbers_of_versions() {
        assert_eq!(
            [0, 1_000_000, 2_001_003, 12_345_678].map(Version::of),
            [version(0, 0, 0), version(1, 0, 0), version(2, 1, 3), version(12, 345, 678)]
        );
        assert_eq!((decimal("0"), decimal("7"), decimal("120")), (0, 7, 120));
    }

    #[test]
    fn what_fits() {
        let needed = version(1, 2, 3);
        for library in [needed, version(1, 2, 0), version(1, 2, 9), version(1, 3, 0), version(1, 999, 999)] {
            assert_eq!(library.fits(needed), Ok(()));
        }
        for library in [version(1, 1, 3), version(1, 0, 999), version(0, 2, 3), version(2, 2, 3), version(2, 0, 0), version(0, 0, 0)] {
            assert_eq!(library.fits(needed), Err(Refusal::OtherLibrary { library }));
        }
        assert_eq!(library_fits(), Ok(()));
    }
}
