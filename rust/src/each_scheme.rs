//! The schemes that `versions.h` declares, as `c/declarations.py each_scheme` writes them.

/// Passes to a macro of each scheme its type, its number, its name, and what it is.
macro_rules! each_scheme {
    ($then:ident) => {
        $then! {
            Mixed MIXED "mixed" "`mixed`: every version, in the one order of all kinds."
            Deb DEB "deb" "`deb`: Debian's versions (Debian Policy, 5.6.12)."
            Rpm RPM "rpm" "`rpm`: RPM's versions (rpm-version(7))."
            Pypi PYPI "pypi" "`pypi`: Python's versions (PEP 440)."
            Semver SEMVER "semver" "`semver`: SemVer 2.0.0 in full."
            Gem GEM "gem" "`gem`: RubyGems' versions (Gem::Version)."
        }
    };
}
