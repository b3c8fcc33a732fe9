/* The names of the schemes that versions.h declares, as c/declarations.py typescript writes them. */

/** An order of versions, with the texts that it reads: that of this project, or of another system. */
export type Scheme = "mixed" | "deb" | "rpm" | "pypi" | "semver" | "gem";
/** What names a scheme: also the names that people know its system by. The library takes each in any case. */
export type SchemeName =
  | Scheme
  | "debian"
  | "ubuntu"
  | "redhat"
  | "fedora"
  | "suse"
  | "python"
  | "pip"
  | "pep440"
  | "npm"
  | "cargo"
  | "crates.io"
  | "rubygems"
  | "ruby";
