//! Reads a `Cargo.lock` of any format, V1 to V4, by the proved library `cargo_lock`.
//!
//! Each call takes the text of a lockfile and keeps nothing, so any number of threads may call at
//! once. A thread needs a stack of 2 MiB, which Rust's threads have by default.
//!
//! ```
//! let text = "version = 3\n\n[[package]]\nname = \"app\"\nversion = \"0.1.0\"\n";
//! for package in proved_cargo_lock::packages(text)? {
//!     println!("{} {}", package.name, package.version);
//! }
//! # Ok::<(), proved_cargo_lock::Error>(())
//! ```
//!
//! `Lockfile` reads a lockfile by one call: its packages, what each depends on, and each source in its
//! parts. The types of its fields are in the module `lockfile`.

use std::error;
use std::fmt;

mod calls;
mod json;
pub mod lockfile;

pub use lockfile::Lockfile;

/// A package as `packages` returns it. That of `Lockfile` is `lockfile::Package`.
#[derive(Clone, Debug, PartialEq, Eq, Hash)]
pub struct Package {
    /// The name.
    pub name: String,

    /// The version.
    pub version: String,

    /// Where it comes from, as in the lockfile; none for a package of the workspace.
    pub source: Option<String>,

    /// The checksum as 64 hex digits, if there is one.
    pub checksum: Option<String>,
}

/// An edge of the graph of packages, by their numbers in the lockfile's order, from 0.
#[repr(C)]
#[derive(Clone, Copy, Debug, Default, PartialEq, Eq, Hash)]
pub struct Edge {
    /// The package that depends.
    pub from: usize,

    /// The package on which it depends.
    pub to: usize,
}

/// Which way a tree goes from its package.
#[derive(Clone, Copy, Debug, PartialEq, Eq, Hash)]
pub enum Direction {
    /// To what the package depends on.
    Dependencies,

    /// To what depends on the package.
    Dependents,
}

/// Why a call gives no answer.
#[derive(Clone, Debug, PartialEq, Eq, Hash)]
pub enum Error {
    /// The text is no lockfile, for this reason.
    NotALockfile(String),

    /// The bytes are no UTF-8.
    NotUtf8,

    /// Memory was refused.
    OutOfMemory,

    /// The number of the format is none of 1 to 4.
    NoFormat,

    /// The lockfile does not survive the format: written in it, it would not be read back as equal.
    Lost,

    /// No package fits some dependency.
    Unresolved,

    /// There is no package of that number.
    NoPackage,

    /// A name or a source has a control character, as a tab or a newline, or a separator of lines
    /// or paragraphs.
    NoLine,

    /// Two packages have the same name, version and source, user names and passwords aside, so a
    /// bill would refer to both by one text.
    Repeated,

    /// No package fits the specification.
    NothingFits,

    /// The library answered a status that this crate does not know.
    UnknownStatus(u32),
}

impl fmt::Display for Error {
    fn fmt(&self, f: &mut fmt::Formatter<'_>) -> fmt::Result {
        match self {
            Error::NotALockfile(why) => write!(f, "no lockfile: {why}"),
            Error::NotUtf8 => f.write_str("the bytes are no UTF-8"),
            Error::OutOfMemory => f.write_str("out of memory"),
            Error::NoFormat => f.write_str("the number of a format is 1 to 4"),
            Error::Lost => f.write_str("the lockfile does not survive the format"),
            Error::Unresolved => f.write_str("no package fits some dependency"),
            Error::NoPackage => f.write_str("there is no package of that number"),
            Error::NoLine => f.write_str("a name or a source has a control character or ends a line"),
            Error::Repeated => f.write_str("a bill would refer to two packages by one text"),
            Error::NothingFits => f.write_str("no package fits the specification"),
            Error::UnknownStatus(status) => write!(f, "unknown status {status}"),
        }
    }
}

impl error::Error for Error {}

/// Why two lockfiles are not compared.
#[derive(Clone, Debug, PartialEq, Eq, Hash)]
pub enum DiffError {
    /// The old text, which is read first, is refused; or else memory was.
    Old(Error),

    /// The new text is refused.
    New(Error),
}

impl fmt::Display for DiffError {
    fn fmt(&self, f: &mut fmt::Formatter<'_>) -> fmt::Result {
        match self {
            DiffError::Old(error) => write!(f, "old lockfile: {error}"),
            DiffError::New(error) => write!(f, "new lockfile: {error}"),
        }
    }
}

impl error::Error for DiffError {
    fn source(&self) -> Option<&(dyn error::Error + 'static)> {
        match self {
            DiffError::Old(error) | DiffError::New(error) => Some(error),
        }
    }
}

/// A merged lockfile.
#[derive(Clone, Debug, PartialEq, Eq, Hash)]
pub struct Merge {
    /// Its text.
    pub text: String,

    /// What the merge reports: a line for other comments at the top of both sides, each version that it
    /// chose, each checksum that a side lost, and each dependency on a package that neither side has for
    /// it.
    pub moved: Vec<String>,
}

/// A lockfile of a merge.
#[derive(Clone, Copy, Debug, PartialEq, Eq, Hash)]
pub enum Side {
    /// The common ancestor.
    Base,

    /// Our lockfile.
    Ours,

    /// Their lockfile.
    Theirs,
}

impl fmt::Display for Side {
    fn fmt(&self, f: &mut fmt::Formatter<'_>) -> fmt::Result {
        f.write_str(match self {
            Side::Base => "base",
            Side::Ours => "ours",
            Side::Theirs => "theirs",
        })
    }
}

/// Why lockfiles are not merged.
#[derive(Clone, Debug, PartialEq, Eq, Hash)]
pub enum MergeError {
    /// The sides are in conflict: a line for each conflict.
    Conflicts(Vec<String>),

    /// A lockfile cannot be merged: the line that says why, which begins with its side.
    Refused(Side, String),

    /// A text is refused; or else, of the base, memory was. They are read in the order of the sides.
    Unread(Side, Error),
}

impl fmt::Display for MergeError {
    fn fmt(&self, f: &mut fmt::Formatter<'_>) -> fmt::Result {
        match self {
            MergeError::Conflicts(lines) => f.write_str(&lines.join("\n")),
            MergeError::Refused(_, line) => f.write_str(line),
            MergeError::Unread(side, error) => write!(f, "{side}: {error}"),
        }
    }
}

impl error::Error for MergeError {
    fn source(&self) -> Option<&(dyn error::Error + 'static)> {
        match self {
            MergeError::Unread(_, error) => Some(error),
            MergeError::Conflicts(_) | MergeError::Refused(..) => None,
        }
    }
}

/// The number of the lockfile's format, 1 to 4.
pub fn format(text: impl AsRef<[u8]>) -> Result<u32, Error> {
    calls::format(text.as_ref())
}

/// Why the text is no lockfile, in words; none where it is one.
pub fn fault(text: impl AsRef<[u8]>) -> Result<Option<String>, Error> {
    let words = calls::fault(text.as_ref())?;
    Ok(if words.is_empty() { None } else { Some(words) })
}

/// Whether the lockfile survives the format of this number, 1 to 4: whether its table, written in
/// it, is read back as a lockfile of this format with equal packages, root and patches.
pub fn survives(text: impl AsRef<[u8]>, number: u32) -> Result<bool, Error> {
    match calls::survives(text.as_ref(), number) {
        Ok(()) => Ok(true),
        Err(Error::Lost) => Ok(false),
        Err(error) => Err(error),
    }
}

/// The text of the lockfile in the format of this number, 1 to 4. One that does not survive it is
/// refused with `Lost`. Survival is of the table: a root, and the replacement of a package with
/// dependencies, are in no text.
pub fn translate(text: impl AsRef<[u8]>, number: u32) -> Result<String, Error> {
    calls::translate(text.as_ref(), number)
}

/// The packages in the lockfile's order.
pub fn packages(text: impl AsRef<[u8]>) -> Result<Vec<Package>, Error> {
    let lines = calls::packages(text.as_ref())?;
    Ok(lines.split_terminator('\n').map(package_of).collect())
}

/// The package of a line.
fn package_of(line: &str) -> Package {
    let mut fields = line.split('\t').map(str::to_owned);
    let mut field = || fields.next().unwrap_or_default();
    let (name, version, source, checksum) = (field(), field(), field(), field());
    let unless_empty = |text: String| if text.is_empty() { None } else { Some(text) };
    Package {
        name,
        version,
        source: unless_empty(source),
        checksum: unless_empty(checksum),
    }
}

/// The edges of the graph of packages: those of package 0 first, and of each package the one for
/// its last dependency first. A dependency leads to the package of its own name, version, URL and
/// reference, or where that does not match, as in a tree; and on to what replaces that package. Refused
/// with `Unresolved` where a dependency has no package.
pub fn edges(text: impl AsRef<[u8]>) -> Result<Vec<Edge>, Error> {
    calls::edges(text.as_ref())
}

/// The drawing of the tree of a package, by its number in the lockfile's order, from 0. Exact
/// labels have the checksum too, or else the source.
pub fn tree(
    text: impl AsRef<[u8]>,
    package: usize,
    direction: Direction,
    exact: bool,
) -> Result<String, Error> {
    calls::tree(text.as_ref(), package, direction == Direction::Dependents, exact)
}

/// What differs between the packages of two lockfiles, a line for each change, as `cargo-lock diff`
/// prints it, without the last line that counts them; with `dependencies` also other dependencies of
/// packages, as under `-d`. The text is empty where nothing differs.
pub fn diff(
    old: impl AsRef<[u8]>,
    new: impl AsRef<[u8]>,
    dependencies: bool,
) -> Result<String, DiffError> {
    calls::diff(old.as_ref(), new.as_ref(), dependencies)
}

/// What is wrong with the lockfile, a line for each finding, as `cargo-lock check` prints it.
pub fn check(text: impl AsRef<[u8]>) -> Result<Vec<String>, Error> {
    let lines = calls::check(text.as_ref())?;
    Ok(lines.lines().map(str::to_owned).collect())
}

/// The bill of materials of the lockfile, CycloneDX 1.6 in JSON, as `cargo-lock bom` prints it
/// without options, and where it is compact as under `--compact`, in one line. Refused with
/// `Unresolved` where a dependency has no package, and with `Repeated` where two packages have one
/// reference.
pub fn bill(text: impl AsRef<[u8]>, compact: bool) -> Result<String, Error> {
    calls::bill(text.as_ref(), compact)
}

/// Why the packages that a specification fits are in the lockfile, in one line of JSON, as
/// `cargo-lock why --json -f -` prints it: a shortest chain of dependencies for each, and with
/// `all` one from each root that leads to it, as under `--all`. A specification is a name, a
/// version, both as NAME@VERSION, a checksum or a commit. Refused with `Unresolved` where a
/// dependency has no package, and with `NothingFits` where no package fits the specification.
pub fn why(text: impl AsRef<[u8]>, spec: &str, all: bool) -> Result<String, Error> {
    calls::why(text.as_ref(), spec, all)
}

/// The names that several packages of the lockfile have, with these packages and what depends on
/// each, in one line of JSON, as `cargo-lock duplicates --json -f -` prints it. Refused with
/// `Unresolved` where a dependency has no package.
pub fn duplicates(text: impl AsRef<[u8]>) -> Result<String, Error> {
    calls::duplicates(text.as_ref())
}

/// The lockfile in one line of JSON, as `cargo-lock json -f -` prints it: its packages, with the
/// places of the packages on which each depends. `Lockfile` reads it.
pub fn json(text: impl AsRef<[u8]>) -> Result<String, Error> {
    calls::json(text.as_ref())
}

/// The merge of two lockfiles over their common ancestor, by packages, as `cargo-lock merge` prints
/// it. An empty base is a lockfile without packages. Each text is read twice, once for the references
/// that moved. No lockfile says which versions a requirement admits, so ask `cargo metadata --locked`
/// after a merge.
///
/// ```
/// let package = |version| format!("[[package]]\nname = \"app\"\nversion = \"{version}\"\n");
/// let merged = proved_cargo_lock::merge(package("0.1.0"), package("0.1.0"), package("0.2.0"))?;
/// assert!(merged.text.contains("0.2.0"));
/// # Ok::<(), proved_cargo_lock::MergeError>(())
/// ```
pub fn merge(
    base: impl AsRef<[u8]>,
    ours: impl AsRef<[u8]>,
    theirs: impl AsRef<[u8]>,
) -> Result<Merge, MergeError> {
    let (base, ours, theirs) = (base.as_ref(), ours.as_ref(), theirs.as_ref());
    let text = calls::merge(base, ours, theirs)?;
    let moved = calls::merge_moved(base, ours, theirs)?;
    Ok(Merge {
        text,
        moved: moved.lines().map(str::to_owned).collect(),
    })
}
