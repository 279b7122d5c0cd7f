//! A lockfile with its packages and what each depends on, read by one call of the library.

use crate::json::Value;
use crate::{calls, DiffError, Direction, Error};

use std::collections::BTreeMap;
use std::fmt;

/// What a git source asks for.
#[derive(Clone, Debug, PartialEq, Eq, Hash)]
pub enum Reference {
    /// The newest commit of a branch.
    Branch(String),

    /// A tag.
    Tag(String),

    /// A revision.
    Rev(String),
}

/// The kind of a source.
#[derive(Clone, Copy, Debug, PartialEq, Eq, Hash)]
pub enum Kind {
    /// A git repository.
    Git,

    /// A folder.
    Path,

    /// A registry with an index in git.
    Registry,

    /// A registry with an index that is read file by file.
    SparseRegistry,

    /// A registry in a folder.
    LocalRegistry,

    /// A folder of packages, as `cargo vendor` makes it.
    Directory,
}

/// Where a package comes from.
#[derive(Clone, Debug, PartialEq, Eq, Hash)]
pub struct Source {
    /// The text that a lockfile of format 4 has. It has the user name and the password of the
    /// source, if it has some, as the URL does.
    pub text: String,

    /// The kind.
    pub kind: Kind,

    /// The URL.
    pub url: String,

    /// What a git source asks for, if it asks for something.
    pub reference: Option<Reference>,

    /// The commit of a git source, if it names one.
    pub precise: Option<String>,

    /// Whether the source is the registry of crates.io.
    pub crates_io: bool,
}

/// A name, a version and a source: a dependency that no package fits, a replacement, or a patch that
/// no package uses.
#[derive(Clone, Debug, PartialEq, Eq, Hash)]
pub struct Dependency {
    /// The name.
    pub name: String,

    /// The version.
    pub version: String,

    /// Where it comes from; none for a package of the workspace.
    pub source: Option<Source>,
}

/// A package of a lockfile. Its place is that in `Lockfile::packages`.
#[derive(Clone, Debug, PartialEq, Eq, Hash)]
pub struct Package {
    /// The name.
    pub name: String,

    /// The version.
    pub version: String,

    /// Where it comes from; none for a package of the workspace.
    pub source: Option<Source>,

    /// The checksum as 64 hex digits, if there is one.
    pub checksum: Option<String>,

    /// The places of the packages on which it depends, in its own order.
    pub dependencies: Vec<usize>,

    /// The dependencies that no package fits.
    pub unresolved: Vec<Dependency>,

    /// What replaces the package.
    pub replace: Option<Dependency>,
}

/// Something that is wrong with a lockfile.
#[derive(Clone, Debug, PartialEq, Eq, Hash)]
pub struct Finding {
    /// The kind: the word before the first colon of the line, as `order`. The kinds of `check
    /// --json` are finer, and have other names.
    pub kind: String,

    /// The line, as `cargo-lock check` prints it.
    pub line: String,
}

/// A lockfile of any format. Two are equal where all but their texts is.
///
/// ```
/// use proved_cargo_lock::Lockfile;
///
/// let text = "version = 3\n\n[[package]]\nname = \"app\"\nversion = \"0.1.0\"\n";
/// let lockfile = Lockfile::parse(text)?;
/// for place in lockfile.find("app", None) {
///     for needer in lockfile.dependents(place) {
///         println!("{} depends on app", lockfile.packages[needer].name);
///     }
/// }
/// # Ok::<(), proved_cargo_lock::Error>(())
/// ```
#[derive(Clone, Debug, PartialEq, Eq)]
pub struct Lockfile {
    /// The number of the format.
    pub format: u32,

    /// The packages, in the lockfile's order.
    pub packages: Vec<Package>,

    /// The root package, if the lockfile has it separate from the others, as old lockfiles do. It
    /// has no place.
    pub root: Option<Package>,

    /// The metadata.
    pub metadata: BTreeMap<String, String>,

    /// The patches that no package uses.
    pub patch: Vec<Dependency>,

    text: Text,
}

/// The text of a lockfile. It is not shown, and does not count where lockfiles are compared.
#[derive(Clone)]
struct Text(Vec<u8>);

impl fmt::Debug for Text {
    fn fmt(&self, f: &mut fmt::Formatter<'_>) -> fmt::Result {
        write!(f, "{} bytes", self.0.len())
    }
}

impl PartialEq for Text {
    fn eq(&self, _: &Text) -> bool {
        true
    }
}

impl Eq for Text {}

impl Lockfile {
    /// The lockfile of a text.
    pub fn parse(text: impl AsRef<[u8]>) -> Result<Lockfile, Error> {
        let text = text.as_ref();
        let document = calls::json(text)?;
        let read = Value::read(&document).and_then(|value| lockfile(value, Text(text.to_vec())));
        Ok(read.expect("the library answers such a document"))
    }

    /// The places of the packages of a name and, if it is given, a version.
    pub fn find<'a>(
        &'a self,
        name: &'a str,
        version: Option<&'a str>,
    ) -> impl Iterator<Item = usize> + 'a {
        let fits = move |package: &Package| {
            package.name == name && version.map_or(true, |version| package.version == version)
        };
        (0..self.packages.len()).filter(move |place| fits(&self.packages[*place]))
    }

    /// The places of the packages that depend on the one at a place, each once: none where no package
    /// is at the place. A separate root is not among them, since it has no place. Each call looks at
    /// all packages.
    pub fn dependents(&self, place: usize) -> impl Iterator<Item = usize> + '_ {
        let needs = move |needer: &usize| self.packages[*needer].dependencies.contains(&place);
        (0..self.packages.len()).filter(needs)
    }

    /// The drawing of the tree of the package at a place, as the function `tree`.
    pub fn tree(&self, place: usize, direction: Direction, exact: bool) -> Result<String, Error> {
        crate::tree(&self.text.0, place, direction, exact)
    }

    /// The text of the lockfile in the format of this number, as the function `translate`.
    pub fn translate(&self, number: u32) -> Result<String, Error> {
        crate::translate(&self.text.0, number)
    }

    /// Whether the lockfile survives the format of this number, as the function `survives`.
    pub fn survives(&self, number: u32) -> Result<bool, Error> {
        crate::survives(&self.text.0, number)
    }

    /// What is wrong with the lockfile.
    pub fn check(&self) -> Result<Vec<Finding>, Error> {
        let lines = crate::check(&self.text.0)?;
        Ok(lines.into_iter().map(finding).collect())
    }

    /// The bill of materials of the lockfile, as the function `bill`.
    pub fn bom(&self, compact: bool) -> Result<String, Error> {
        crate::bill(&self.text.0, compact)
    }

    /// What differs from this lockfile to a new one, as the function `diff`.
    pub fn diff(&self, new: &Lockfile, dependencies: bool) -> Result<String, DiffError> {
        crate::diff(&self.text.0, &new.text.0, dependencies)
    }
}

fn finding(line: String) -> Finding {
    let kind = line.split(':').next().unwrap_or_default().to_owned();
    Finding { kind, line }
}

fn lockfile(mut document: Value, text: Text) -> Option<Lockfile> {
    Some(Lockfile {
        format: document.take("format")?.number()? as u32,
        packages: document.take("packages")?.list(package)?,
        root: document.take("root")?.optional(package)?,
        metadata: document.take("metadata")?.texts()?,
        patch: document.take("patch")?.take("unused")?.list(dependency)?,
        text,
    })
}

fn package(mut document: Value) -> Option<Package> {
    Some(Package {
        name: document.take("name")?.string()?,
        version: document.take("version")?.string()?,
        source: source(&mut document)?,
        checksum: document.take("checksum")?.optional(Value::string)?,
        dependencies: document.take("dependencies")?.list(Value::number)?,
        unresolved: document.take("unresolved")?.list(dependency)?,
        replace: document.take("replace")?.optional(dependency)?,
    })
}

fn dependency(mut document: Value) -> Option<Dependency> {
    Some(Dependency {
        name: document.take("name")?.string()?,
        version: document.take("version")?.string()?,
        source: source(&mut document)?,
    })
}

// The source of a package or a dependency, by the members `source` and `origin`.
fn source(document: &mut Value) -> Option<Option<Source>> {
    let text = document.take("source")?.optional(Value::string)?;
    let origin = document.take("origin")?.optional(Some)?;
    let (Some(text), Some(mut origin)) = (text, origin) else {
        return Some(None);
    };
    Some(Some(Source {
        text,
        kind: kind(&origin.take("kind")?.string()?)?,
        url: origin.take("url")?.string()?,
        reference: origin.take("reference")?.optional(reference)?,
        precise: origin.take("precise")?.optional(Value::string)?,
        crates_io: origin.take("crates_io")?.bool()?,
    }))
}

fn kind(text: &str) -> Option<Kind> {
    match text {
        "git" => Some(Kind::Git),
        "path" => Some(Kind::Path),
        "registry" => Some(Kind::Registry),
        "sparse-registry" => Some(Kind::SparseRegistry),
        "local-registry" => Some(Kind::LocalRegistry),
        "directory" => Some(Kind::Directory),
        _ => None,
    }
}

fn reference(mut document: Value) -> Option<Reference> {
    let kind = document.take("kind")?.string()?;
    let value = document.take("value")?.string()?;
    match kind.as_str() {
        "branch" => Some(Reference::Branch(value)),
        "tag" => Some(Reference::Tag(value)),
        "rev" => Some(Reference::Rev(value)),
        _ => None,
    }
}
