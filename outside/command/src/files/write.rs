//! Writing. Of several files all are written or none, as far as the system lets it be so: first all are
//! opened, and all bytes written beside their targets; only then does anything change.
//!
//! A file of our own that nothing else links to is replaced as a whole, and keeps its mode and group.
//! Whatever else a name leads to (a device, a pipe, another's file) is written in place. A symbolic link
//! stays, and what it leads to is written. What is read-only is refused, to root as well. `-` is standard
//! output.

use crate::fault::Fault;
use crate::files::print;
use std::fs::{File, Metadata, OpenOptions};
use std::io::{Error, ErrorKind, Result, Write};
use std::os::unix::fs::{fchown, MetadataExt};
use std::path::{Path, PathBuf};

/// A file to be written.
pub struct Output<'a> {
    pub path: &'a Path,
    pub bytes: Vec<u8>,
}

/// Writes all files. None of them may be one that was read, or another one of them.
pub fn all(outputs: &[Output], inputs: &[&Path]) -> std::result::Result<(), Fault> {
    let named = inputs.iter().filter(|path| **path != Path::new("-"));
    let mut taken: Vec<Identity> = named.filter_map(|path| Identity::of(path)).collect();
    for output in outputs {
        let own = Identity::of(output.path);
        if own.as_ref().is_some_and(|own| taken.contains(own)) {
            return Err(Fault::at(output.path, "named for two things at once"));
        }
        taken.extend(own);
    }
    let staged: Vec<Staged> = outputs
        .iter()
        .map(|output| Staged::new(output).map_err(|fault| Fault::at(output.path, fault)))
        .collect::<std::result::Result<_, _>>()?;
    finish(outputs, staged)
}

/// Which regular file a name leads to.
#[derive(PartialEq)]
enum Identity {
    Known { device: u64, number: u64 },
    New(PathBuf),
}

impl Identity {
    /// None of what may be named twice, as a device.
    fn of(path: &Path) -> Option<Identity> {
        match std::fs::metadata(path) {
            Ok(file) => file.is_file().then(|| Identity::Known { device: file.dev(), number: file.ino() }),
            Err(_) => {
                let target = led_to(path).ok()?;
                let folder = target.parent().filter(|folder| *folder != Path::new(""));
                let folder = std::fs::canonicalize(folder.unwrap_or(Path::new("."))).ok()?;
                Some(Identity::New(folder.join(target.file_name()?)))
            }
        }
    }
}

/// What is written in place comes first, since that is what may still fail; a replacement that fails
/// takes back those before it.
fn finish(outputs: &[Output], mut staged: Vec<Staged>) -> std::result::Result<(), Fault> {
    for (output, staged) in outputs.iter().zip(&mut staged) {
        match staged {
            Staged::Printed => print::bytes(&output.bytes).map(|_| ())?,
            Staged::InPlace(file) => {
                write_over(file, &output.bytes).map_err(|fault| Fault::at(output.path, fault))?
            }
            Staged::Beside { .. } => {}
        }
    }
    for at in 0..staged.len() {
        if let Err(fault) = staged[at].replace() {
            staged[..at].iter_mut().for_each(Staged::take_back);
            return Err(Fault::at(outputs[at].path, fault));
        }
    }
    Ok(())
}

/// The bytes in place of what is there.
fn write_over(file: &mut File, bytes: &[u8]) -> Result<()> {
    file.write_all(bytes)?;
    if file.metadata()?.is_file() {
        file.set_len(bytes.len() as u64)?;
    }
    Ok(())
}

/// A file that is ready to be written.
enum Staged {
    Printed,
    InPlace(File),
    /// The bytes are in `beside`, and move to `target`; what was there before is kept in `before`.
    Beside {
        beside: Temporary,
        target: PathBuf,
        before: Option<Temporary>,
    },
}

impl Staged {
    fn new(output: &Output) -> Result<Staged> {
        if output.path == Path::new("-") {
            return Ok(Staged::Printed);
        }
        let known = match std::fs::metadata(output.path) {
            Err(fault) if fault.kind() == ErrorKind::NotFound => None,
            known => Some(known?),
        };
        match known {
            None => Staged::beside(led_to(output.path)?, &output.bytes, None),
            Some(known) => Staged::over(output, known),
        }
    }

    /// Over what is there.
    fn over(output: &Output, known: Metadata) -> Result<Staged> {
        if known.is_dir() {
            return Err(Error::other("is a folder"));
        }
        if known.permissions().readonly() {
            return Err(Error::other("is read-only"));
        }
        let open = OpenOptions::new().write(true).open(output.path)?;
        // SAFETY: the call takes nothing and cannot fail.
        let own = unsafe { libc::geteuid() } == known.uid();
        // What stands below /proc and /dev leads to a file that someone has open.
        let open_elsewhere = ["/proc", "/dev"].iter().any(|top| output.path.starts_with(top));
        if !known.is_file() || known.nlink() > 1 || !own || open_elsewhere {
            return Ok(Staged::InPlace(open));
        }
        match Staged::beside(std::fs::canonicalize(output.path)?, &output.bytes, Some(known)) {
            // The folder takes no new names, or the group cannot be kept; the file itself can be written.
            Err(fault) if fault.kind() == ErrorKind::PermissionDenied => Ok(Staged::InPlace(open)),
            staged => staged,
        }
    }

    fn beside(target: PathBuf, bytes: &[u8], known: Option<Metadata>) -> Result<Staged> {
        let (beside, mut file) = Temporary::new(&target)?;
        if let Some(known) = known {
            if file.metadata()?.gid() != known.gid() {
                fchown(&file, None, Some(known.gid()))?;
            }
            file.set_permissions(known.permissions())?;
        }
        file.write_all(bytes)?;
        Ok(Staged::Beside { beside, target, before: None })
    }

    fn replace(&mut self) -> Result<()> {
        let Staged::Beside { beside, target, before } = self else {
            return Ok(());
        };
        *before = Temporary::of(target);
        std::fs::rename(&beside.path, target)
    }

    /// Brings back what was there before, as far as that can be done.
    fn take_back(&mut self) {
        if let Staged::Beside { target, before, .. } = self {
            let _ = match before {
                Some(before) => std::fs::rename(&before.path, target),
                None => std::fs::remove_file(target),
            };
        }
    }
}

/// Where a name leads that leads to nothing yet: itself, or the end of its symbolic links.
fn led_to(path: &Path) -> Result<PathBuf> {
    let mut path = path.to_path_buf();
    while path.is_symlink() {
        let next = std::fs::read_link(&path)?;
        path = path.parent().unwrap_or(Path::new("")).join(next);
    }
    Ok(path)
}

/// A name beside a target that nobody else has; it is gone when this is.
struct Temporary {
    path: PathBuf,
}

impl Temporary {
    /// A new file.
    fn new(target: &Path) -> Result<(Temporary, File)> {
        Temporary::made(target, |path| OpenOptions::new().write(true).create_new(true).open(path))
    }

    /// Another name of the target, where there is one and the system can give it one.
    fn of(target: &Path) -> Option<Temporary> {
        Temporary::made(target, |path| std::fs::hard_link(target, path)).ok().map(|(name, ())| name)
    }

    fn made<T>(target: &Path, make: impl Fn(&Path) -> Result<T>) -> Result<(Temporary, T)> {
        for number in 0u64.. {
            let path = target.with_file_name(format!(".walumpeh-{}-{number}", std::process::id()));
            match make(&path) {
                Err(fault) if fault.kind() == ErrorKind::AlreadyExists => {}
                made => return made.map(|made| (Temporary { path }, made)),
            }
        }
        unreachable!("some number is free")
    }
}

impl Drop for Temporary {
    fn drop(&mut self) {
        // Where it has become the target, it is gone already.
        let _ = std::fs::remove_file(&self.path);
    }
}
