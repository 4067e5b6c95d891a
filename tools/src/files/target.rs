//! The file that a tool writes: which files are refused, and how one comes to stand there whole or not at all.

use super::{name, unreadable};
use std::fs::{self, File, OpenOptions};
use std::io::{self, ErrorKind, Write};
use std::os::unix::fs::MetadataExt;
use std::path::{Path, PathBuf};

/// Where a file is to stand.
#[derive(Clone, Debug, PartialEq, Eq)]
pub struct Target {
    /// Its path, as messages have it.
    path: PathBuf,
    /// The regular file that stands there, which the path leads to: it is to be replaced.
    taken: Option<PathBuf>,
}

/// Where a file is to stand, if it may: over another one only if that is asked for, and never over a file that is read,
/// which each have a name for messages.
pub fn claim(path: &Path, over: bool, read: &[(Option<&Path>, &str)]) -> Result<Target, String> {
    let unwritable = |error| unwritable(path, &error);
    let target = find(path).map_err(unwritable)?;
    for (source, what) in read {
        if let Some(source) = source
            && target.is(source)?
        {
            return Err(format!("{}: can't be written: it is {what}", name(path)));
        }
    }
    if !over && target.taken.is_some() {
        return Err(format!("{}: it is there already; --over replaces it", name(path)));
    }
    target.allows().map_err(unwritable)?;
    Ok(target)
}

/// A message that names the file.
fn unwritable(path: &Path, error: &io::Error) -> String {
    format!("{}: can't be written: {error}", name(path))
}

/// What the path leads to. Refuses anything but a new file and a regular one.
fn find(path: &Path) -> io::Result<Target> {
    match fs::symlink_metadata(path) {
        Err(error) if error.kind() == ErrorKind::NotFound => {
            return Ok(Target { path: path.to_owned(), taken: None });
        }
        found => found?,
    };
    let taken = path.canonicalize()?;
    if !fs::metadata(&taken)?.is_file() {
        return Err(io::Error::other("it isn't a regular file"));
    }
    Ok(Target { path: path.to_owned(), taken: Some(taken) })
}

impl Target {
    /// Whether it is the file that is read by this path.
    pub fn is(&self, source: &Path) -> Result<bool, String> {
        let Some(taken) = &self.taken else { return Ok(false) };
        let one = fs::metadata(taken).map_err(|error| unwritable(&self.path, &error))?;
        let other = fs::metadata(source).map_err(|error| unreadable(&name(source), &error))?;
        Ok((one.dev(), one.ino()) == (other.dev(), other.ino()))
    }

    /// Refuses a file that may not be written.
    fn allows(&self) -> io::Result<()> {
        if let Some(taken) = &self.taken {
            OpenOptions::new().write(true).open(taken)?;
        }
        Ok(())
    }

    /// Writes the file, whole or not at all.
    pub fn write(&self, bytes: &[u8]) -> Result<(), String> {
        self.put(bytes).map_err(|error| unwritable(&self.path, &error))
    }

    /// Writes a new file beside the target, and puts it there when the disk has it whole. A file that is replaced
    /// leaves it its permissions; where nothing stood, nothing is replaced that came to stand there since.
    fn put(&self, bytes: &[u8]) -> io::Result<()> {
        let path = self.taken.as_ref().unwrap_or(&self.path);
        let mut beside = path.as_os_str().to_owned();
        beside.push(format!(".{}.new", std::process::id()));
        let file = File::create_new(&beside)?;
        let result = self.fill(file, bytes).and_then(|()| match &self.taken {
            None => give_name(beside.as_ref(), &self.path),
            Some(taken) => fs::rename(&beside, taken),
        });
        match result {
            Ok(()) => keep(path),
            Err(_) => {
                let _ = fs::remove_file(&beside);
            }
        }
        result
    }

    /// Gives the new file the permissions of the old one, before it has a byte that others might read, and then the
    /// bytes.
    fn fill(&self, mut new: File, bytes: &[u8]) -> io::Result<()> {
        if let Some(taken) = &self.taken {
            new.set_permissions(fs::metadata(taken)?.permissions())?;
        }
        new.write_all(bytes)?;
        new.sync_all()
    }
}

/// Gives the file its name, unless something has that name by now. A second name can't be given where something has
/// it; where the file system knows no second names, a look before has to do.
fn give_name(beside: &Path, free: &Path) -> io::Result<()> {
    match fs::hard_link(beside, free) {
        Ok(()) => {
            let _ = fs::remove_file(beside);
            Ok(())
        }
        Err(error) if error.kind() == ErrorKind::AlreadyExists => Err(error),
        Err(_) if fs::symlink_metadata(free).is_ok() => Err(ErrorKind::AlreadyExists.into()),
        Err(_) => fs::rename(beside, free),
    }
}

/// Has the disk keep the file's name. It stands there whole in any case, and not every file system can be asked.
fn keep(path: &Path) {
    let folder = path.parent().filter(|folder| !folder.as_os_str().is_empty()).unwrap_or(Path::new("."));
    let _ = File::open(folder).and_then(|folder| folder.sync_all());
}
