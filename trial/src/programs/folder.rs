//! The folder that the bench program is started in.

use super::naming;
use super::pairs::Content;
use std::fs;
use std::io;
use std::os::unix::fs::PermissionsExt;
use std::path::PathBuf;

/// The folder that the program is started in, removed when it is no longer wanted.
pub struct Folder {
    pub path: PathBuf,
}

impl Folder {
    pub fn new() -> Result<Folder, String> {
        let path = std::env::temp_dir().join(format!("riser-programs-{}", std::process::id()));
        fs::create_dir(&path).map_err(|error| naming(&path, error))?;
        Ok(Folder { path })
    }

    /// Puts the content in the file's place, whatever stood there before.
    pub fn put(&self, name: &str, content: &Content) -> Result<(), String> {
        let path = self.path.join(name);
        let removed = if path.is_dir() { fs::remove_dir(&path) } else { fs::remove_file(&path) };
        if let Err(error) = removed
            && error.kind() != io::ErrorKind::NotFound
        {
            return Err(naming(&path, error));
        }
        let put = match content {
            Content::Missing => Ok(()),
            Content::Folder => fs::create_dir(&path),
            Content::Bytes(bytes) => fs::write(&path, bytes),
            Content::Shut(bytes) => fs::write(&path, bytes)
                .and_then(|()| fs::set_permissions(&path, fs::Permissions::from_mode(0o000))),
        };
        put.map_err(|error| naming(&path, error))
    }

    /// Whether a shut file opens all the same, as it does for the superuser.
    pub fn opens_shut(&self) -> Result<bool, String> {
        let name = "pattern.bin";
        self.put(name, &Content::Shut(Vec::new()))?;
        Ok(fs::File::open(self.path.join(name)).is_ok())
    }

    /// As much of the file as the program reads, "a file that can't be opened counting as empty".
    pub fn read(&self, name: &str, most: usize) -> Vec<u8> {
        let mut bytes = fs::read(self.path.join(name)).unwrap_or_default();
        bytes.truncate(most);
        bytes
    }
}

impl Drop for Folder {
    fn drop(&mut self) {
        if let Err(error) = fs::remove_dir_all(&self.path) {
            eprintln!("programs: {}", naming(&self.path, error));
        }
    }
}
