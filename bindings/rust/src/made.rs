//! Files that appear whole or not at all: each is made beside its place under another name.

use std::fs::{self, File};
use std::hash::{BuildHasher, Hasher, RandomState};
use std::io::{self, ErrorKind};
use std::os::unix::fs::FileExt;
use std::path::{Path, PathBuf};

/// A file that is being made. Dropped without a name, it is gone.
pub struct Made {
    file: File,
    path: PathBuf,
    beside: PathBuf,
    replace: bool,
}

// With the name that was asked for.
fn of(path: &Path, e: io::Error) -> io::Error {
    io::Error::new(e.kind(), format!("{}: {e}", path.display()))
}

fn is_there(path: &Path) -> bool {
    path.symlink_metadata().is_ok()
}

impl Made {
    pub fn new(path: &Path, replace: bool) -> io::Result<Made> {
        if !replace && is_there(path) {
            return Err(of(path, ErrorKind::AlreadyExists.into()));
        }
        let beside = path.with_file_name(format!(".puigneht-{:016x}.part", RandomState::new().build_hasher().finish()));
        let file = File::options().read(true).write(true).create_new(true).open(&beside).map_err(|e| of(path, e))?;
        Ok(Made { file, path: path.into(), beside, replace })
    }

    /// Writes some bytes to a place of it.
    pub fn write(&self, bytes: &[u8], place: u64) -> io::Result<()> {
        self.file.write_all_at(bytes, place).map_err(|e| of(&self.path, e))
    }

    // Gives it its name.
    fn name(&self) -> io::Result<()> {
        if self.replace {
            return fs::rename(&self.beside, &self.path);
        }
        match fs::hard_link(&self.beside, &self.path) {
            Err(e) if e.kind() == ErrorKind::AlreadyExists || is_there(&self.path) => Err(e),
            Err(_) => fs::rename(&self.beside, &self.path), // a file system without links
            Ok(()) => Ok(()),
        }
    }
}

impl Drop for Made {
    fn drop(&mut self) {
        let _ = fs::remove_file(&self.beside); // it has its name, and perhaps that alone
    }
}

/// All of them get their names, or none that is new.
pub fn name_all(files: &[Made]) -> io::Result<()> {
    files.iter().try_for_each(|made| made.file.sync_all().map_err(|e| of(&made.path, e)))?;
    for (k, made) in files.iter().enumerate() {
        if let Err(e) = made.name() {
            for named in files[..k].iter().filter(|named| !named.replace) {
                let _ = fs::remove_file(&named.path);
            }
            return Err(of(&made.path, e));
        }
    }
    Ok(())
}
