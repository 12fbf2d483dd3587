//! What tracks are read from.

use std::fs::{self, File};
use std::os::unix::fs::{FileExt, MetadataExt};
use std::path::Path;
use std::{io, io::Seek};

/// What a track's DSF file is read from, by threads at once: a [`File`], bytes in memory, or what else can be read at
/// places.
pub trait Source {
    /// Bytes of the file.
    fn length(&self) -> io::Result<u64>;

    /// Reads as many bytes as there is room for, from byte `place` on, or fails.
    fn read_at(&self, place: u64, bytes: &mut [u8]) -> io::Result<()>;

    /// Whether it is the file that has this name, which no output may then replace.
    fn is_at(&self, path: &Path) -> bool {
        let _ = path;
        false
    }
}

impl Source for File {
    fn length(&self) -> io::Result<u64> {
        let mut file = self;
        file.seek(io::SeekFrom::End(0)) // of a device, too
    }

    fn read_at(&self, place: u64, bytes: &mut [u8]) -> io::Result<()> {
        self.read_exact_at(bytes, place)
    }

    fn is_at(&self, path: &Path) -> bool {
        let file = |data: fs::Metadata| (data.dev(), data.ino());
        matches!((self.metadata().map(file), fs::metadata(path).map(file)), (Ok(own), Ok(other)) if own == other)
    }
}

impl Source for [u8] {
    fn length(&self) -> io::Result<u64> {
        Ok(self.len() as u64)
    }

    fn read_at(&self, place: u64, bytes: &mut [u8]) -> io::Result<()> {
        let part = usize::try_from(place).ok().and_then(|from| self.get(from..)?.get(..bytes.len()));
        bytes.copy_from_slice(part.ok_or(io::ErrorKind::UnexpectedEof)?);
        Ok(())
    }
}

impl<S: Source + ?Sized> Source for &S {
    fn length(&self) -> io::Result<u64> {
        (**self).length()
    }

    fn read_at(&self, place: u64, bytes: &mut [u8]) -> io::Result<()> {
        (**self).read_at(place, bytes)
    }

    fn is_at(&self, path: &Path) -> bool {
        (**self).is_at(path)
    }
}

impl Source for Vec<u8> {
    fn length(&self) -> io::Result<u64> {
        self.as_slice().length()
    }

    fn read_at(&self, place: u64, bytes: &mut [u8]) -> io::Result<()> {
        self.as_slice().read_at(place, bytes)
    }
}
