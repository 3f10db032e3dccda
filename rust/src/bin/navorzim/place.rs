//! Folders that are opened once. What is done in one is done by its handle: it happens in this very folder, whatever its path means
//! by then. The system's own paths to open files (`/proc/self/fd`) lead there, so that no call needs a variant for handles.
use std::ffi::{OsStr, OsString};
use std::fs::{self, File};
use std::io;
use std::os::fd::AsRawFd;
use std::os::unix::fs::MetadataExt;
use std::path::{Path, PathBuf};
use std::sync::Arc;

/// A folder that is open.
#[derive(Debug)]
pub struct OpenFolder {
    named: PathBuf,
    handle: File,
}

impl OpenFolder {
    pub fn open(path: &Path) -> io::Result<Arc<OpenFolder>> {
        // With the dot nothing but a folder is opened.
        OpenFolder::from_handle(path, File::open(path.join("."))?)
    }

    /// A folder that was opened already.
    pub fn from_handle(named: &Path, handle: File) -> io::Result<Arc<OpenFolder>> {
        let folder = OpenFolder { named: named.to_path_buf(), handle };
        let (open, led_to) = (folder.handle.metadata()?, fs::metadata(folder.path()));
        match led_to.is_ok_and(|led_to| (led_to.dev(), led_to.ino()) == (open.dev(), open.ino())) {
            true => Ok(Arc::new(folder)),
            false => Err(io::Error::other("/proc/self/fd, which leads to open files, isn't there")),
        }
    }

    /// As the user named it, for messages.
    pub fn named(&self) -> &Path {
        &self.named
    }

    pub fn handle(&self) -> &File {
        &self.handle
    }

    /// A path that means this folder as long as it is open.
    pub fn path(&self) -> PathBuf {
        PathBuf::from(format!("/proc/self/fd/{}", self.handle.as_raw_fd()))
    }

    /// A name in it.
    pub fn at(self: &Arc<OpenFolder>, name: &str) -> Place {
        Place { named: self.named.join(name), within: Some((Arc::clone(self), OsString::from(name))) }
    }
}

/// Where a file is.
#[derive(Clone, Debug)]
pub struct Place {
    named: PathBuf,
    /// the open folder, and the name there; none where the path alone says it
    within: Option<(Arc<OpenFolder>, OsString)>,
}

impl Place {
    /// Where a path leads, each time anew.
    pub fn named_only(path: &Path) -> Place {
        Place { named: path.to_path_buf(), within: None }
    }

    /// Where a path leads now: its folder is opened. `target` is the path with links followed, or the same.
    pub fn within_folder(named: &Path, target: &Path) -> io::Result<Place> {
        let folder = match target.parent() {
            Some(folder) if !folder.as_os_str().is_empty() => folder,
            _ => Path::new("."),
        };
        let name = target.file_name().unwrap_or(OsStr::new(".")).to_os_string();
        Ok(Place { named: named.to_path_buf(), within: Some((OpenFolder::open(folder)?, name)) })
    }

    /// As the user named it, for messages.
    pub fn named(&self) -> &Path {
        &self.named
    }

    /// A path that leads there.
    pub fn path(&self) -> PathBuf {
        match &self.within {
            Some((folder, name)) => folder.path().join(name),
            None => self.named.clone(),
        }
    }

    /// The open folder.
    pub fn folder(&self) -> Option<&Arc<OpenFolder>> {
        self.within.as_ref().map(|(folder, _)| folder)
    }
}
