//! Folders that a command makes.
use crate::failure::Failure;
use crate::files::{go_on, trouble};
use crate::place::{OpenFolder, Place};
use crate::replacement::{create_in, is_temporary, remove_abandoned};
use crate::rights;
use crate::system::{NO_LINK, WITHOUT_WAITING};
use std::fs::{self, File, OpenOptions, Permissions};
use std::io::{self, ErrorKind};
use std::os::unix::fs::{MetadataExt, OpenOptionsExt, PermissionsExt};
use std::path::{Path, PathBuf};
use std::sync::Arc;

/// In a folder: the files that are made there get its group.
const SETGID: u32 = 0o2000;

/// Makes a folder, or takes an empty one; answers whether it was made. What killed runs have left there doesn't count.
pub fn make_or_take(path: &Path) -> Result<bool, Failure> {
    match fs::create_dir(path) {
        Ok(()) => Ok(true),
        Err(error) if error.kind() == ErrorKind::AlreadyExists => is_empty(path, path).map(|()| false),
        Err(error) => Err(trouble("make", path, error)),
    }
}

/// Refuses a folder in which there is more than killed runs have left.
fn is_empty(named: &Path, path: &Path) -> Result<(), Failure> {
    let fails = |error| trouble("use", named, error);
    for entry in fs::read_dir(path).map_err(fails)? {
        if !is_temporary(&entry.map_err(fails)?.file_name()) {
            return Err(trouble("use", named, "it isn't empty"));
        }
    }
    Ok(())
}

/// A folder for files that belong together. It is made under a temporary name, where only its owner can look into it, and has its own
/// name only when all of it is complete and on the disk. If it is dropped before that, nothing is left behind.
pub struct NewFolder {
    target: Place,
    parent: Arc<OpenFolder>,
    open: Arc<OpenFolder>,
    /// the permissions that it has in the end
    mode: u32,
    /// the empty folder that stands in its place
    old: Option<Arc<OpenFolder>>,
    /// none once it has its name
    temporary: Option<PathBuf>,
}

impl NewFolder {
    pub fn make(path: &Path) -> Result<NewFolder, Failure> {
        let (target, old) = target(path)?;
        let Some(parent) = target.folder().cloned() else {
            return Err(trouble("make", path, "its folder isn't open"));
        };
        remove_abandoned(&parent.path());
        let fails = |error: io::Error| trouble("make", path, error);
        let (temporary, handle) = create_in(&parent.path(), make_here).map_err(fails)?;
        let made = |handle: File| {
            let open = OpenFolder::from_handle(path, handle)?;
            // Whoever may rename here could have put another one in its place: nothing that is in it is ours.
            if fs::read_dir(open.path())?.next().is_some() {
                return Err(ErrorKind::DirectoryNotEmpty.into());
            }
            let mode = final_mode(open.handle(), old.as_deref())?;
            open.handle().set_permissions(Permissions::from_mode(0o700 | mode & SETGID))?;
            Ok((mode, open))
        };
        match made(handle) {
            Ok((mode, open)) => Ok(NewFolder { target, parent, open, mode, old, temporary: Some(temporary) }),
            Err(error) => {
                let _ = fs::remove_dir(&temporary);
                Err(fails(error))
            }
        }
    }

    pub fn open(&self) -> Arc<OpenFolder> {
        Arc::clone(&self.open)
    }

    /// Everything is there: it gets its name. What somebody else put there meanwhile isn't replaced, unless it is an empty folder.
    pub fn keep(mut self) -> Result<(), Failure> {
        let fails = |error: io::Error| match error.kind() {
            ErrorKind::DirectoryNotEmpty | ErrorKind::NotADirectory | ErrorKind::AlreadyExists => {
                trouble("make", self.target.named(), "somebody else made it meanwhile")
            }
            ErrorKind::ResourceBusy => {
                trouble("use", self.target.named(), "another file system begins there: name a new folder in it")
            }
            _ => trouble("make", self.target.named(), error),
        };
        let handle = self.open.handle();
        handle.set_permissions(Permissions::from_mode(self.mode)).and_then(|()| handle.sync_all()).map_err(fails)?;
        go_on("make", self.target.named())?;
        is_still_there(&self.target, self.old.as_deref())?;
        if let Some(temporary) = &self.temporary {
            fs::rename(temporary, self.target.path()).map_err(fails)?;
        }
        self.temporary = None;
        let synced = self.parent.handle().sync_all();
        synced.map_err(|error| trouble("bring to the disk the folder of", self.target.named(), error))
    }
}

/// Gives a new folder owner, group and attributes of an old one, since the files that are made in it go by them, and answers the
/// permissions that it is to have. Without an old one these are what any program gives a new folder.
fn final_mode(new: &File, old: Option<&OpenFolder>) -> io::Result<u32> {
    let Some(old) = old else { return Ok(new.metadata()?.mode() & 0o7777) };
    rights::take_over(new, old.handle())?;
    let (now, before) = (new.metadata()?, old.handle().metadata()?);
    let kept = (now.uid(), now.gid()) == (before.uid(), before.gid());
    // In a folder these bits give nobody another's rights.
    Ok(now.mode() & 0o777 | if kept { before.mode() & 0o7000 } else { 0 })
}

/// Refuses if the empty folder that is to be replaced isn't at the place itself: a folder on the way may have been exchanged.
fn is_still_there(place: &Place, old: Option<&OpenFolder>) -> Result<(), Failure> {
    let Some(old) = old else { return Ok(()) };
    match (fs::symlink_metadata(place.path()), old.handle().metadata()) {
        (Ok(now), Ok(before)) if (now.dev(), now.ino()) == (before.dev(), before.ino()) => Ok(()),
        _ => Err(trouble("use", place.named(), "somebody else replaced it meanwhile")),
    }
}

/// Where a folder is to be, and the empty one that stands there.
fn target(path: &Path) -> Result<(Place, Option<Arc<OpenFolder>>), Failure> {
    let (made, old) = match fs::metadata(path) {
        Ok(_) => {
            let fails = |error| trouble("use", path, error);
            let old = OpenFolder::open(path).map_err(fails)?;
            is_empty(path, &old.path())?;
            remove_abandoned(&old.path());
            (fs::canonicalize(path).map_err(fails)?, Some(old))
        }
        Err(_) if fs::symlink_metadata(path).is_ok() => return Err(trouble("use", path, "it is a link to nothing")),
        Err(_) => (path.to_path_buf(), None),
    };
    if old.is_some() && path.file_name().is_none() {
        return Err(trouble("use", path, "the folder one is in isn't replaced: name a new one in it"));
    }
    let place = Place::within_folder(path, &made).map_err(|error| trouble("make", path, error))?;
    is_still_there(&place, old.as_deref())?;
    Ok((place, old))
}

/// Makes a folder and opens it, but nothing that a link leads to, whoever may have put one there.
fn make_here(path: &Path) -> io::Result<File> {
    fs::create_dir(path)?;
    let handle = OpenOptions::new().read(true).custom_flags(WITHOUT_WAITING | NO_LINK).open(path)?;
    match handle.metadata()?.is_dir() {
        true => Ok(handle),
        false => Err(ErrorKind::NotADirectory.into()),
    }
}

impl Drop for NewFolder {
    fn drop(&mut self) {
        if let Some(temporary) = &self.temporary {
            remove_files(&self.open.path());
            let _ = fs::remove_dir(temporary);
        }
    }
}

/// Removes the files in a folder. What can't be removed stays.
pub fn remove_files(folder: &Path) {
    let Ok(entries) = fs::read_dir(folder) else { return };
    for entry in entries.flatten() {
        let _ = fs::remove_file(entry.path());
    }
}
