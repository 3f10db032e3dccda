//! Files that are written: the new version takes the old one's place whole or not at all.
use crate::failure::{printable, Failure};
use crate::files::{go_on, is_standard, or_dash, trouble, Held, Purpose, BUFFER, TO_STANDARD};
use crate::folders::remove_files;
use crate::place::{OpenFolder, Place};
use crate::{rights, system};
use std::ffi::OsStr;
use std::fs::{self, File, Metadata, OpenOptions, TryLockError};
use std::io::{self, BufWriter, ErrorKind, Write};
use std::os::fd::AsFd;
use std::os::unix::fs::{FileExt, MetadataExt, OpenOptionsExt};
use std::path::{Path, PathBuf};
use std::sync::Arc;
use std::time::{SystemTime, UNIX_EPOCH};

/// A new file beside the target that takes its place when it is complete. Until then the target is as it was, and if it is
/// dropped before that, nothing is left behind.
pub struct Replacement {
    /// links followed, so that a link stays one, in the folder that is open
    target: Place,
    folder: Arc<OpenFolder>,
    /// what stands there now
    old: Option<Held>,
    /// whose owner, group and permissions the new one gets
    model: Model,
    /// none once it has taken the target's place
    temporary: Option<PathBuf>,
    writer: BufWriter<File>,
    /// whether all of it is on the disk
    complete: bool,
}

/// Whose rights a new file gets.
pub enum Model {
    /// those of the old version, with its attributes
    Old(File),
    /// those of another new file
    Like(File),
    /// those that all files have that it is made of
    MadeOf(Vec<File>),
    /// those that any program gives a new file, as far as all files have them that it is made of
    New(Vec<File>),
}

impl Replacement {
    /// Begins a new version of the target, which must be none of `kept` nor of the files that it is made of.
    pub fn begin(path: &Path, kept: &[&Path], made_of: &[&Held]) -> Result<Replacement, Failure> {
        match fs::metadata(path) {
            Ok(found) => {
                let read: Vec<&Path> = made_of.iter().map(|held| held.named()).collect();
                keep_apart(path, &found, &[kept, &read].concat())?;
                let held = Held::open(path, Purpose::Replace);
                Replacement::of(held.map_err(|failure| or_dash(failure, path, TO_STANDARD))?)
            }
            Err(error) if error.kind() == ErrorKind::NotFound => {
                new_target(path)?;
                let target = Place::within_folder(path, path).map_err(|error| fails_at_folder(path, error))?;
                Replacement::at(target, None, Model::New(handles(made_of.iter().copied())?))
            }
            Err(error) => Err(trouble("write", path, error)),
        }
    }

    /// Begins a file that must not be there yet.
    pub fn begin_new(target: Place, model: Model) -> Result<Replacement, Failure> {
        match fs::symlink_metadata(target.path()) {
            Ok(_) => Err(trouble("write", target.named(), "it exists, and isn't replaced")),
            Err(error) if error.kind() == ErrorKind::NotFound => Replacement::at(target, None, model),
            Err(error) => Err(trouble("write", target.named(), error)),
        }
    }

    /// Begins a new version of a file that is read, which must be none of `kept`.
    pub fn in_place(held: &Held, kept: &[&Path]) -> Result<Replacement, Failure> {
        let found = held.file.metadata().map_err(|error| trouble("write", held.named(), error))?;
        keep_apart(held.named(), &found, kept)?;
        Replacement::of(held.again()?)
    }

    fn of(old: Held) -> Result<Replacement, Failure> {
        let named = old.named();
        let target = fs::canonicalize(named).map_err(|error| trouble("write", named, error))?;
        let target = Place::within_folder(named, &target).map_err(|error| fails_at_folder(named, error))?;
        // From here on this is the folder, whatever its path means.
        old.is_at(&target)?;
        let model = Model::Old(old.again()?.file);
        Replacement::at(target, Some(old), model)
    }

    fn at(target: Place, old: Option<Held>, model: Model) -> Result<Replacement, Failure> {
        go_on("write", target.named())?;
        let Some(folder) = target.folder().cloned() else {
            return Err(trouble("write", target.named(), "its folder isn't open"));
        };
        remove_abandoned(&folder.path());
        let create = |mode| {
            let new = |path: &Path| OpenOptions::new().write(true).create_new(true).mode(mode).open(path);
            create_in(&folder.path(), new).map_err(|error| trouble("write", target.named(), error))
        };
        let model = match model {
            // An empty file shows what the folder and the user's mask make of a new one.
            Model::New(sources) => {
                let (path, model) = create(0o666)?;
                let _ = fs::remove_file(path);
                rights::limit(&model, &sources).map_err(|error| trouble("write", target.named(), error))?;
                Model::Like(model)
            }
            Model::Old(_) | Model::Like(_) | Model::MadeOf(_) => model,
        };
        let (temporary, file) = create(0o600)?;
        let (temporary, writer) = (Some(temporary), BufWriter::with_capacity(BUFFER, file));
        Ok(Replacement { target, folder, old, model, temporary, writer, complete: false })
    }

    /// Adds bytes.
    pub fn write(&mut self, bytes: &[u8]) -> Result<(), Failure> {
        go_on("write", self.named())?;
        let written = self.writer.write_all(bytes);
        written.map_err(|error| self.trouble(error))
    }

    /// Writes bytes at a place, which several threads may do at once. A file is written in this way or in the other, not in both.
    pub fn write_at(&self, bytes: &[u8], place: u64) -> Result<(), Failure> {
        go_on("write", self.named())?;
        let written = self.writer.get_ref().write_all_at(bytes, place);
        written.map_err(|error| self.trouble(error))
    }

    /// Brings all bytes to the disk. Until then only the owner sees them.
    pub fn complete(&mut self) -> Result<(), Failure> {
        if !self.complete {
            self.bring_to_disk().map_err(|error| self.trouble(error))?;
            self.complete = true;
        }
        Ok(())
    }

    fn bring_to_disk(&mut self) -> io::Result<()> {
        self.writer.flush()?;
        let file = self.writer.get_ref();
        match &self.model {
            Model::Old(old) => rights::take_over(file, old)?,
            Model::Like(model) => rights::resemble(file, model)?,
            Model::MadeOf(sources) => rights::share(file, sources, self.folder.handle())?,
            Model::New(sources) => rights::limit(file, sources)?,
        }
        file.sync_all()
    }

    /// Brings all bytes to the disk, and then the new file to its place, unless somebody else wrote there or in what was read
    /// meanwhile: the comparison is the last that happens before the new file gets its name.
    pub fn finish<'a>(mut self, read: impl IntoIterator<Item = &'a Held>) -> Result<(), Failure> {
        self.complete()?;
        for held in read {
            held.unchanged()?;
        }
        if let Some(old) = &self.old {
            old.unchanged()?;
            old.is_at(&self.target)?;
        }
        go_on("write", self.named())?;
        self.place().map_err(|error| self.trouble(error))?;
        // The new name is in the folder, so the folder too has to reach the disk.
        self.folder.handle().sync_all().map_err(|error| {
            let named = printable(self.named());
            let why = format!("{error}; {named} is complete, but a crash may bring the old one back");
            trouble("bring to the disk the folder of", self.named(), why)
        })
    }

    fn named(&self) -> &Path {
        self.target.named()
    }

    fn place(&mut self) -> io::Result<()> {
        let Some(temporary) = &self.temporary else { return Ok(()) };
        match &self.old {
            Some(_) => fs::rename(temporary, self.target.path())?,
            None => name_new(temporary, &self.target.path())?,
        }
        self.temporary = None;
        Ok(())
    }

    fn trouble(&self, error: io::Error) -> Failure {
        match error.kind() {
            ErrorKind::AlreadyExists => trouble("write", self.named(), "somebody else made it meanwhile"),
            _ => trouble("write", self.named(), error),
        }
    }
}

impl Drop for Replacement {
    fn drop(&mut self) {
        if let Some(temporary) = &self.temporary {
            let _ = fs::remove_file(temporary);
        }
    }
}

/// The open files themselves.
pub fn handles<'a>(files: impl IntoIterator<Item = &'a Held>) -> Result<Vec<File>, Failure> {
    files.into_iter().map(|held| Ok(held.again()?.file)).collect()
}

/// Gives the file a name that nobody has: a rename would replace what somebody else put there meanwhile, a further link doesn't.
fn name_new(temporary: &Path, target: &Path) -> io::Result<()> {
    match fs::hard_link(temporary, target) {
        Ok(()) => fs::remove_file(temporary),
        Err(error) if error.kind() == ErrorKind::AlreadyExists => Err(error),
        // A file system without links.
        Err(_) if fs::symlink_metadata(target).is_ok() => Err(ErrorKind::AlreadyExists.into()),
        Err(_) => fs::rename(temporary, target),
    }
}

fn new_target(path: &Path) -> Result<(), Failure> {
    if fs::symlink_metadata(path).is_ok() {
        return Err(trouble("write", path, "it is a link to nothing"));
    }
    // `folder/` has a file name for Rust, but a file can't have that name.
    let ends_open = path.as_os_str().as_encoded_bytes().ends_with(b"/");
    if path.file_name().is_none() || ends_open {
        return Err(trouble("write", path, "it is no name for a file"));
    }
    Ok(())
}

/// Refuses a target that is one of `kept` or takes this run's own answers, under whatever name: links of both kinds are seen through.
fn keep_apart(path: &Path, found: &Metadata, kept: &[&Path]) -> Result<(), Failure> {
    let identity = |found: &Metadata| (found.dev(), found.ino());
    let target = identity(found);
    let is_target = |found: io::Result<Metadata>| found.is_ok_and(|found| identity(&found) == target);
    if let Some(kept) = kept.iter().find(|kept| !is_standard(kept) && is_target(fs::metadata(kept))) {
        return Err(trouble("write", path, format!("it is also read, as {}", printable(kept))));
    }
    let streams = [
        ("output; a dash, -, writes there", io::stdout().as_fd().try_clone_to_owned()),
        ("error", io::stderr().as_fd().try_clone_to_owned()),
    ];
    for (name, stream) in streams {
        if is_target(stream.and_then(|stream| File::from(stream).metadata())) {
            return Err(trouble("write", path, format!("it is this run's standard {name}")));
        }
    }
    Ok(())
}

/// A folder that can't be opened can't be brought to the disk either.
fn fails_at_folder(named: &Path, error: io::Error) -> Failure {
    trouble("write", named, format!("its folder: {error}"))
}

/// Creates a file or a folder under a name that nobody has, in the target's folder, since a rename can't leave the file system. It is
/// locked as long as this run lives.
pub fn create_in(folder: &Path, new: impl Fn(&Path) -> io::Result<File>) -> io::Result<(PathBuf, File)> {
    for attempt in 0..100 {
        let temporary = folder.join(format!(".{}-{attempt}.part", unique_name()));
        match new(&temporary) {
            Ok(file) if is_ours(&file)? => return Ok((temporary, file)),
            Ok(_) => {}
            Err(error) if error.kind() == ErrorKind::AlreadyExists => {}
            Err(error) => return Err(error),
        }
    }
    Err(ErrorKind::AlreadyExists.into())
}

/// Locks a new file; another run may have taken it for an abandoned one just before, and removed it.
fn is_ours(file: &File) -> io::Result<bool> {
    match file.try_lock() {
        Err(TryLockError::WouldBlock) => Ok(false),
        Err(TryLockError::Error(error)) if error.kind() != ErrorKind::Unsupported => Err(error),
        _ => Ok(file.metadata()?.nlink() > 0),
    }
}

/// Removes what killed runs have left in a folder: nobody holds its lock any more. What can't be removed stays, since it does no
/// harm to this run.
pub fn remove_abandoned(folder: &Path) {
    let Ok(entries) = fs::read_dir(folder) else { return };
    for entry in entries.flatten() {
        let ours = entry.file_type().is_ok_and(|kind| kind.is_file() || kind.is_dir());
        if !ours || !is_temporary(&entry.file_name()) {
            continue;
        }
        // Never through a link: a folder's files are removed in the very folder that was opened.
        let flags = system::WITHOUT_WAITING | system::NO_LINK;
        let opened = OpenOptions::new().read(true).custom_flags(flags).open(entry.path());
        // The lock is held until it is removed, so that nobody begins to write to it.
        let Some(dead) = opened.ok().filter(|file| file.try_lock().is_ok()) else { continue };
        let Ok(found) = dead.metadata() else { continue };
        if !found.is_dir() {
            let _ = fs::remove_file(entry.path());
        } else if let (true, Ok(dead)) = (is_named_by_its_owner(folder, &found), OpenFolder::from_handle(folder, dead))
        {
            remove_files(&dead.path());
            let _ = fs::remove_dir(entry.path());
        }
    }
}

/// Whether nobody but root and a folder's owner can have given it its name. Who else may write to the folder around it could have
/// given that name to a folder whose files they may not remove.
fn is_named_by_its_owner(around: &Path, found: &Metadata) -> bool {
    const STICKY: u32 = 0o1000;
    fs::metadata(around).is_ok_and(|around| {
        let others_write = around.mode() & 0o022 != 0 && around.mode() & STICKY == 0;
        [0, found.uid()].contains(&around.uid()) && !others_write
    })
}

/// Whether a name is one that `create_in` gives, and no user's.
pub fn is_temporary(name: &OsStr) -> bool {
    let parts = name.to_str().and_then(|name| name.strip_prefix(".navorzim-")?.strip_suffix(".part"));
    let parts: Vec<&str> = parts.unwrap_or("").split('-').collect();
    let hexadecimal = |part: &&str| !part.is_empty() && part.bytes().all(|byte| byte.is_ascii_hexdigit());
    parts.len() == 3 && parts.iter().all(hexadecimal)
}

/// A name that no other run of the tool is likely to choose.
pub fn unique_name() -> String {
    let now = SystemTime::now().duration_since(UNIX_EPOCH);
    let nanoseconds = now.map_or(0, |time| time.as_nanos());
    format!("navorzim-{}-{nanoseconds:x}", std::process::id())
}
