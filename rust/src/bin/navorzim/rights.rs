//! Who may see a new version of a file: nobody who couldn't see the old one. What can't be kept is narrowed, never widened.
use crate::system::{attribute, attribute_names, remove_attribute, set_attribute};
use std::ffi::CStr;
use std::fs::{File, Metadata, Permissions};
use std::io;
use std::os::unix::fs::{fchown, MetadataExt, PermissionsExt};

/// The access control list, as the kernel keeps it.
const LIST: &CStr = c"system.posix_acl_access";

/// Gives a new version of a file, which only its owner can see until now, the owner, group, attributes and permissions of the old one.
pub fn take_over(file: &File, old: &File) -> io::Result<()> {
    give(file, old, keep_attributes)
}

/// Gives a new file, which only its owner can see until now, the owner, group, access list and permissions that another new file got.
pub fn resemble(file: &File, model: &File) -> io::Result<()> {
    give(file, model, |_, _| Ok(()))
}

/// Takes from a new, empty file the rights that somebody hasn't to every file that it will be made of. Its owner keeps theirs: they
/// could read all of them.
pub fn limit(file: &File, sources: &[File]) -> io::Result<()> {
    let now = file.metadata()?;
    let own = attribute(file, LIST)?;
    let lists = sources.iter().map(|source| attribute(source, LIST)).collect::<io::Result<Vec<_>>>()?;
    let kept = match (lists.iter().all(|list| *list == own), lists.iter().all(Option::is_none)) {
        (true, _) => 0o777,
        // The group's bits are those of the folder's list, which goes.
        (false, true) => 0o707,
        // Nobody knows whom the list of a source shuts out.
        (false, false) => 0o700,
    };
    if kept != 0o777 {
        remove_attribute(file, LIST)?;
    }
    let mut mode = now.mode() & kept;
    for source in sources {
        mode &= 0o700 | rights_to(&source.metadata()?, &now);
    }
    file.set_permissions(Permissions::from_mode(mode))
}

/// What a file's mode lets the owner, the group and the others of another file do with it: those who may count among two of its
/// classes get what both have.
fn rights_to(file: &Metadata, other: &Metadata) -> u32 {
    let (user, mut group, mut others) = classes(file.mode());
    if file.uid() != other.uid() {
        (group, others) = (group & user, others & user);
    }
    if file.gid() != other.gid() {
        (group, others) = (group & others, group & others);
    }
    user << 6 | group << 3 | others
}

/// The bits of the owner, the group and the others.
fn classes(mode: u32) -> (u32, u32, u32) {
    (mode >> 6 & 7, mode >> 3 & 7, mode & 7)
}

/// Gives a file that was made of others rights no wider than those of every one of them. It goes to another owner or group only if
/// all of them and the folder have that: whoever put a stranger's file among them gets nothing of it. Else it stays with whoever runs
/// the tool, for nobody else to see.
pub fn share(file: &File, sources: &[File], folder: &File) -> io::Result<()> {
    let found = sources.iter().map(File::metadata).collect::<io::Result<Vec<_>>>()?;
    let (now, around) = (file.metadata()?, folder.metadata()?);
    let whose = |of: fn(&Metadata) -> u32| {
        let first = of(found.first()?);
        let shared = found.iter().all(|source| of(source) == first);
        (shared && [of(&now), of(&around)].contains(&first)).then_some(first)
    };
    let (owner, group) = (whose(Metadata::uid), whose(Metadata::gid));
    let given = owner.is_some() && group.is_some() && fchown(file, owner, group).is_ok();
    let mode = match given && share_list(file, sources).is_ok() {
        true => found.iter().fold(0o777, |mode, source| mode & source.mode()),
        false => 0o600,
    };
    file.set_permissions(Permissions::from_mode(mode))
}

/// The access control list that all of the files have, or none where none has one.
fn share_list(file: &File, sources: &[File]) -> io::Result<()> {
    remove_attribute(file, LIST)?;
    let lists = sources.iter().map(|source| attribute(source, LIST)).collect::<io::Result<Vec<_>>>()?;
    match lists.first() {
        Some(first) if lists.iter().any(|list| list != first) => Err(io::ErrorKind::PermissionDenied.into()),
        Some(Some(list)) => set_attribute(file, LIST, list),
        _ => Ok(()),
    }
}

fn give(file: &File, model: &File, attributes: fn(&File, &File) -> io::Result<()>) -> io::Result<()> {
    let before = model.metadata()?;
    let (owner, group) = (before.uid(), before.gid());
    // Only root may give a file away, and a group may be set only by its members.
    if fchown(file, Some(owner), Some(group)).is_err() {
        let _ = fchown(file, None, Some(group));
    }
    let now = file.metadata()?;
    let (owner_kept, group_kept) = (now.uid() == owner, now.gid() == group);
    let mode = narrowed(before.mode(), owner_kept, group_kept);
    attributes(file, model)?;
    let mode = match keep_list(file, model, owner_kept && group_kept) {
        Ok(()) => mode,
        // Without the list nobody knows whom it shut out.
        Err(_) => mode & 0o700,
    };
    file.set_permissions(Permissions::from_mode(mode))
}

/// Permissions for another owner or group. Whoever counted as the old owner or a member of the old group counts among the others
/// now, and gets no more than before. Nobody gains what a program's owner may do (setuid, setgid) by new bytes, as by any write.
fn narrowed(mode: u32, owner_kept: bool, group_kept: bool) -> u32 {
    let (user, mut group, mut others) = classes(mode);
    if !owner_kept {
        (group, others) = (group & user, others & user);
    }
    if !group_kept {
        (group, others) = (0, others & group);
    }
    user << 6 | group << 3 | others
}

/// The extended attributes but the list. The user's own must be kept; those of the system (labels) are set where we may. What gives
/// a program rights (`security.capability`) is lost with its bytes, as by any write.
fn keep_attributes(file: &File, old: &File) -> io::Result<()> {
    for name in attribute_names(old)? {
        if name.as_c_str() == LIST || name.as_c_str() == c"security.capability" {
            continue;
        }
        let kept = attribute(old, &name).and_then(|value| set_attribute(file, &name, &value.unwrap_or_default()));
        if name.to_bytes().starts_with(b"user.") {
            kept?;
        }
    }
    Ok(())
}

/// The access control list, or none where the old file has none: the folder may have given the new file one of its own.
fn keep_list(file: &File, old: &File, owner_and_group_kept: bool) -> io::Result<()> {
    match attribute(old, LIST)? {
        None => remove_attribute(file, LIST),
        Some(list) if owner_and_group_kept => set_attribute(file, LIST, &list),
        // It was made for another owner or group.
        Some(_) => {
            remove_attribute(file, LIST)?;
            Err(io::ErrorKind::PermissionDenied.into())
        }
    }
}
