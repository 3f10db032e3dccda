//! Which disks are lost.
use crate::lists::{self, as_bytes, decimal, listed, rising};

/// Lost disks, rising, each once. They may be disks that no array has: that is the library's to say.
#[derive(Clone, Debug, PartialEq, Eq)]
pub struct Disks(Vec<u64>);

impl Disks {
    /// No disk, for calls that aren't about any.
    pub const NONE: Disks = Disks(Vec::new());

    /// Reads a disk like `3`, or several like `0,3` or `0-2`, in any order.
    pub fn read(text: &str) -> Option<Disks> {
        let mut disks = Vec::new();
        for item in text.split(',') {
            let range = lists::range(item, decimal)?;
            if lists::fault(&range).is_some() {
                return None;
            }
            disks.extend(range);
        }
        Some(Disks::of(disks))
    }

    pub fn of(disks: impl IntoIterator<Item = u64>) -> Disks {
        Disks(rising(disks.into_iter()))
    }

    /// The disk, if it is one.
    pub fn one(&self) -> Option<u64> {
        match self.0[..] {
            [disk] => Some(disk),
            _ => None,
        }
    }

    pub fn has(&self, disk: usize) -> bool {
        self.0.contains(&(disk as u64))
    }

    pub fn count(&self) -> usize {
        self.0.len()
    }

    pub fn iter(&self) -> impl Iterator<Item = u64> + '_ {
        self.0.iter().copied()
    }

    /// The list as the library takes it.
    pub fn as_bytes(&self) -> Vec<u8> {
        as_bytes(&self.0)
    }

    /// `disk 3`, or `disks 0, 2 and 3`.
    pub fn words(&self) -> String {
        let numbers: Vec<String> = self.iter().map(|disk| disk.to_string()).collect();
        format!("disk{} {}", if self.count() == 1 { "" } else { "s" }, listed(&numbers))
    }

    /// That they are lost, at the beginning of a sentence.
    pub fn are_lost(&self) -> String {
        match self.one() {
            Some(disk) => format!("Disk {disk} is lost"),
            None => format!("D{} are lost", &self.words()[1..]),
        }
    }
}
