//! Nobody gains a right by the tool, and no stranger's disk joins an array: what an attacker or a careless keeper would try.
mod folder;
mod model;
mod signals;

use folder::{sheet, shim, Folder, TOOL};
use model::random::Random;
use signals::{heed_signals, send, FILE_TOO_LARGE, INTERRUPT, KILL, QUIT, TERMINATE};
use std::collections::BTreeMap;
use std::fs::{self, File, Permissions};
use std::io::Write;
use std::os::unix::fs::{chown, symlink, MetadataExt, PermissionsExt};
use std::os::unix::process::ExitStatusExt;
use std::path::PathBuf;
use std::process::{Command, Stdio};
use std::sync::atomic::{AtomicBool, Ordering};
use std::thread;
use std::time::{Duration, Instant};

const NOBODY: u32 = 65_534;

/// An array of version 1, without labels, in the folder `array`: each data disk has one symbol of a stripe, and the last disk their sum.
fn plain(folder: &Folder, disks: &[&[u8]]) {
    let data = disks.len() as u8 - 1;
    let rows: Vec<u64> = (0..data).map(|disk| 1 << disk).chain([(1 << data) - 1]).collect();
    let code = sheet(data + 1, 1, data, &rows);
    let hexadecimal = |bytes: &[u8]| bytes.iter().map(|byte| format!("{byte:02x}")).collect::<String>();
    let stripes = disks[0].len();
    let mut text = format!("navorzim array 1\nsymbol 1\nstripes {stripes}\nlength {}\n", stripes * data as usize);
    text += &format!("code {}\n", hexadecimal(&code[..6]));
    text.extend(code[6..].chunks(8).map(|row| format!("row {}\n", hexadecimal(row))));
    text.extend((0..disks.len()).map(|disk| format!("disk {disk} disk-{disk}\n")));
    fs::create_dir(folder.0.join("array")).expect("made");
    folder.put("array/array", text.as_bytes());
    disks.iter().enumerate().for_each(|(disk, bytes)| folder.put(&format!("array/disk-{disk}"), bytes));
}

fn set_rights(folder: &Folder, name: &str, (mode, owner, group): (u32, u32, u32)) {
    let path = folder.0.join(name);
    chown(&path, Some(owner), Some(group)).expect("given away");
    fs::set_permissions(&path, Permissions::from_mode(mode)).expect("set");
}

/// Mode, owner and group.
fn rights(folder: &Folder, name: &str) -> (u32, u32, u32) {
    let found = fs::symlink_metadata(folder.0.join(name)).expect("there");
    (found.mode() & 0o7777, found.uid(), found.gid())
}

fn is_root(folder: &Folder) -> bool {
    let root = fs::metadata(&folder.0).expect("there").uid() == 0;
    if !root {
        println!("not tried: only root can give files to others");
    }
    root
}

/// Puts a file of root in the place that has a name.
type Placing = fn(&Folder, &str);

/// Somebody's array of three disks: disk 0 is lost, a file of root stands in the place of disk 1 or 2, and the other has bytes of their
/// choice.
fn trap(root_mode: u32, disk: usize, place: Placing) -> Folder {
    let folder = Folder::new();
    let (roots, theirs) = (format!("array/disk-{disk}"), format!("array/disk-{}", 3 - disk));
    plain(&folder, &[b"....", b"mine", b"mine"]);
    folder.remove(&roots);
    folder.put("file-of-root", b"ROOT");
    set_rights(&folder, "file-of-root", (root_mode, 0, 0));
    for name in ["array", "array/array", &theirs] {
        set_rights(&folder, name, (if name == "array" { 0o755 } else { 0o644 }, NOBODY, NOBODY));
    }
    folder.remove("array/disk-0");
    place(&folder, &roots);
    folder
}

fn link(folder: &Folder, name: &str) {
    symlink("../file-of-root", folder.0.join(name)).expect("a link");
}

fn second_name(folder: &Folder, name: &str) {
    fs::hard_link(folder.0.join("file-of-root"), folder.0.join(name)).expect("a link");
}

/// How a file of root comes to stand in a disk's place, and the line that takes it for the disk.
const WAYS: [(Placing, &str); 2] = [(second_name, "restore array"), (link, "restore array --links")];

#[test]
fn a_link_in_a_disks_place_is_refused_by_name() {
    let folder = Folder::new();
    plain(&folder, &[b"....", b"ROOT", b"mine"]);
    folder.remove("array/disk-0");
    fs::rename(folder.0.join("array/disk-1"), folder.0.join("file-of-root")).expect("renamed");
    link(&folder, "array/disk-1");
    let said = "it is a link; --links takes links, for arrays whose disks lie on several media";
    let ran = folder.fails("restore array", 2);
    assert!(ran.err.contains(&format!("array/disk-1: {said}")), "{ran:?}");
    // Two of three disks can't be read.
    let ran = folder.fails("status array", 1);
    assert!(ran.out.contains(&format!("disk-1  {said}\n")), "{ran:?}");
    folder.fails("join array -o out", 1);
    folder.fails("restore array 0", 1);
    folder.done("restore array --links");
    folder.done("join array --links -o out");
    let bytes: Vec<u8> = b"ROOT".iter().zip(b"mine").map(|(one, two)| one ^ two).collect();
    assert_eq!(folder.get("array/disk-0"), bytes);
    // Nor is a link taken for the description.
    fs::rename(folder.0.join("array/array"), folder.0.join("text")).expect("renamed");
    symlink("../text", folder.0.join("array/array")).expect("a link");
    let said_now = folder.misused("join array -o other");
    assert!(said_now.contains(&format!("can't read array/array: {said}")), "{said_now}");
    folder.done("join array -o other --links");
}

#[test]
fn a_restored_disk_is_no_program_of_root() {
    for (place, line) in WAYS {
        if !is_root(&Folder::new()) {
            return;
        }
        let folder = trap(0o4755, 1, place);
        folder.done(line);
        assert_eq!(rights(&folder, "array/disk-0"), (0o600, 0, 0));
        // The same where all of it is root's: it is root's, and still no program that acts for its owner.
        let folder = trap(0o7755, 1, place);
        for name in ["array", "array/array", "array/disk-2"] {
            set_rights(&folder, name, (0o6755, 0, 0));
        }
        folder.done(line);
        assert_eq!(rights(&folder, "array/disk-0"), (0o755, 0, 0));
    }
}

#[test]
fn what_only_root_may_read_is_restored_for_root() {
    for (place, line) in WAYS {
        if !is_root(&Folder::new()) {
            return;
        }
        // The first disk that is read is theirs.
        let folder = trap(0o600, 2, place);
        folder.done(line);
        assert_eq!(rights(&folder, "array/disk-0"), (0o600, 0, 0));
    }
}

#[test]
fn a_restored_disk_goes_to_an_owner_and_group_that_all_have() {
    let folder = Folder::new();
    if !is_root(&folder) {
        return;
    }
    plain(&folder, &[b"....", b"ours", b"ours"]);
    let (one, two) = (NOBODY, 1234);
    for (around, text, disk_1, disk_2, expected) in [
        ((0o755, one, one), (0o644, one, one), (0o664, one, one), (0o646, one, one), (0o644, one, one)),
        ((0o755, one, two), (0o660, one, two), (0o664, one, two), (0o660, one, two), (0o660, one, two)),
        // The folder, the description or a disk is another's.
        ((0o755, two, one), (0o644, one, one), (0o644, one, one), (0o644, one, one), (0o600, 0, 0)),
        ((0o755, one, one), (0o644, two, one), (0o644, one, one), (0o644, one, one), (0o600, 0, 0)),
        ((0o755, one, one), (0o644, one, one), (0o644, one, one), (0o644, one, two), (0o600, 0, 0)),
        ((0o755, one, one), (0o644, one, one), (0o644, 0, 0), (0o644, one, one), (0o600, 0, 0)),
        // What belongs to whoever runs the tool isn't given away, whosever the folder is.
        ((0o755, one, one), (0o640, 0, 0), (0o644, 0, 0), (0o644, 0, 0), (0o640, 0, 0)),
    ] {
        folder.remove("array/disk-0");
        for (name, rights) in
            [("array", around), ("array/array", text), ("array/disk-1", disk_1), ("array/disk-2", disk_2)]
        {
            set_rights(&folder, name, rights);
        }
        folder.done("restore array");
        assert_eq!(rights(&folder, "array/disk-0"), expected, "{around:?} {text:?} {disk_1:?} {disk_2:?}");
    }
}

/// Runs lines of a shell in the folder.
fn shell(folder: &Folder, lines: &str) {
    let ran = Command::new("sh").args(["-ec", lines]).current_dir(&folder.0).output().expect("sh runs");
    assert!(ran.status.success(), "{lines}: {ran:?}");
}

/// What each command makes of private data, stripes and disks, with the usual mask.
#[test]
fn what_is_made_of_private_files_is_private() {
    let folder = Folder::square();
    folder.done("split code --symbol 1 data -o array");
    for mode in [0o600, 0o640, 0o644, 0o604, 0o444, 0o666] {
        for name in ["data", "stripes", "array/array", "array/disk-0", "array/disk-3"] {
            fs::set_permissions(folder.0.join(name), Permissions::from_mode(mode)).expect("set");
        }
        for (line, made) in [
            ("encode code --symbol 1 data -o out", "out"),
            ("decode code --symbol 1 stripes -o out", "out"),
            ("rebuild code 0 plan --symbol 1 stripes -o out", "out"),
            ("strip code 0 --symbol 1 stripes -o out", "out"),
            ("join array -o out", "out"),
            ("split code --symbol 1 data -o out", "out/disk-3"),
            ("split code --symbol 1 data -o out", "out/array"),
        ] {
            shell(&folder, &format!("umask 022; '{TOOL}' {line}"));
            assert_eq!(rights(&folder, made).0, 0o600 | mode & 0o044, "{line}: {mode:o}");
            shell(&folder, "rm -r out");
        }
    }
    if !is_root(&folder) {
        return;
    }
    // Another's group counts among the others, and their owner too.
    for (mode, expected) in [(0o640, 0o600), (0o644, 0o644), (0o604, 0o600), (0o244, 0o600)] {
        set_rights(&folder, "data", (mode, NOBODY, NOBODY));
        shell(&folder, &format!("umask 022; '{TOOL}' encode code --symbol 1 data -o out"));
        assert_eq!(rights(&folder, "out"), (expected, 0, 0), "{mode:o}");
        folder.remove("out");
    }
}

#[test]
fn an_arrays_files_have_the_group_of_its_folder() {
    let folder = Folder::square();
    if !is_root(&folder) {
        return;
    }
    // New in a folder that hands its group on, and in the place of an empty one that does.
    for (made, array) in [("team", "team/array"), ("array", "array")] {
        fs::create_dir(folder.0.join(made)).expect("made");
        set_rights(&folder, made, (0o2770, 0, 1234));
        folder.done(&format!("split code --symbol 1 data -o {array}"));
        for name in ["array", "disk-0", "disk-3"] {
            assert_eq!(rights(&folder, &format!("{array}/{name}")).2, 1234, "{array}/{name}");
        }
        assert_eq!(rights(&folder, array).0 & 0o2000, 0o2000);
    }
}

/// Whoever may rename a folder but not remove what is in it could have the tool remove it, under the name of an abandoned one.
#[test]
fn nobody_has_another_ones_folder_removed() {
    let folder = Folder::square();
    if !is_root(&folder) {
        return;
    }
    let (around, left) = ("theirs", "theirs/.navorzim-1-ab-0.part");
    for (owner, mode, removed) in
        [(NOBODY, 0o755, false), (0, 0o777, false), (0, 0o775, false), (0, 0o755, true), (0, 0o1777, true)]
    {
        shell(&folder, &format!("mkdir -p {left}; echo precious >{left}/keep"));
        set_rights(&folder, around, (mode, owner, owner));
        folder.done("plan code 0 -o theirs/out");
        folder.done("split code --symbol 1 data -o theirs/array");
        assert_eq!(folder.has(&format!("{left}/keep")), !removed, "{owner} {mode:o}");
        shell(&folder, "rm -r theirs");
    }
}

#[test]
fn a_new_version_acts_for_nobody() {
    let folder = Folder::square();
    for mode in [0o4755, 0o2755, 0o1644, 0o7777] {
        fs::set_permissions(folder.0.join("stripes"), Permissions::from_mode(mode)).expect("set");
        folder.done("rebuild code 0 plan --symbol 1 stripes --in-place");
        assert_eq!(rights(&folder, "stripes").0, mode & 0o777);
    }
}

#[test]
fn a_folder_that_is_exchanged_meanwhile_is_still_the_one_that_was_opened() {
    let folder = Folder::new();
    plain(&folder, &[b"sum!", b"....", b"sum!"]);
    folder.put("array/disk-1", &[0; 4]);
    fs::create_dir(folder.0.join("victim")).expect("made");
    folder.remove("array/disk-0");
    let ran = folder.run_with("restore array", "AT_FLUSH", "mv array moved && ln -s victim array");
    assert_eq!(ran.status, 0, "{ran:?}");
    assert_eq!(folder.get("moved/disk-0"), b"sum!");
    assert_eq!(fs::read_dir(folder.0.join("victim")).expect("there").count(), 0);
    assert_eq!(folder.temporaries(), 0);
    // The same with a file that is written in place.
    let folder = Folder::square();
    for name in ["here", "victim"] {
        fs::create_dir(folder.0.join(name)).expect("made");
    }
    fs::rename(folder.0.join("stripes"), folder.0.join("here/stripes")).expect("renamed");
    let line = "rebuild code 0 plan --symbol 1 here/stripes --in-place";
    let ran = folder.run_with(line, "AT_FLUSH", "mv here moved && ln -s victim here");
    // By its name it isn't there any more, so that it is left.
    assert!(ran.status == 2 && ran.err.contains("somebody else wrote or replaced it meanwhile"), "{ran:?}");
    assert_eq!(fs::read_dir(folder.0.join("victim")).expect("there").count(), 0);
    assert_eq!(folder.temporaries(), 0);
}

#[test]
fn new_files_and_folders_are_made_where_they_were_asked_for() {
    for line in [
        "encode code --symbol 1 data -o here/out",
        "join array -o here/out",
        "split code --symbol 1 data -o here/out",
        // An empty folder is replaced, and not another one that is there by then.
        "split code --symbol 1 data -o here/empty",
    ] {
        let folder = Folder::square();
        folder.done("split code --symbol 1 data -o array");
        shell(&folder, "mkdir -p here/empty victim/empty");
        let ran = folder.run_with(line, "AT_FLUSH", "[ -h here ] || { mv here moved && ln -s victim here; }");
        assert_eq!(ran.status, 0, "{line}: {ran:?}");
        assert!(folder.has("moved/out") || folder.has("moved/empty/array"), "{line}");
        assert!(!folder.has("victim/out") && !folder.has("victim/empty/array"), "{line}");
        assert_eq!(folder.temporaries(), 0);
    }
    // The empty folder itself is exchanged.
    let folder = Folder::square();
    shell(&folder, "mkdir empty victim");
    let exchange = "[ -d moved ] || { mv empty moved && mv victim empty; }";
    let ran = folder.run_with("split code --symbol 1 data -o empty", "AT_FLUSH", exchange);
    assert!(ran.status == 2 && ran.err.contains("can't use empty: somebody else replaced it meanwhile"), "{ran:?}");
    assert_eq!((folder.has("empty/array"), folder.temporaries()), (false, 0));
}

/// Somebody exchanges the folder for a link to another one, over and over, while root restores a disk.
#[test]
fn nothing_is_written_to_a_folder_that_a_link_leads_to_meanwhile() {
    let folder = Folder::new();
    plain(&folder, &[b"sum!", b"....", b"sum!"]);
    folder.put("array/disk-1", &[0; 4]);
    folder.remove("array/disk-0");
    fs::create_dir(folder.0.join("victim")).expect("made");
    symlink("victim", folder.0.join("link")).expect("a link");
    let (stop, path) = (AtomicBool::new(false), |name: &str| folder.0.join(name));
    let restored = thread::scope(|scope| {
        scope.spawn(|| {
            while !stop.load(Ordering::Relaxed) {
                for (from, to) in [("array", "away"), ("link", "array"), ("array", "link"), ("away", "array")] {
                    fs::rename(path(from), path(to)).expect("renamed");
                }
            }
        });
        let run = |_| {
            let ran = folder.run("restore array");
            assert_eq!(fs::read_dir(path("victim")).expect("there").count(), 0, "{ran:?}");
            // The array is under one of its names.
            while ran.status == 0 && fs::remove_file(path("away/disk-0")).is_err() {
                if fs::symlink_metadata(path("array")).is_ok_and(|found| found.is_dir()) {
                    let _ = fs::remove_file(path("array/disk-0"));
                    break;
                }
            }
            usize::from(ran.status == 0)
        };
        let restored = (0..400).map(run).sum::<usize>();
        stop.store(true, Ordering::Relaxed);
        restored
    });
    println!("{restored} of 400 runs found the array");
}

/// A folder with a register as it was in the morning and at noon, each as an array by Liberation, w 5, k 5.
fn morning_and_noon() -> Folder {
    let folder = Folder::new();
    folder.put("code", &model::family("liberation", 5, 5).expect("listed"));
    for (name, byte) in [("morning", b'm'), ("noon", b'n')] {
        folder.put(&format!("{name}.txt"), &[byte; 3000]);
        folder.done(&format!("split code --symbol 64 {name}.txt -o {name}"));
    }
    folder
}

/// A disk that isn't the array's stands in a disk's place: it is named for what it is, not read, and not replaced.
fn is_a_stranger(folder: &Folder, disk: usize, said: &str) {
    folder.remove("noon/disk-0");
    let ran = folder.fails("status noon", 1);
    assert!(ran.out.contains(&format!("  disk-{disk}  {said}\n")), "{ran:?}");
    let ran = folder.fails("restore noon", 2);
    let expected = format!("can't write noon/disk-{disk}: {said}; move it away to have it restored\n");
    assert!(ran.err.ends_with(&expected), "{ran:?}");
    let ran = folder.run("join noon -o joined");
    assert!(ran.status == 0 && ran.out.contains(&format!("  disk-{disk} isn't read: {said}\n")), "{ran:?}");
    assert_eq!(folder.get("joined"), folder.get("noon.txt"));
    // Asked for by name, a disk is restored without the stranger.
    let said_now = folder.done("restore noon 0");
    assert!(!said_now.contains(&format!("disk {disk}")), "{said_now}");
    folder.remove(&format!("noon/disk-{disk}"));
    folder.done("restore noon");
}

#[test]
fn no_strangers_disk_joins() {
    let folder = morning_and_noon();
    let copy = |from: &str, to: &str| folder.put(to, &folder.get(from));
    let whole: Vec<Vec<u8>> = (0..7).map(|disk| folder.get(&format!("noon/disk-{disk}"))).collect();
    copy("morning/disk-5", "noon/disk-5");
    is_a_stranger(&folder, 5, "this is disk 5 of another array");
    copy("morning/disk-1", "noon/disk-4");
    is_a_stranger(&folder, 4, "this is disk 1 of another array");
    copy("noon/disk-4", "noon/disk-3");
    is_a_stranger(&folder, 3, "this is disk 4 of this array, under the name disk-3");
    // Without a label, and with no more than a label.
    let label = whole[2][640..].to_vec();
    folder.put("noon/disk-2", &[&whole[2][..640], &vec![0; label.len()]].concat());
    is_a_stranger(&folder, 2, "it has no label, or a damaged one: whose it is isn't known");
    folder.put("noon/disk-2", &label);
    is_a_stranger(&folder, 2, &format!("it has {} bytes, not {}", label.len(), whole[2].len()));
    // An array of another shape has labels of another length.
    folder.done("split code --symbol 65536 morning.txt -o other");
    copy("other/disk-6", "noon/disk-6");
    is_a_stranger(&folder, 6, "this is disk 6 of another array");
    let now: Vec<Vec<u8>> = (0..7).map(|disk| folder.get(&format!("noon/disk-{disk}"))).collect();
    assert!(now == whole, "the disks are as they were, with their labels");
    // Two disks with exchanged names.
    folder.put("noon/disk-1", &whole[2]);
    folder.put("noon/disk-2", &whole[1]);
    let ran = folder.fails("status noon", 1);
    assert!(ran.out.contains("disk-1  this is disk 2 of this array, under the name disk-1\n"), "{ran:?}");
    assert!(ran.out.contains("disk-2  this is disk 1 of this array, under the name disk-2\n"), "{ran:?}");
    folder.done("join noon -o joined");
    assert_eq!(folder.get("joined"), folder.get("noon.txt"));
}

#[test]
fn arrays_without_labels_are_still_read() {
    let folder = Folder::new();
    plain(&folder, &[b"sum!", &[0; 4], b"sum!"]);
    let said = "  version 1, without labels: a disk of another array can't be noticed\n";
    assert!(folder.done("status array").contains(said));
    assert!(folder.done("join array -o out").contains(said));
    folder.remove("array/disk-0");
    assert!(folder.done("restore array").contains(said));
    assert_eq!(folder.get("array/disk-0"), b"sum!");
    let folder = morning_and_noon();
    assert!(!folder.done("status noon").contains("version 1"));
}

/// A description of version 1 is put beside disks with labels, so that nobody compares those; their bytes would be taken for strips.
#[test]
fn a_description_without_an_identity_is_not_believed_beside_labels() {
    let folder = Folder::new();
    folder.put("code", &sheet(3, 1, 2, &[1, 2, 3]));
    folder.put("data", b"abcdefgh");
    folder.done("split code --symbol 1 data -o array");
    let length = folder.get("array/disk-0").len();
    let text = String::from_utf8(folder.get("array/array")).expect("text");
    let kept = text.lines().filter(|line| ["code", "row", "disk"].contains(&line.split(' ').next().unwrap_or("")));
    let kept: String = kept.map(|line| format!("{line}\n")).collect();
    let older = format!("navorzim array 1\nsymbol 1\nstripes {length}\nlength {}\n{kept}", 2 * length);
    folder.put("array/array", older.as_bytes());
    folder.remove("array/disk-0");
    let said = |disk: usize| {
        format!("this is disk {disk} of an array with labels, and `array` is of version 1, which has none\n")
    };
    for (line, status) in [("status array", 1), ("join array -o out", 1), ("restore array 0", 1)] {
        let ran = folder.fails(line, status);
        assert!([1, 2].iter().all(|&disk| ran.out.contains(&said(disk))), "{line}: {ran:?}");
    }
    folder.misused("restore array");
    // A disk with a label among those without is one of another array, and the array does without it.
    fs::rename(folder.0.join("array"), folder.0.join("labelled")).expect("renamed");
    plain(&folder, &[&vec![1; length], &vec![2; length], &vec![3; length]]);
    folder.put("array/disk-1", &folder.get("labelled/disk-1"));
    let said_now = folder.done("join array -o out");
    assert!(said_now.contains(&format!("disk-1 isn't read: {}", said(1))), "{said_now}");
    assert_eq!(folder.get("out"), [1, 2].repeat(length));
}

#[test]
fn whatever_is_cut_off_is_noticed() {
    let folder = Folder::square();
    folder.put("data", &[7; 9]);
    folder.done("split code --symbol 2 data -o array");
    let (text, disk) = (folder.get("array/array"), folder.get("array/disk-1"));
    for length in 0..text.len() {
        folder.put("array/array", &text[..length]);
        let ran = folder.run("join array -o out");
        let named = ran.err.contains("can't use array/array: line ");
        assert!(ran.status == 2 && named && !folder.has("out"), "{length}: {ran:?}");
    }
    folder.put("array/array", &text);
    for length in 0..disk.len() {
        folder.put("array/disk-1", &disk[..length]);
        let ran = folder.run("status array");
        let said = format!("disk-1  it has {length} bytes, not {}\n", disk.len());
        assert!(ran.status == 1 && ran.out.contains(&said), "{length}: {ran:?}");
        // Nor is it taken for a label where the description is lost.
        if length % 16 == 0 {
            fs::rename(folder.0.join("array/array"), folder.0.join("away")).expect("renamed");
            let ran = folder.run("status array");
            assert!(ran.status == 1 && ran.out.contains(&said), "{length}: {ran:?}");
            fs::rename(folder.0.join("away"), folder.0.join("array/array")).expect("renamed");
        }
    }
}

#[test]
fn every_flipped_bit_of_a_description_is_refused_with_its_line() {
    let folder = Folder::square();
    folder.put("data", &[7; 9]);
    folder.done("split code --symbol 2 data -o array");
    let text = folder.get("array/array");
    for place in 0..8 * text.len() {
        let mut flipped = text.clone();
        flipped[place / 8] ^= 1 << (place % 8);
        folder.put("array/array", &flipped);
        let ran = folder.run("status array");
        let named = ran.err.contains("can't use array/array: line ") || ran.err.contains(": line ");
        assert!((ran.status == 1 || ran.status == 2) && ran.out.is_empty() && named, "bit {place}: {ran:?}");
    }
    // Exchanged, doubled and left out lines are refused too.
    let lines: Vec<&[u8]> = text.split_inclusive(|&byte| byte == b'\n').collect();
    for at in 0..lines.len() {
        let (before, rest) = lines.split_at(at);
        let next = rest.get(1).copied().unwrap_or_default();
        for middle in [vec![next, rest[0]], vec![rest[0], rest[0], next], vec![next]] {
            let changed = [before, &middle, rest.get(2..).unwrap_or_default()].concat().concat();
            folder.put("array/array", &changed);
            let same = changed == text;
            assert_eq!(folder.run("join array -o out").status == 0, same, "{}", String::from_utf8_lossy(&changed));
        }
    }
}

#[test]
fn every_flipped_bit_of_a_label_is_refused() {
    let folder = Folder::square();
    folder.put("data", &[7; 9]);
    folder.done("split code --symbol 2 data -o array");
    let disk = folder.get("array/disk-1");
    assert!(disk.len() > 8, "there is a label behind the strips");
    for place in 8 * 8..8 * disk.len() {
        let mut flipped = disk.clone();
        flipped[place / 8] ^= 1 << (place % 8);
        folder.put("array/disk-1", &flipped);
        let ran = folder.run("status array");
        let said = "disk-1  it has no label, or a damaged one: whose it is isn't known\n";
        assert!(ran.status == 1 && ran.out.contains(said), "bit {place}: {ran:?}");
    }
}

#[test]
fn a_lost_description_is_taken_from_the_labels() {
    let folder = morning_and_noon();
    let text = folder.get("noon/array");
    folder.remove("noon/array");
    folder.remove("noon/disk-3");
    let ran = folder.run("status noon");
    assert!(ran.out.contains("  array: missing; the labels have it, and restore writes it anew\n"), "{ran:?}");
    folder.done("join noon -o joined");
    assert_eq!(folder.get("joined"), folder.get("noon.txt"));
    let said = folder.done("restore noon --dry-run");
    assert!(said.ends_with("would write noon/array anew, from the labels\n") && !folder.has("noon/array"), "{said}");
    let said = folder.done("restore noon");
    assert!(said.ends_with("wrote noon/array anew, from the labels\n"), "{said}");
    assert_eq!(folder.get("noon/array"), text);
    folder.done("status noon");
    // With all disks there, it alone is written.
    folder.remove("noon/array");
    let said = folder.done("restore noon");
    assert_eq!(said, "nothing to restore: all 7 disks are there\nwrote noon/array anew, from the labels\n");
    assert_eq!(folder.get("noon/array"), text);
    // Where labels disagree, nobody knows whose folder it is.
    folder.remove("noon/array");
    folder.put("noon/disk-5", &folder.get("morning/disk-5"));
    for line in ["status noon", "restore noon", "join noon -o other"] {
        let said = folder.misused(line);
        let expected = "can't read noon/array: it isn't there, and the labels of disk-0 and disk-5 describe two arrays";
        assert!(said.contains(expected), "{line}: {said}");
    }
    fs::create_dir(folder.0.join("empty")).expect("made");
    assert!(folder.misused("status empty").contains("can't read empty/array: No such file"));
}

#[test]
fn a_description_that_disagrees_with_the_labels_is_named() {
    let folder = morning_and_noon();
    let text = String::from_utf8(folder.get("noon/array")).expect("text");
    let lines: Vec<&str> = text.lines().collect();
    let last = lines.len() - 2;
    for (line, new) in
        [(2, "made long ago".to_string()), (6, "length 2999".to_string()), (last, "disk 6 q".to_string())]
    {
        let mut changed = lines.clone();
        changed[line] = &new;
        let before: String = changed[..=last].iter().map(|line| format!("{line}\n")).collect();
        let changed = format!("{before}check {:08x}\n", model::crc32(before.as_bytes()));
        folder.put("noon/array", changed.as_bytes());
        for command in ["status noon", "restore noon", "join noon -o other"] {
            let said = folder.misused(command);
            let what = format!("line {} is '{new}' in `array`, and '{}' in the label", line + 1, lines[line]);
            let expected = format!("can't use noon/disk-0: its label and `array` disagree: {what}");
            assert!(said.contains(&expected), "{said}");
        }
    }
}

/// At each moment at which a file is brought to the disk the tool is killed, as far as it has come.
#[test]
fn a_split_that_is_killed_leaves_nothing_under_its_name() {
    let folder = Folder::square();
    for made in [false, true] {
        for moment in 1..=5 {
            let command = format!("echo x >>count; [ $(wc -l <count) -lt {moment} ] || kill -KILL $PPID");
            let _ = fs::remove_file(folder.0.join("count"));
            if made {
                let _ = fs::create_dir(folder.0.join("array"));
            }
            let mut tool = Command::new(TOOL);
            let tool = tool.args("split code --symbol 1 data -o array".split(' ')).current_dir(&folder.0);
            let ended = tool.env("LD_PRELOAD", shim()).env("AT_FLUSH", command).output().expect("it runs").status;
            assert_eq!(ended.signal(), Some(KILL), "moment {moment}");
            let under_its_name = fs::read_dir(folder.0.join("array")).map(|entries| entries.count());
            assert_eq!(under_its_name.ok(), made.then_some(0), "moment {moment}");
            // What is left is one temporary folder, and goes with the next run.
            let left = fs::read_dir(&folder.0).expect("there").flatten().map(|entry| entry.file_name());
            let left = left.filter(|name| name.to_string_lossy().starts_with(".navorzim-")).count();
            assert_eq!(left, 1, "moment {moment}");
        }
        folder.done("split code --symbol 1 data -o array");
        assert_eq!(folder.temporaries(), 0);
        folder.done("join array -o joined");
        assert_eq!(folder.get("joined"), folder.get("data"));
        fs::remove_dir_all(folder.0.join("array")).expect("removed");
    }
}

#[test]
fn an_array_has_the_rights_of_the_empty_folder_that_it_replaces() {
    let folder = Folder::square();
    let mode = |name: &str| fs::metadata(folder.0.join(name)).expect("there").mode() & 0o7777;
    for rights in [0o700, 0o750, 0o2775] {
        fs::create_dir(folder.0.join("array")).expect("made");
        fs::set_permissions(folder.0.join("array"), Permissions::from_mode(rights)).expect("set");
        symlink("array", folder.0.join("link")).expect("a link");
        folder.done("split code --symbol 1 data -o link/");
        assert_eq!(mode("array"), rights);
        fs::remove_dir_all(folder.0.join("array")).expect("removed");
        folder.remove("link");
    }
    // Else those that any program gives a folder.
    fs::create_dir(folder.0.join("other")).expect("made");
    folder.done("split code --symbol 1 data -o array");
    assert_eq!(mode("array"), mode("other"));
    // Where there is no name that could change its meaning.
    let mut tool = Command::new(TOOL);
    let ran = tool.args("split ../code --symbol 1 ../data -o .".split(' ')).current_dir(folder.0.join("other"));
    let ran = String::from_utf8(ran.output().expect("it runs").stderr).expect("text");
    assert!(ran.contains("can't use .: the folder one is in isn't replaced: name a new one in it"), "{ran}");
}

#[test]
fn a_disk_that_is_half_dead_is_done_without() {
    let folder = Folder::new();
    folder.put("code", &model::family("liberation", 5, 5).expect("listed"));
    let data = Random::new(8).bytes(25 * 512 * 100);
    folder.put("data", &data);
    folder.done("split code --symbol 512 data -o array");
    let half_dead = |line: &str| folder.run_with(line, "READ_FAILS", "array/disk-1");
    let ran = half_dead("status array");
    assert!(ran.status == 0 && ran.out.ends_with("all 7 disks are there\n"), "{ran:?}");
    let ran = half_dead("status array --read");
    let said = "disk-1  can't be read at byte 99840: Input/output error (os error 5); --without 1 does without it\n";
    assert!(ran.status == 3 && ran.out.contains(said), "{ran:?}");
    assert!(ran.out.contains("\ndisk 1 can be rebuilt: reads "), "{ran:?}");
    assert!(folder.done("status array --read").ends_with("all 7 disks are there, and every byte can be read\n"));
    // Joined and restored without it, though it is there.
    let ran = half_dead("join array -o joined");
    let said = "navorzim: can't read array/disk-1: Input/output error (os error 5), in the ";
    assert!(ran.status == 2 && ran.err.starts_with(said), "{ran:?}");
    assert!(ran.err.ends_with("; --without 1 does without it\n") && !folder.has("joined"), "{ran:?}");
    let ran = half_dead("join array --without 1 -o joined");
    assert!(ran.status == 0 && folder.get("joined") == data, "{ran:?}");
    let (disk_0, disk_1) = (folder.get("array/disk-0"), folder.get("array/disk-1"));
    folder.remove("array/disk-0");
    let ran = half_dead("restore array");
    assert!(ran.status == 2 && ran.err.ends_with("; --without 1 does without it\n"), "{ran:?}");
    let ran = half_dead("status array --without 1");
    assert!(ran.status == 3 && ran.out.contains("disk-1  there, and done without\n"), "{ran:?}");
    assert!(ran.out.contains("\ndisks 0 and 1 can be rebuilt: reads "), "{ran:?}");
    let ran = half_dead("restore array --without 1");
    assert!(ran.status == 0 && ran.out.starts_with("restored disk 0: array/disk-0\n"), "{ran:?}");
    assert!(folder.get("array/disk-0") == disk_0 && folder.get("array/disk-1") == disk_1);
    let said = folder.misused("restore array 1 --without 1");
    assert!(said.contains("can't write array/disk-1: it is there; move it away"), "{said}");
    // Two parities bear no third, and no array has an eighth disk.
    folder.remove("array/disk-0");
    folder.fails("join array --without 1,2 -o other", 1);
    assert!(folder.refused("status array --without 7", 7, 0).contains("it has 0 to 6"));
}

#[test]
fn a_label_that_cannot_be_read_names_the_way_out() {
    let folder = Folder::new();
    folder.put("code", &model::family("liberation", 5, 5).expect("listed"));
    // 39 strips of 2,560 bytes, and then the label, with the byte 100,000.
    let data = Random::new(8).bytes(25 * 512 * 39);
    folder.put("data", &data);
    folder.done("split code --symbol 512 data -o array");
    let half_dead = |line: &str| folder.run_with(line, "READ_FAILS", "array/disk-1");
    let said = "disk-1  its end can't be read: Input/output error (os error 5); --without 1 does without it\n";
    let ran = half_dead("status array");
    assert!(ran.status == 1 && ran.out.contains(said), "{ran:?}");
    let ran = half_dead("restore array");
    assert!(ran.status == 2 && ran.err.contains("; --without 1 does without it; move it away"), "{ran:?}");
    let ran = half_dead("restore array --without 1");
    let expected = "nothing to restore: all 7 disks are there\n  disk-1: move it away to have it restored\n";
    assert!(ran.status == 0 && ran.out == expected, "{ran:?}");
    let ran = half_dead("join array --without 1 -o joined");
    assert!(ran.status == 0 && folder.get("joined") == data, "{ran:?}");
}

#[test]
fn a_monitor_goes_by_the_status() {
    let folder = morning_and_noon();
    folder.fails("status noon", 0);
    folder.remove("noon/disk-1");
    let ran = folder.fails("status noon", 3);
    assert_eq!(ran.err, "");
    folder.remove("noon/disk-2");
    folder.fails("status noon", 3);
    folder.remove("noon/disk-3");
    folder.fails("status noon", 1);
    // The description alone is missing, and can be written anew.
    folder.remove("morning/array");
    folder.fails("status morning", 3);
    folder.fails("status nowhere", 2);
}

#[test]
fn who_has_locked_a_file_is_named_and_can_be_waited_for() {
    let folder = morning_and_noon();
    folder.remove("noon/disk-0");
    let disk_5 = || File::open(folder.0.join("noon/disk-5")).expect("opened");
    let holder = disk_5();
    holder.lock().expect("locked");
    let said = folder.misused("restore noon");
    assert!(said.contains("can't read noon/disk-5: another program has locked it"), "{said}");
    assert!(said.ends_with("; --wait SECONDS waits for that\n"), "{said}");
    let own = format!(": process {} (", std::process::id());
    match fs::read_to_string("/proc/locks").is_ok_and(|locks| !locks.is_empty()) {
        true => assert!(said.contains(&own), "{said}"),
        false => println!("not tried: the system doesn't say who holds locks"),
    }
    let said = folder.misused("restore noon --wait 1");
    assert!(said.ends_with(", and didn't let go of it in 1 s\n"), "{said}");
    assert!(folder.misused("restore noon --wait soon").contains("--wait must be a decimal number"));
    // Whoever lets go in time is waited for, also where another file has the name by then.
    thread::scope(|scope| {
        scope.spawn(|| {
            thread::sleep(Duration::from_millis(300));
            let bytes = folder.get("noon/disk-5");
            folder.put("other", &bytes);
            fs::rename(folder.0.join("other"), folder.0.join("noon/disk-5")).expect("renamed");
            drop(holder);
        });
        folder.done("restore noon --wait 60");
    });
    folder.done("join noon -o joined");
    assert_eq!(folder.get("joined"), folder.get("noon.txt"));
}

#[test]
fn a_quota_and_a_quitting_user_leave_no_temporary_file() {
    heed_signals();
    let folder = Folder::square();
    folder.put("data", &vec![7; 1 << 20]);
    let start = |limit: &str, source: &str| {
        let line = format!("ulimit -c 0; {limit}; exec '{TOOL}' encode code --symbol 64 {source} -o out");
        let mut shell = Command::new("sh");
        let shell = shell.args(["-c", &line]).current_dir(&folder.0).stdin(Stdio::piped());
        shell.stdout(Stdio::null()).stderr(Stdio::null()).spawn().expect("it runs")
    };
    let ended = start("ulimit -f 100", "data").wait().expect("it ends");
    assert_eq!((ended.signal(), folder.temporaries(), folder.has("out")), (Some(FILE_TOO_LARGE), 0, false));
    let mut child = start("true", "-");
    let mut input = child.stdin.take().expect("a pipe");
    input.write_all(&folder.get("data")).expect("taken");
    while folder.temporaries() == 0 {
        thread::sleep(Duration::from_millis(5));
    }
    send(QUIT, &child);
    let ended = child.wait().expect("it ends");
    assert_eq!((ended.signal(), folder.temporaries(), folder.has("out")), (Some(QUIT), 0, false));
}

/// What a run that is ended leaves, for each of the commands that write: what was there, or what must be there.
struct Ended {
    line: &'static str,
    /// the names that are written
    written: &'static [&'static str],
    prepare: fn(&Folder),
    /// whether all that there is under the names that are written is as it was, or as it must be
    is_whole: fn(&Folder) -> bool,
}

fn old_or(folder: &Folder, name: &str, old: &str, new: &str) -> bool {
    [old, new].iter().any(|whole| folder.get(name) == folder.get(whole))
}

const ENDED: [Ended; 5] = [
    Ended {
        line: "split code --symbol 512 data -o made",
        written: &["made"],
        prepare: |folder| drop(fs::remove_dir_all(folder.0.join("made"))),
        is_whole: |folder| !folder.has("made") || folder.run("status made").status == 0,
    },
    Ended {
        line: "restore array",
        written: &["array/disk-0", "array/disk-3"],
        prepare: |folder| {
            [0, 3].iter().for_each(|disk| drop(fs::remove_file(folder.0.join(format!("array/disk-{disk}")))))
        },
        is_whole: |folder| {
            let whole = |name: &str| {
                !folder.has(&format!("array/{name}")) || old_or(folder, &format!("array/{name}"), name, name)
            };
            whole("disk-0") && whole("disk-3")
        },
    },
    Ended {
        line: "join whole -o out",
        written: &["out"],
        prepare: |folder| folder.put("out", &folder.get("old")),
        is_whole: |folder| old_or(folder, "out", "old", "data"),
    },
    Ended {
        line: "rebuild code 0,3 plan --symbol 512 out --in-place",
        written: &["out"],
        prepare: |folder| folder.put("out", &folder.get("ruined")),
        is_whole: |folder| old_or(folder, "out", "ruined", "stripes"),
    },
    Ended {
        line: "encode code --symbol 512 data -o out",
        written: &["out"],
        prepare: |folder| folder.put("out", &folder.get("old")),
        is_whole: |folder| old_or(folder, "out", "old", "stripes"),
    },
];

/// Everything that the commands in `ENDED` need.
fn workshop() -> Folder {
    let folder = Folder::new();
    folder.put("code", &model::family("liberation", 5, 5).expect("listed"));
    folder.put("data", &Random::new(9).bytes(25 * 512 * 160));
    folder.put("old", b"as it was");
    folder.done("split code --symbol 512 data -o array");
    folder.done("split code --symbol 512 data -o whole");
    ["disk-0", "disk-3"].iter().for_each(|name| folder.put(name, &folder.get(&format!("array/{name}"))));
    folder.done("encode code --symbol 512 data -o stripes");
    folder.done("plan code 0,3 -o plan");
    let mut ruined = folder.get("stripes");
    for stripe in ruined.chunks_mut(35 * 512) {
        stripe[..5 * 512].fill(b'#');
        stripe[15 * 512..20 * 512].fill(b'#');
    }
    folder.put("ruined", &ruined);
    folder
}

/// Everything in the folder but some names, and temporary files.
fn all_but(folder: &Folder, names: &[&str]) -> BTreeMap<PathBuf, Vec<u8>> {
    let mut all = folder.contents();
    all.retain(|path, _| {
        let temporary = path.to_string_lossy().contains("/.navorzim-");
        !temporary && !names.iter().any(|name| path.starts_with(folder.0.join(name)))
    });
    all
}

/// Removes what killed runs have left, which is nothing else: the names are those of temporary files.
fn remove_temporaries(folder: &Folder) {
    for path in folder.contents().into_keys().filter(|path| path.extension().is_some_and(|end| end == "part")) {
        let _ = fs::remove_file(&path).or_else(|_| fs::remove_dir_all(&path));
    }
}

#[test]
fn three_hundred_runs_that_are_ended_leave_no_half_file() {
    heed_signals();
    let (folder, mut random) = (workshop(), Random::new(300));
    for Ended { line, written, prepare, is_whole } in ENDED {
        let start = || {
            let mut tool = Command::new(TOOL);
            let tool = tool.args(line.split(' ')).current_dir(&folder.0).stdout(Stdio::null()).stderr(Stdio::null());
            tool.spawn().expect("it runs")
        };
        prepare(&folder);
        let began = Instant::now();
        assert!(start().wait().expect("it ends").success(), "{line}");
        let (mut usual, mut runs, mut ended) = (began.elapsed(), 0, 0);
        // Those that were done before their signal came are judged too, but not counted.
        while ended < 60 {
            runs += 1;
            assert!(runs <= 600, "{line}: {ended} of {runs} ended in time");
            prepare(&folder);
            let (before, signal) = (all_but(&folder, written), [KILL, TERMINATE, INTERRUPT][ended % 3]);
            let mut child = start();
            thread::sleep(usual.mul_f64(random.below(1100) as f64 / 1000.0));
            send(signal, &child);
            let status = child.wait().expect("it ends");
            assert!(status.success() || status.signal() == Some(signal), "{line}: {status}");
            ended += usize::from(!status.success());
            // A machine that has more or less to do than before is followed.
            usual = usual.mul_f64(if status.success() { 0.93 } else { 1.03 });
            assert!(is_whole(&folder), "{line}, signal {signal}: a half file");
            assert!(all_but(&folder, written) == before, "{line}, signal {signal}: something was lost or left");
            match signal {
                KILL => remove_temporaries(&folder),
                _ => assert_eq!(folder.temporaries(), 0, "{line}, signal {signal}: a temporary file"),
            }
        }
        println!("{line}: {ended} of {runs} ended in time");
        prepare(&folder);
        folder.done(line);
        assert_eq!(folder.temporaries(), 0, "{line}");
    }
    assert!(folder.run("status whole").status == 0 && folder.get("old") == b"as it was");
}

#[test]
fn where_a_dash_would_do_it_is_said() {
    let folder = Folder::square();
    let made = Command::new("mkfifo").arg(folder.0.join("pipe")).status().expect("mkfifo runs");
    assert!(made.success());
    let read = "; a dash, -, reads from standard input, which < leads from there\n";
    let written = "; a dash, -, writes to standard output, which > leads there\n";
    for (line, said) in [
        ("check pipe 0 plan", read),
        ("check code 0 /dev/null", read),
        ("encode code --symbol 1 pipe -o new", read),
        ("split code --symbol 1 pipe -o new", read),
        ("plan code 0 -o pipe", written),
        ("show code --svg /dev/null", written),
        // The test reads the tool's answers through a pipe.
        ("plan code 0 -o /dev/stdout", "it is this run's standard output; a dash, -, writes there\n"),
        // Nothing else would do.
        ("rebuild code 0 plan --symbol 1 pipe --in-place", "it is a pipe, not a regular file\n"),
        ("plan code 0 -o /dev/stderr", "it is this run's standard error\n"),
        ("check . 0 plan", "it is a folder\n"),
    ] {
        let ran = folder.run(line);
        assert!(ran.status == 2 && ran.err.ends_with(said), "{line}: {ran:?}");
    }
}

#[test]
fn a_speed_of_nothing_is_not_told() {
    let folder = Folder::new();
    folder.put("code", &sheet(2, 1, 1, &[1, 0]));
    folder.put("data", b"");
    folder.done("split code --symbol 1 data -o array");
    folder.remove("array/disk-1");
    let said = folder.done("restore array");
    assert!(said.ends_with(" s\n") && !said.contains("MB/s"), "{said}");
}
