//! What the tool does to files that it was not asked to change, that others write meanwhile, or that others may not see.
mod folder;
mod model;
mod signals;

use folder::{Folder, Ran, P1, TOOL};
use model::random::Random;
use signals::{heed_signals, send, CONTINUE, HANG_UP, INTERRUPT, STOP, TERMINATE};
use std::fs::{self, File, Metadata, Permissions};
use std::os::unix::fs::{chown, symlink, MetadataExt, PermissionsExt};
use std::os::unix::process::{CommandExt, ExitStatusExt};
use std::process::{Child, Command, ExitStatus, Stdio};
use std::sync::atomic::{AtomicBool, Ordering};
use std::thread;
use std::time::{Duration, Instant};

/// The stripe P1 with its first disk ruined, so many times.
fn ruined(count: usize) -> Vec<u8> {
    [&[0xFF, 0xFF], &P1[2..]].concat().repeat(count)
}

#[test]
fn stripes_are_replaced_only_where_that_is_asked() {
    let folder = Folder::square();
    folder.put("stripes", &ruined(4));
    let said = folder.misused("rebuild code 0 plan --symbol 1 stripes");
    assert!(said.contains("-o OUT is missing, or --in-place, which replaces STRIPES"), "{said}");
    let said = folder.misused("rebuild code 0 plan --symbol 1 stripes -o out --in-place");
    assert!(said.contains("exclude each other"), "{said}");
    let said = folder.misused("rebuild code 0 plan --symbol 1 stripes --in-place=yes");
    assert!(said.contains("--in-place takes no value"), "{said}");
    let said = folder.misused("rebuild code 0 plan --symbol 1 stripes -o stripes");
    assert!(said.contains("it is also read"), "{said}");
    // Half the symbol length divides the file too, and the stripes that were read are still there.
    let said = folder.done("rebuild code 0 plan --symbol 2 stripes -o out");
    assert_eq!(
        said,
        "rebuilt disk 0 in 2 stripes: out\n  by symbols of 2 bytes (L), code code (4 disks of 2 rows, 4 data symbols)\n"
    );
    assert_eq!(folder.get("stripes"), ruined(4));
    let said = folder.done("rebuild code 0 plan --symbol 1 stripes --in-place");
    assert!(
        said.starts_with("rebuilt disk 0 in 4 stripes: stripes\n  by symbols of 1 byte (L), code code ("),
        "{said}"
    );
    assert_eq!(folder.get("stripes"), P1.repeat(4));
}

#[test]
fn what_others_write_meanwhile_stays() {
    let folder = Folder::square_on_disk();
    let in_place = "rebuild code 0 plan --symbol 1 stripes --in-place";
    let elsewhere = "rebuild code 0 plan --symbol 1 stripes -o out";
    for (line, command, file) in [
        (in_place, "printf newer! | dd of=stripes conv=notrunc status=none", "stripes"),
        (in_place, "printf newer! >stripes", "stripes"),
        (in_place, "printf newer! >other && mv other stripes", "stripes"),
        (in_place, "printf newer! >other && mv other link", "link"),
        (elsewhere, "printf newer! >stripes", "stripes"),
        (elsewhere, "printf newer! >other && mv other stripes", "stripes"),
        (elsewhere, "printf newer! >out", "out"),
        (elsewhere, "printf newer! >other && mv other out", "out"),
        ("plan code 0 -o new", "printf newer! >new", "new"),
        ("plan code 0 -o new", "printf newer! >other && ln -s other new", "new"),
    ] {
        folder.put("stripes", &ruined(4));
        folder.put("out", b"as it was");
        let _ = fs::remove_file(folder.0.join("new"));
        let _ = fs::remove_file(folder.0.join("link"));
        symlink("stripes", folder.0.join("link")).expect("a link");
        let line = if file == "link" { line.replace("stripes", "link") } else { line.to_string() };
        let ran = folder.run_with(&line, "AT_FLUSH", command);
        assert_eq!(ran.status, 2, "{line}, {command}: {ran:?}");
        assert!(ran.err.contains("somebody else") || ran.err.contains("it changed while it was read"), "{ran:?}");
        assert!(folder.get(file).starts_with(b"newer!"), "{line}, {command}");
        if file != "stripes" {
            assert_eq!(folder.get("stripes"), ruined(4), "{line}, {command}");
        }
        if file != "out" {
            assert_eq!(folder.get("out"), b"as it was", "{line}, {command}");
        }
        assert_eq!(folder.temporaries(), 0, "{line}, {command}");
    }
}

#[test]
fn a_file_that_is_gone_or_given_to_others_meanwhile_is_left() {
    let folder = Folder::square();
    for command in ["rm stripes", "chmod 600 stripes", "mv stripes old && mkdir stripes"] {
        let _ = fs::remove_dir(folder.0.join("stripes"));
        folder.put("stripes", &ruined(4));
        let ran = folder.run_with("rebuild code 0 plan --symbol 1 stripes --in-place", "AT_FLUSH", command);
        assert_eq!(ran.status, 2, "{command}: {ran:?}");
        assert!(!fs::read(folder.0.join("stripes")).is_ok_and(|bytes| bytes != ruined(4)), "{command}");
        assert_eq!(folder.temporaries(), 0, "{command}");
    }
}

#[test]
fn locked_files_are_left() {
    let folder = Folder::square();
    folder.put("out", b"as it was");
    let file = |name: &str| File::options().read(true).write(true).open(folder.0.join(name)).expect("opened");
    let lines = [
        ("stripes", "rebuild code 0 plan --symbol 1 stripes --in-place"),
        ("stripes", "strip code 0 --symbol 1 stripes -o out"),
        ("stripes", "test code 0 --symbol 1 stripes"),
        ("data", "encode code --symbol 1 data -o out"),
        ("out", "encode code --symbol 1 data -o out"),
        ("out", "plan code 0 -o out"),
    ];
    for (name, line) in lines {
        let holder = file(name);
        holder.lock().expect("locked");
        let said = folder.misused(line);
        assert!(said.contains("another program has locked it"), "{line}: {said}");
        holder.unlock().expect("unlocked");
    }
    // Readers don't disturb each other, but nobody replaces what is being read.
    for (name, line) in lines {
        let reader = file(name);
        reader.lock_shared().expect("locked");
        match line.contains("--in-place") || name == "out" {
            true => assert!(folder.misused(line).contains("another program has locked it"), "{line}"),
            false => drop(folder.done(line)),
        }
    }
}

/// Mode, owner and group.
fn rights(folder: &Folder, name: &str) -> (u32, u32, u32) {
    let found = fs::metadata(folder.0.join(name)).expect("there");
    (found.mode() & 0o7777, found.uid(), found.gid())
}

fn set_rights(folder: &Folder, name: &str, (mode, owner, group): (u32, u32, u32)) {
    let path = folder.0.join(name);
    chown(&path, Some(owner), Some(group)).expect("given away");
    fs::set_permissions(&path, Permissions::from_mode(mode)).expect("set");
}

const NOBODY: u32 = 65_534;

/// Whether files can be given to others here; says so if not.
fn is_root(folder: &Folder) -> bool {
    let root = fs::metadata(&folder.0).expect("there").uid() == 0;
    if !root {
        println!("not tried: only root can give files to others");
    }
    root
}

/// Runs a line of the tool as somebody who has no rights but those of others.
fn run_as_nobody(folder: &Folder, line: &str) -> Ran {
    let mut tool = Command::new(TOOL);
    let tool = tool.args(line.split_whitespace()).current_dir(&folder.0);
    Ran::of(tool.uid(NOBODY).gid(NOBODY))
}

/// Opens every temporary file there is, as a spy would, and looks at who else could; answers how many there were.
fn spy_once(folder: &Folder, complete: u64) -> usize {
    let entries = fs::read_dir(&folder.0).expect("a folder").flatten();
    let parts = entries.map(|entry| entry.path()).filter(|path| path.extension().is_some());
    // Through one open file, since the name may be gone or mean another one by the next look.
    let found: Vec<Metadata> = parts.filter_map(|path| File::open(path).ok()?.metadata().ok()).collect();
    for metadata in &found {
        let (length, mode) = (metadata.len(), metadata.mode());
        // An empty file shows nothing, and `out` is to be seen by all once it is complete.
        assert!(length == 0 || length == complete || mode & 0o077 == 0, "{length} bytes with mode {mode:o}");
    }
    found.len()
}

#[test]
fn temporary_files_are_seen_by_nobody_else() {
    let folder = Folder::square();
    // More than any buffer of the tool holds, so that the file grows in steps.
    let data = vec![7; 4 << 18];
    folder.put("data", &data);
    let stop = AtomicBool::new(false);
    let seen = thread::scope(|scope| {
        let spy = scope.spawn(|| {
            let mut seen = 0;
            while !stop.load(Ordering::Relaxed) {
                seen += spy_once(&folder, 2 * data.len() as u64);
            }
            seen
        });
        for round in 0..20 {
            folder.done(&format!("encode code --symbol {} data -o out", 1024 << (round % 3)));
            fs::remove_file(folder.0.join("out")).expect("written");
            // What only its owner may see is never shown, however much of it is there.
            folder.put("secret", b"");
            fs::set_permissions(folder.0.join("secret"), Permissions::from_mode(0o600)).expect("set");
            folder.done("encode code --symbol 1024 data -o secret");
            assert_eq!(rights(&folder, "secret").0, 0o600);
        }
        stop.store(true, Ordering::Relaxed);
        spy.join().expect("no temporary file was shown")
    });
    println!("{seen} looks at temporary files");
}

#[test]
fn a_new_file_has_the_rights_that_any_program_gives_it() {
    let folder = Folder::square_on_disk();
    for mask in ["022", "077", "002", "000"] {
        let line = format!("umask {mask}; rm -f out touched; touch touched; '{TOOL}' plan code 0 -o out");
        let made = Command::new("sh").args(["-c", &line]).current_dir(&folder.0).output().expect("sh runs");
        assert!(made.status.success(), "{made:?}");
        assert_eq!(rights(&folder, "out"), rights(&folder, "touched"), "{mask}");
    }
}

#[test]
fn owner_and_group_stay_or_lose_their_rights() {
    let folder = Folder::square_on_disk();
    if !is_root(&folder) {
        return;
    }
    for kept in [(0o640, 1234, 2345), (0o604, 1234, 0), (0o4750, NOBODY, 2345), (0o666, 0, 2345)] {
        set_rights(&folder, "stripes", kept);
        folder.done("rebuild code 0 plan --symbol 1 stripes --in-place");
        assert_eq!(rights(&folder, "stripes"), (kept.0 & 0o777, kept.1, kept.2));
    }
    fs::set_permissions(&folder.0, Permissions::from_mode(0o777)).expect("set");
    for (before, after) in [
        // A group that can't be set loses its bits, and its members get no more as others.
        ((0o664, NOBODY, 2345), 0o604),
        ((0o606, NOBODY, 2345), 0o600),
        ((0o6775, NOBODY, 2345), 0o705),
        ((0o664, NOBODY, NOBODY), 0o664),
        // An owner who can't be kept gets no more as one of the others.
        ((0o666, 0, 0), 0o606),
        ((0o466, 0, 0), 0o404),
    ] {
        set_rights(&folder, "stripes", before);
        let ran = run_as_nobody(&folder, "rebuild code 0 plan --symbol 1 stripes --in-place");
        assert_eq!(ran.status, 0, "{ran:?}");
        assert_eq!(rights(&folder, "stripes"), (after, NOBODY, NOBODY), "{before:?}");
    }
}

/// An access control list: rw for the owner, r for nobody by name, nothing for the group, and so much for the mask and the others.
fn access_list(mask: u8, others: u8) -> String {
    let entries = [(1, 6, !0), (2, 4, NOBODY), (4, 0, !0), (0x10, mask, !0), (0x20, others, !0)];
    let entries = entries.iter().flat_map(|&(kind, bits, whose)| {
        let whose: u32 = whose;
        [vec![kind, 0, bits, 0], whose.to_le_bytes().to_vec()].concat()
    });
    let bytes: Vec<String> = [2, 0, 0, 0].into_iter().chain(entries).map(|byte: u8| byte.to_string()).collect();
    format!("bytes([{}])", bytes.join(","))
}

const READ_ALL: &str = "import os\nprint([(n, os.getxattr('stripes', n)) for n in sorted(os.listxattr('stripes'))])";

#[test]
fn attributes_and_access_lists_stay_or_are_narrowed() {
    let folder = Folder::square_on_disk();
    let set = format!(
        "import os\nos.setxattr('stripes', 'user.origin', b'register \\x00 7')\n\
         os.setxattr('stripes', 'user.empty', b'')\nos.setxattr('stripes', 'system.posix_acl_access', {})",
        access_list(4, 0)
    );
    if folder.python(&set).is_none() {
        return;
    }
    let (before, mode) = (folder.python(READ_ALL).expect("read"), rights(&folder, "stripes"));
    assert!(before.contains("posix_acl_access") && before.contains("user.empty"), "{before}");
    folder.done("rebuild code 0 plan --symbol 1 stripes --in-place");
    assert_eq!(folder.python(READ_ALL).expect("read"), before);
    assert_eq!(rights(&folder, "stripes"), mode);
    if !is_root(&folder) {
        return;
    }
    // Whoever can't keep the group can't keep the list either, and then nobody but the owner sees the file.
    fs::set_permissions(&folder.0, Permissions::from_mode(0o777)).expect("set");
    set_rights(&folder, "stripes", (0o644, NOBODY, 2345));
    let ran = run_as_nobody(&folder, "rebuild code 0 plan --symbol 1 stripes --in-place");
    assert_eq!(ran.status, 0, "{ran:?}");
    assert_eq!(rights(&folder, "stripes"), (0o600, NOBODY, NOBODY));
    let after = folder.python(READ_ALL).expect("read");
    assert!(!after.contains("posix_acl_access") && after.contains("user.origin"), "{after}");
}

#[test]
fn a_folders_own_access_list_widens_nothing() {
    let folder = Folder::square_on_disk();
    let set = format!("import os\nos.setxattr('.', 'system.posix_acl_default', {})", access_list(6, 0));
    fs::set_permissions(folder.0.join("stripes"), Permissions::from_mode(0o640)).expect("set");
    if folder.python(&set).is_none() {
        return;
    }
    folder.done("rebuild code 0 plan --symbol 1 stripes --in-place");
    assert_eq!(folder.python(READ_ALL).expect("read"), "[]\n");
    assert_eq!(rights(&folder, "stripes").0, 0o640);
    // A new file gets what any new file gets here, if it is made of no data.
    folder.put("touched", b"");
    folder.done("plan code 0 -o out");
    assert_eq!(rights(&folder, "out"), rights(&folder, "touched"));
    let list = |name: &str| folder.python(&READ_ALL.replace("'stripes'", &format!("'{name}'")));
    assert_eq!(list("out"), list("touched"));
    // What is made of data has the folder's list only if they have it.
    folder.done("strip code 0 --symbol 1 stripes -o narrow");
    assert_eq!((rights(&folder, "narrow").0, list("narrow").as_deref()), (0o600, Some("[]\n")));
    folder.put("listed", &folder.get("stripes"));
    folder.done("strip code 0 --symbol 1 listed -o wide");
    assert_eq!((rights(&folder, "wide"), list("wide")), (rights(&folder, "touched"), list("touched")));
}

#[test]
fn what_a_user_may_not_write_is_not_replaced() {
    let folder = Folder::square();
    if !is_root(&folder) {
        return;
    }
    // The folder belongs to the user, the files don't.
    set_rights(&folder, ".", (0o755, NOBODY, NOBODY));
    folder.put("out", b"as it was");
    for (name, mode) in [("stripes", 0o644), ("out", 0o644), ("out", 0o664), ("out", 0o600)] {
        set_rights(&folder, name, (mode, 0, 0));
        for line in ["rebuild code 0 plan --symbol 1 stripes --in-place", "plan code 0 -o out"] {
            if line.contains(name) {
                let before = folder.contents();
                let ran = run_as_nobody(&folder, line);
                assert_eq!(ran.status, 2, "{name} {mode:o}: {ran:?}");
                assert!(ran.err.contains(&format!("can't write {name}: Permission denied")), "{ran:?}");
                assert_eq!(folder.contents(), before);
            }
        }
    }
    assert_eq!(run_as_nobody(&folder, "plan code 0 -o new").status, 0);
}

#[test]
fn special_files_are_refused_by_what_they_are() {
    let folder = Folder::square();
    let made = Command::new("mkfifo").arg(folder.0.join("pipe")).status().expect("mkfifo runs");
    assert!(made.success());
    symlink("pipe", folder.0.join("link")).expect("a link");
    symlink("/dev/stdout", folder.0.join("out")).expect("a link");
    // Nobody writes to the pipe or reads from it: none of this may wait.
    for line in [
        "check pipe 0 plan",
        "check code 0 pipe",
        "check link 0 plan",
        "encode code --symbol 1 pipe -o new",
        "rebuild code 0 link --symbol 1 stripes --in-place",
        "rebuild code 0 plan --symbol 1 pipe --in-place",
        "show code --disk 0 --plan link",
        "plan code 0 -o pipe",
        "plan code 0 -o link",
        // The test reads the tool's answers through a pipe.
        "plan code 0 -o /dev/stdout",
        "plan code 0 -o /dev/stderr",
        "plan code 0 -o /dev/fd/1",
        "plan code 0 -o /proc/self/fd/2",
        "plan code 0 -o out",
    ] {
        let before = names(&folder);
        let ran = folder.run(line);
        assert_eq!(ran.status, 2, "{line}: {ran:?}");
        let said = ["it is a pipe, not a regular file", "it is this run's standard"];
        assert!(said.iter().any(|said| ran.err.contains(said)), "{line}: {ran:?}");
        assert_eq!(names(&folder), before, "{line}");
    }
    for line in ["check /dev/zero 0 plan", "plan code 0 -o /dev/null", "show code --svg /dev/full"] {
        let ran = folder.run(line);
        assert_eq!(ran.status, 2, "{line}: {ran:?}");
        assert!(ran.err.contains("it is a device, not a regular file"), "{line}: {ran:?}");
    }
}

/// The names in the folder; a pipe among them can't be read.
fn names(folder: &Folder) -> Vec<String> {
    let entries = fs::read_dir(&folder.0).expect("a folder").flatten();
    let mut names: Vec<String> =
        entries.map(|entry| format!("{:?} {:?}", entry.file_name(), entry.file_type())).collect();
    names.sort();
    names
}

#[test]
fn answers_that_go_to_a_file_do_not_lose_it() {
    let folder = Folder::square();
    for (line, stream) in [
        ("plan code 0 -o /dev/stdout", "output"),
        ("plan code 0 -o log", "output"),
        ("plan code 0 -o /dev/fd/1", "output"),
    ] {
        folder.put("log", b"before\n");
        let log = File::options().append(true).open(folder.0.join("log")).expect("opened");
        let mut tool = Command::new(TOOL);
        let tool = tool.args(line.split_whitespace()).current_dir(&folder.0).stdout(log);
        let output = tool.output().expect("it runs");
        let said = String::from_utf8_lossy(&output.stderr).to_string();
        assert_eq!(output.status.code(), Some(2), "{said}");
        assert!(said.contains(&format!("it is this run's standard {stream}")), "{said}");
        assert_eq!(folder.get("log"), b"before\n");
    }
}

#[test]
fn hard_links_of_inputs_are_recognised() {
    let folder = Folder::square();
    for (name, line) in [
        ("data", "encode code --symbol 1 data -o same"),
        ("code", "encode code --symbol 1 data -o same"),
        ("stripes", "strip code 0 --symbol 1 stripes -o same"),
        ("stripes", "rebuild code 0 plan --symbol 1 stripes -o same"),
        ("plan", "rebuild code 0 plan --symbol 1 stripes -o same"),
        ("code", "plan code 0 -o same"),
        ("plan", "show code --disk 0 --plan plan --svg same"),
    ] {
        let same = folder.0.join("same");
        let _ = fs::remove_file(&same);
        fs::hard_link(folder.0.join(name), &same).expect("a link");
        let ran = folder.run(line);
        assert_eq!(ran.status, 2, "{line}: {ran:?}");
        assert!(ran.err.contains(&format!("it is also read, as {name}")), "{line}: {ran:?}");
        assert_eq!(folder.get(name), folder.get("same"), "{line}");
    }
}

/// Some megabytes of stripes, with disk 0 ruined, and whole.
fn long_work() -> (Vec<u8>, Vec<u8>) {
    let stripe = |bytes: &[u8]| bytes.iter().flat_map(|&byte| [byte; 1024]).collect::<Vec<u8>>();
    (stripe(&ruined(1)).repeat(400), stripe(&P1).repeat(400))
}

const LONG: &str = "rebuild code 0 plan --symbol 1024 stripes --in-place";

fn start(folder: &Folder, line: &str) -> Child {
    heed_signals();
    let mut tool = Command::new(TOOL);
    let tool = tool.args(line.split_whitespace()).current_dir(&folder.0).env("TMPDIR", &folder.0);
    tool.stdout(Stdio::null()).stderr(Stdio::null()).spawn().expect("it runs")
}

/// Some moment of a run that takes so long.
fn a_moment(random: &mut Random, whole: Duration) -> Duration {
    whole.mul_f64(random.below(1100) as f64 / 1000.0)
}

/// How long the work takes when nobody disturbs it.
fn undisturbed(folder: &Folder, stripes: &[u8]) -> Duration {
    folder.put("stripes", stripes);
    let began = Instant::now();
    folder.done(LONG);
    began.elapsed()
}

#[test]
fn two_hundred_kills_leave_no_half_file() {
    let folder = Folder::square();
    let (old, new) = long_work();
    let whole = undisturbed(&folder, &old);
    let (mut random, mut replaced, mut left) = (Random::new(200), 0, 0);
    for _ in 0..200 {
        folder.put("stripes", &old);
        let mut child = start(&folder, LONG);
        thread::sleep(a_moment(&mut random, whole));
        child.kill().expect("killed");
        child.wait().expect("it ends");
        let found = folder.get("stripes");
        assert!(found == old || found == new, "a half file of {} bytes", found.len());
        replaced += usize::from(found == new);
        left += folder.temporaries();
        assert!(folder.temporaries() <= 1, "the next run removes what the last one left");
    }
    folder.put("stripes", &old);
    folder.done(LONG);
    assert_eq!(folder.temporaries(), 0);
    println!("200 kills: {replaced} after the rename, {left} left a file for the next run to remove");
}

#[test]
fn signals_leave_nothing_behind() {
    let folder = Folder::square();
    let (old, new) = long_work();
    let whole = undisturbed(&folder, &old);
    let (mut random, mut rounds, mut ended) = (Random::new(15), 0, 0);
    // How many come in time depends on the machine: on until some did.
    while rounds < 150 || ended < 10 && rounds < 3000 {
        let signal = [TERMINATE, INTERRUPT, HANG_UP][rounds % 3];
        rounds += 1;
        folder.put("stripes", &old);
        let mut child = start(&folder, LONG);
        thread::sleep(a_moment(&mut random, whole));
        send(signal, &child);
        let status = child.wait().expect("it ends");
        assert!(status.success() || status.signal() == Some(signal), "{signal}: {status}");
        ended += usize::from(!status.success());
        assert_eq!(folder.temporaries(), 0, "{signal}");
        let found = folder.get("stripes");
        assert!(found == old || found == new, "{signal}: a half file of {} bytes", found.len());
        assert!(!status.success() || found == new, "{signal}");
    }
    assert!(ended >= 10, "{ended} of {rounds} signals came in time");
    println!("{rounds} signals: {ended} came in time");
}

/// An array of some megabytes with two disks missing, and what they held.
fn long_restore() -> (Folder, Vec<Vec<u8>>) {
    let folder = Folder::square();
    folder.put("data", &Random::new(8).bytes(4 << 20));
    folder.done("split code --symbol 512 data -o array");
    let disks = ["array/disk-0", "array/disk-2"].map(|name| folder.get(name)).to_vec();
    (folder, disks)
}

/// Each of the two disks is there whole, or not at all; answers how many are.
fn whole_disks(folder: &Folder, disks: &[Vec<u8>]) -> usize {
    let found = ["array/disk-0", "array/disk-2"].map(|name| folder.has(name).then(|| folder.get(name)));
    assert!(
        found.iter().zip(disks).all(|(found, disk)| found.as_ref().is_none_or(|found| found == disk)),
        "a half disk"
    );
    found.iter().flatten().count()
}

/// Runs the restore of the two disks, disturbed at some moment; answers how it ended.
fn disturbed(folder: &Folder, moment: Duration, disturb: impl FnOnce(&mut Child)) -> ExitStatus {
    let _ = fs::remove_file(folder.0.join("array/disk-0"));
    let _ = fs::remove_file(folder.0.join("array/disk-2"));
    let mut child = start(folder, "restore array");
    thread::sleep(moment);
    disturb(&mut child);
    child.wait().expect("it ends")
}

#[test]
fn a_restore_that_is_ended_leaves_whole_disks_or_none() {
    let (folder, disks) = long_restore();
    let began = Instant::now();
    disturbed(&folder, Duration::ZERO, |_| {});
    let (whole, mut random) = (began.elapsed(), Random::new(44));
    assert_eq!(whole_disks(&folder, &disks), 2);
    let (mut rounds, mut ended) = (0, 0);
    while rounds < 60 || ended < 10 && rounds < 3000 {
        let signal = [TERMINATE, INTERRUPT, HANG_UP][rounds % 3];
        rounds += 1;
        let moment = a_moment(&mut random, whole);
        let status = disturbed(&folder, moment, |child| send(signal, child));
        assert!(status.success() || status.signal() == Some(signal), "{signal}: {status}");
        ended += usize::from(!status.success());
        assert!(whole_disks(&folder, &disks) == 2 || !status.success());
        assert_eq!(folder.temporaries(), 0, "{signal}");
    }
    assert!(ended >= 10, "{ended} of {rounds} signals came in time");
    for _ in 0..60 {
        let moment = a_moment(&mut random, whole);
        disturbed(&folder, moment, |child| child.kill().expect("killed"));
        whole_disks(&folder, &disks);
    }
    // What killed runs have left is gone after the next one that writes.
    assert!(disturbed(&folder, Duration::ZERO, |_| {}).success());
    assert_eq!((whole_disks(&folder, &disks), folder.temporaries()), (2, 0));
}

#[test]
fn signals_end_the_wait_for_standard_input() {
    heed_signals();
    let folder = Folder::square();
    for line in ["encode code --symbol 1 - -o out", "check code 0 -", "split code --symbol 1 - -o array"] {
        for signal in [TERMINATE, INTERRUPT] {
            let mut tool = Command::new(TOOL);
            let tool = tool.args(line.split_whitespace()).current_dir(&folder.0);
            let mut child = tool.stdin(Stdio::piped()).stderr(Stdio::null()).spawn().expect("it runs");
            let _open = child.stdin.take();
            thread::sleep(Duration::from_millis(100));
            assert!(child.try_wait().expect("it is ours").is_none(), "{line} doesn't wait");
            send(signal, &child);
            assert_eq!(child.wait().expect("it ends").signal(), Some(signal), "{line}");
            assert_eq!((folder.temporaries(), folder.contents().len()), (0, 4), "{line}");
        }
    }
}

#[test]
fn the_demonstration_leaves_nothing_behind_when_it_is_ended() {
    let folder = Folder::new();
    let began = Instant::now();
    folder.done("demo");
    let whole = began.elapsed();
    let mut random = Random::new(3);
    for _ in 0..30 {
        let mut child = start(&folder, "demo");
        thread::sleep(a_moment(&mut random, whole));
        send(TERMINATE, &child);
        child.wait().expect("it ends");
        assert_eq!(names(&folder), Vec::<String>::new());
    }
}

#[test]
fn signals_that_are_ignored_stay_so() {
    let folder = Folder::square();
    let (old, new) = long_work();
    folder.put("stripes", &old);
    let mut shell = Command::new("sh");
    shell.args(["-c", &format!("trap '' HUP; exec '{TOOL}' {LONG}")]).current_dir(&folder.0);
    let mut child = shell.stdout(Stdio::null()).spawn().expect("sh runs");
    while folder.temporaries() == 0 && child.try_wait().expect("it is ours").is_none() {
        thread::yield_now();
    }
    send(HANG_UP, &child);
    assert!(child.wait().expect("it ends").success());
    assert!(folder.get("stripes") == new);
}

#[test]
fn the_living_keep_their_files_and_the_dead_lose_them() {
    let folder = Folder::square();
    let (old, new) = long_work();
    folder.put("stripes", &old);
    // A name that the tool gives, nobody's lock on it; names that only look so; and a link.
    folder.put(".navorzim-12-ab12-0.part", b"dead");
    folder.put(".navorzim-mine.part", b"a user's");
    folder.put("navorzim-12-ab12-0.part", b"a user's");
    symlink("stripes", folder.0.join(".navorzim-12-ab13-0.part")).expect("a link");
    folder.put(".navorzim-12-ab14-0.part", b"alive");
    let alive = File::open(folder.0.join(".navorzim-12-ab14-0.part")).expect("opened");
    alive.lock().expect("locked");
    folder.done("plan code 0 -o new");
    assert!(!folder.has(".navorzim-12-ab12-0.part"));
    for name in
        [".navorzim-mine.part", "navorzim-12-ab12-0.part", ".navorzim-12-ab13-0.part", ".navorzim-12-ab14-0.part"]
    {
        assert!(folder.has(name), "{name}");
    }
    // A process that another test is just starting has the handle too: closing it here alone need not end the lock.
    alive.unlock().expect("unlocked");
    folder.done("plan code 0 -o new");
    assert!(!folder.has(".navorzim-12-ab14-0.part"));

    // A run that stands still is alive.
    let before = folder.temporaries();
    let mut child = start(&folder, LONG);
    while folder.temporaries() == before && child.try_wait().expect("it is ours").is_none() {
        thread::yield_now();
    }
    send(STOP, &child);
    folder.done("plan code 0 -o new");
    folder.done("plan code 0 -o newer");
    send(CONTINUE, &child);
    assert!(child.wait().expect("it ends").success());
    assert!(folder.get("stripes") == new);
    assert_eq!(folder.temporaries(), before);
}

#[test]
fn a_folder_that_does_not_reach_the_disk_is_reported() {
    let folder = Folder::square();
    folder.put("stripes", &ruined(4));
    for line in ["rebuild code 0 plan --symbol 1 stripes --in-place", "rebuild code 0 plan --symbol 1 stripes -o new"] {
        let ran = folder.run_with(line, "FOLDER_FAILS", "yes");
        assert_eq!((ran.status, &*ran.out), (2, ""), "{line}: {ran:?}");
        assert!(ran.err.contains("can't bring to the disk the folder of"), "{ran:?}");
        assert!(ran.err.contains("is complete, but a crash may bring the old one back"), "{ran:?}");
    }
    assert_eq!((folder.get("stripes"), folder.get("new")), (P1.repeat(4), P1.repeat(4)));
    assert_eq!(folder.temporaries(), 0);
}

#[test]
fn names_are_printed_without_control_characters() {
    let folder = Folder::square();
    let odd = "a\x1b[2J\r\n\t\u{9b}\u{202e}b'é";
    let words = |line: &str| -> Vec<String> { line.split(' ').map(|word| word.replace("ODD", odd)).collect() };
    let shown = "a\\u{1b}[2J\\r\\n\\t\\u{9b}\\u{202e}b'é";
    for line in [
        "check ODD 0 plan",
        "plan code 0 -o ODD",
        "check code 1 ODD",
        "plan code 0 -o ODD/x",
        "demo --keep ODD",
        "encode code --symbol 1 data -o ODD",
        "check ODD 0 plan",
        "rebuild code 0 plan --symbol 1 ODD --in-place",
        "family liberation 3 3 -o ODD",
        "plan ODD 9 -o x",
        "plan ODD 0 -o ODD",
        "show ODD --svg ODD",
    ] {
        let ran = folder.run_words(words(line));
        let said = format!("{}{}", ran.out, ran.err);
        assert!(said.contains(shown), "{line}: {said:?}");
        assert!(said.chars().all(|c| c == '\n' || !c.is_control() && c != '\u{202e}'), "{line}: {said:?}");
    }
}
