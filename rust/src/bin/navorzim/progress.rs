//! Tells somebody at a terminal how far long work has come.
use std::io::{stderr, IsTerminal, Write};
use std::sync::atomic::{AtomicU64, Ordering};
use std::sync::{Arc, Condvar, Mutex, MutexGuard, PoisonError};
use std::thread::{self, JoinHandle};
use std::time::{Duration, Instant};

/// Short work needs no line, and more than a few a second help nobody.
const FIRST: Duration = Duration::from_secs(1);
const NEXT: Duration = Duration::from_millis(200);

/// Stripes that are worked on, or bytes. Somebody at a terminal sees how many are done, and then what is brought to the disk: a thread of its
/// own writes the line, so that it goes on while the system is waited for.
pub struct Progress {
    shared: Arc<Shared>,
    writer: Option<JoinHandle<()>>,
}

struct Shared {
    /// what is counted
    things: &'static str,
    done: AtomicU64,
    /// none where nobody knows how many come
    all: Option<u64>,
    state: Mutex<State>,
    changed: Condvar,
}

struct State {
    /// what is brought to the disk, and since when
    flushing: Option<(String, Instant)>,
    ended: bool,
}

impl Progress {
    /// Stripes.
    pub fn new(all: Option<u64>) -> Progress {
        Progress::counting("stripes", all)
    }

    pub fn counting(things: &'static str, all: Option<u64>) -> Progress {
        let state = Mutex::new(State { flushing: None, ended: false });
        let shared = Arc::new(Shared { things, done: AtomicU64::new(0), all, state, changed: Condvar::new() });
        let watched = stderr().is_terminal();
        let writer = watched.then(|| {
            let shared = Arc::clone(&shared);
            thread::spawn(move || shared.write_lines())
        });
        Progress { shared, writer }
    }

    /// So many more are done.
    pub fn advance(&self, more: u64) {
        self.shared.done.fetch_add(more, Ordering::Relaxed);
    }

    /// From now on this is brought to the disk.
    pub fn flushing(&self, what: String) {
        self.shared.state().flushing = Some((what, Instant::now()));
    }
}

impl Shared {
    fn state(&self) -> MutexGuard<'_, State> {
        self.state.lock().unwrap_or_else(PoisonError::into_inner)
    }

    fn write_lines(&self) {
        let (mut wait, mut shown) = (FIRST, false);
        let mut state = self.state();
        loop {
            let waited = self.changed.wait_timeout_while(state, wait, |state| !state.ended);
            state = waited.unwrap_or_else(PoisonError::into_inner).0;
            if state.ended {
                break;
            }
            let _ = write!(stderr(), "\r{}\x1b[K", self.line(&state));
            (wait, shown) = (NEXT, true);
        }
        if shown {
            let _ = write!(stderr(), "\r\x1b[K");
        }
    }

    fn line(&self, state: &State) -> String {
        if let Some((what, since)) = &state.flushing {
            return format!("bringing {what} to the disk, {} s", since.elapsed().as_secs());
        }
        let (done, things) = (self.done.load(Ordering::Relaxed), self.things);
        match self.all {
            Some(all) => {
                format!("{done} of {all} {things}, {} %", u128::from(done) * 100 / u128::from(all.max(1)))
            }
            None => format!("{done} {things}"),
        }
    }
}

impl Drop for Progress {
    fn drop(&mut self) {
        self.shared.state().ended = true;
        self.shared.changed.notify_all();
        if let Some(writer) = self.writer.take() {
            let _ = writer.join();
        }
    }
}
