//! How far a command is, said on standard error from its second second on: on a terminal in a line that is written
//! anew each second, elsewhere in a line of its own after 1, 2, 4, 8 seconds and so on. Nothing is said of a quick
//! command, or where standard error is closed; standard output is never touched.

use crate::streams;
use std::io::{self, IsTerminal, Write};
use std::sync::{Condvar, Mutex, MutexGuard};
use std::thread::{self, JoinHandle};
use std::time::{Duration, Instant};

/// How far the command is.
struct State {
    /// The command's name; none before it is known and after its end.
    name: Option<&'static str>,
    /// Since when it is at work: what it works on has been read.
    since: Option<Instant>,
    /// What was done so far, in words.
    words: String,
    /// Whether anything was told.
    told: bool,
    /// Whether a line stands on a terminal without its end.
    open: bool,
}

static STATE: Mutex<State> = Mutex::new(State {
    name: None,
    since: None,
    words: String::new(),
    told: false,
    open: false,
});

/// Wakes the one that tells, where there is nothing more to tell.
static ENDED: Condvar = Condvar::new();

fn state() -> MutexGuard<'static, State> {
    STATE.lock().unwrap_or_else(|broken| broken.into_inner())
}

impl State {
    /// The line that is told after so many seconds.
    fn line(&self, seconds: u64) -> String {
        let name = self.name.unwrap_or_default();
        let words = match self.words.as_str() {
            "" => String::new(),
            words => format!(": {words}"),
        };
        format!("rulefile: {name}, {seconds} s{words}")
    }

    /// Tells it. Where that fails there is nobody left to tell.
    fn tell(&mut self, seconds: u64) {
        let line = self.line(seconds);
        self.told = true;
        self.open = io::stderr().is_terminal();
        let _ = match self.open {
            true => write!(io::stderr(), "\r{line}\x1b[K"),
            false => writeln!(io::stderr(), "{line}"),
        };
    }
}

/// Tells how far the command is until it ends.
fn watch() {
    let mut state = state();
    let mut told = 0;
    while state.name.is_some() {
        let seconds = state.since.map_or(0, |since| since.elapsed().as_secs());
        let next = if io::stderr().is_terminal() {
            told + 1
        } else {
            (2 * told).max(1)
        };
        if seconds >= next {
            state.tell(seconds);
            told = seconds;
        }
        let waited = ENDED.wait_timeout(state, Duration::from_millis(100));
        state = waited.unwrap_or_else(|broken| broken.into_inner()).0;
    }
}

/// A command that is told of until this is dropped.
pub struct Watched(Option<JoinHandle<()>>);

/// Begins to watch a command.
pub fn of(name: &'static str) -> Watched {
    if streams::error_closed() {
        return Watched(None);
    }
    state().name = Some(name);
    Watched(thread::Builder::new().spawn(watch).ok())
}

impl Drop for Watched {
    fn drop(&mut self) {
        let mut state = state();
        // on a terminal the last line says what was done in all
        if let (true, Some(since)) = (state.told && io::stderr().is_terminal(), state.since) {
            state.tell(since.elapsed().as_secs());
            let _ = writeln!(io::stderr());
        }
        state.name = None;
        state.open = false;
        drop(state);
        ENDED.notify_all();
        if let Some(watch) = self.0.take() {
            let _ = watch.join();
        }
    }
}

/// What the command works on has been read: from now on it is at work.
pub fn at_work() {
    let mut state = state();
    state.since = state.since.or_else(|| Some(Instant::now()));
}

/// Somebody types what is read: nothing is told.
pub fn off() {
    state().name = None;
}

/// What was done so far, in words.
pub fn tell(words: String) {
    state().words = words;
}

/// Makes room for other words: a line that stands on a terminal without its end is wiped out.
pub fn give_way() {
    let mut state = state();
    if state.open {
        let _ = write!(io::stderr(), "\r\x1b[K");
        state.open = false;
    }
}
