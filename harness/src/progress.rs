//! Progress of a long command: one line on standard error, rewritten in place, if it is a terminal.

use std::io::{self, IsTerminal, Write};
use std::sync::atomic::{AtomicU64, Ordering};
use std::sync::mpsc::{self, RecvTimeoutError, Sender};
use std::thread::{self, JoinHandle};
use std::time::{Duration, Instant};

const INTERVAL: Duration = Duration::from_millis(100);
/// Back to the start of the line, which is emptied.
const EMPTIED: &str = "\r\x1b[K";

/// How many pieces of work are done.
static DONE: AtomicU64 = AtomicU64::new(0);

/// One more piece of work is done.
pub fn step() {
    DONE.fetch_add(1, Ordering::Relaxed);
}

/// The line, which is shown until this is dropped.
pub struct Shown {
    line: Option<(Sender<()>, JoinHandle<()>)>,
}

/// Shows what the text says of the work done and the time since now; nothing in a pipe.
pub fn show(text: impl Fn(u64, Duration) -> String + Send + 'static) -> Shown {
    if io::stderr().is_terminal() {
        show_on(io::stderr(), &DONE, text)
    } else {
        Shown { line: None }
    }
}

fn show_on(
    mut terminal: impl Write + Send + 'static,
    work: &'static AtomicU64,
    text: impl Fn(u64, Duration) -> String + Send + 'static,
) -> Shown {
    work.store(0, Ordering::Relaxed);
    let start = Instant::now();
    let (end, ended) = mpsc::channel();
    let thread = thread::spawn(move || {
        while ended.recv_timeout(INTERVAL) == Err(RecvTimeoutError::Timeout) {
            let line = text(work.load(Ordering::Relaxed), start.elapsed());
            // A terminal that is gone is no reason to stop the work.
            let _ = write!(terminal, "{EMPTIED}{line}").and_then(|()| terminal.flush());
        }
        let _ = write!(terminal, "{EMPTIED}").and_then(|()| terminal.flush());
    });
    Shown {
        line: Some((end, thread)),
    }
}

impl Drop for Shown {
    fn drop(&mut self) {
        if let Some((end, thread)) = self.line.take() {
            drop(end);
            let _ = thread.join();
        }
    }
}

#[cfg(test)]
mod tests {
    use super::*;
    use std::sync::{Arc, Mutex};

    #[derive(Clone, Default)]
    struct Screen(Arc<Mutex<Vec<u8>>>);

    impl Write for Screen {
        fn write(&mut self, bytes: &[u8]) -> io::Result<usize> {
            self.0.lock().unwrap().write(bytes)
        }

        fn flush(&mut self) -> io::Result<()> {
            Ok(())
        }
    }

    #[test]
    fn one_line_is_rewritten_and_emptied_at_last() {
        // Other tests count their work elsewhere.
        static WORK: AtomicU64 = AtomicU64::new(0);
        let screen = Screen::default();
        let shown = show_on(screen.clone(), &WORK, |done, _| format!("{done} done"));
        WORK.fetch_add(7, Ordering::Relaxed);
        while screen.0.lock().unwrap().len() < 60 {
            thread::sleep(INTERVAL);
        }
        drop(shown);
        let text = String::from_utf8(screen.0.lock().unwrap().clone()).unwrap();
        assert!(text.starts_with("\r\x1b[K7 done\r\x1b[K7 done"), "{text:?}");
        assert!(text.ends_with(EMPTIED) && !text.contains('\n'), "{text:?}");
    }
}
