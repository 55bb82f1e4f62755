//! A real browser without a window.

use std::env;
use std::fs::{self, File};
use std::path::{Path, PathBuf};
use std::process::{Child, Command, ExitStatus, Stdio};
use std::thread::sleep;
use std::time::{Duration, Instant};

/// The names under which a browser is looked for.
const NAMES: [&str; 4] = [
    "chromium-headless-shell",
    "chromium",
    "chromium-browser",
    "google-chrome",
];

/// How long one call may take.
const PATIENCE: Duration = Duration::from_secs(60);

/// A browser that was found.
pub struct Browser {
    program: PathBuf,
    /// Where it keeps what it writes.
    dir: PathBuf,
}

impl Browser {
    /// The browser that `ROPE_BROWSER` names, else the first in PATH.
    pub fn find(dir: &Path) -> Browser {
        let named = env::var_os("ROPE_BROWSER").map(PathBuf::from);
        let program = named.or_else(in_path).unwrap_or_else(|| {
            panic!(
                "no browser: the pages are looked at in one of {NAMES:?}. On Debian `apt-get install \
                 chromium-headless-shell` brings it; ROPE_BROWSER=/path/to/it names another"
            )
        });
        let _ = fs::remove_dir_all(dir);
        fs::create_dir_all(dir).expect("a folder for the browser");
        Browser {
            program,
            dir: dir.to_path_buf(),
        }
    }

    /// Opens a file, and answers what the page has become.
    pub fn dump(&self, page: &Path) -> String {
        let (dom, log) = self.run(&["--dump-dom"], page);
        assert!(
            !log.contains("CONSOLE"),
            "{}: the console has messages:\n{log}",
            page.display()
        );
        dom
    }

    /// Prints a file to a PDF.
    pub fn print(&self, page: &Path, pdf: &Path) {
        self.run(
            &[
                "--no-pdf-header-footer",
                &format!("--print-to-pdf={}", pdf.display()),
            ],
            page,
        );
    }

    /// Makes a picture of what a window of this size shows of a file.
    pub fn picture(&self, page: &Path, png: &Path, width: usize, height: usize) {
        let size = format!("--window-size={width},{height}");
        let file = format!("--screenshot={}", png.display());
        self.run(&[&size, &file], page);
    }

    fn run(&self, flags: &[&str], page: &Path) -> (String, String) {
        let [out, err] = ["out", "err"].map(|name| self.dir.join(name));
        let create = |path: &Path| Stdio::from(File::create(path).expect("a file for the output"));
        let mut child = Command::new(&self.program)
            .args([
                "--headless",
                "--no-sandbox",
                "--disable-gpu",
                "--hide-scrollbars",
            ])
            .args(["--enable-logging=stderr", "--allow-file-access-from-files"])
            .arg(format!(
                "--user-data-dir={}",
                self.dir.join("profile").display()
            ))
            .args(flags)
            .arg(format!("file://{}", page.display()))
            .stdin(Stdio::null())
            .stdout(create(&out))
            .stderr(create(&err))
            .spawn()
            .unwrap_or_else(|error| panic!("{}: {error}", self.program.display()));
        let status = ended(&mut child)
            .unwrap_or_else(|| panic!("{}: the browser does not end", page.display()));
        let [said, log] = [out, err].map(|path| fs::read(path).expect("the output"));
        let log = String::from_utf8_lossy(&log).into_owned();
        assert!(
            status.success(),
            "{}: {status}\n{log}",
            self.program.display()
        );
        (String::from_utf8_lossy(&said).into_owned(), log)
    }
}

/// How a process ended. One that takes too long is ended, and none is answered.
fn ended(child: &mut Child) -> Option<ExitStatus> {
    let begun = Instant::now();
    loop {
        if let Some(status) = child.try_wait().expect("the browser is waited for") {
            return Some(status);
        }
        if begun.elapsed() > PATIENCE {
            let _ = child.kill();
            return None;
        }
        sleep(Duration::from_millis(10));
    }
}

fn in_path() -> Option<PathBuf> {
    let path = env::var_os("PATH")?;
    let folders: Vec<PathBuf> = env::split_paths(&path).collect();
    let found = |name: &str| {
        folders
            .iter()
            .map(|folder| folder.join(name))
            .find(|file| file.is_file())
    };
    NAMES.into_iter().find_map(found)
}
