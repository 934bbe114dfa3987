//! Running the two planners, with a limit of time, and what is asked of how one ends.

use crate::Met;
use std::ffi::OsStr;
use std::fs::{self, File};
use std::io::{self, Read, Write};
use std::os::unix::process::ExitStatusExt;
use std::path::{Path, PathBuf};
use std::process::{Child, Command, ExitStatus, Stdio};
use std::thread;
use std::time::{Duration, Instant};

pub const LIMIT: Duration = Duration::from_secs(20);

/// The planner under attack, the second planner, and a folder for files.
pub struct Programs {
    pub planner: PathBuf,
    second: PathBuf,
    pub folder: PathBuf,
}

impl Programs {
    pub fn new(planner: &Path) -> Result<Programs, String> {
        let told = |error: io::Error| error.to_string();
        let planner =
            fs::canonicalize(planner).map_err(|error| format!("{}: {error}", planner.display()))?;
        let second = std::env::current_exe()
            .map_err(told)?
            .with_file_name("second");
        let folder = std::env::temp_dir().join(format!("attack-{}", std::process::id()));
        fs::create_dir(&folder).map_err(|error| format!("{}: {error}", folder.display()))?;
        Ok(Programs {
            planner,
            second,
            folder,
        })
    }

    /// The planner, with nothing to read and its outputs kept.
    pub fn planner(&self) -> Command {
        kept(&self.planner)
    }

    /// The planner, started by the shell after a command to it.
    pub fn planner_after(&self, command: &str) -> Command {
        let mut shell = kept(Path::new("/bin/sh"));
        let text = format!("{command}\nexec \"$@\"");
        shell.arg("-c").arg(text).arg("sh").arg(&self.planner);
        shell
    }

    /// A file for the planner to read.
    pub fn file(&self, name: impl AsRef<OsStr>, bytes: &[u8]) -> Result<PathBuf, String> {
        let path = self.folder.join(name.as_ref());
        fs::write(&path, bytes).map_err(|error| format!("{}: {error}", path.display()))?;
        Ok(path)
    }

    /// What the second planner answers.
    pub fn right(&self, script: &[u8]) -> Result<Vec<u8>, String> {
        let ended = fed(&mut kept(&self.second), script)?;
        if !ended.status.success() {
            return Err(format!("the second planner: {}", ended.told()));
        }
        Ok(ended.output)
    }

    /// Asks that the planner answers a script as the second planner does.
    pub fn answers(&self, script: &[u8]) -> Met {
        let right = self.right(script)?;
        fed(&mut self.planner(), script)?
            .answered(&right)
            .map_err(|why| self.with_script(why, script))
    }

    /// Keeps the script of a failure, and says where.
    pub fn with_script(&self, why: String, script: &[u8]) -> String {
        let name = format!("attack-{}.site", std::process::id());
        let path = std::env::temp_dir().join(name);
        match fs::write(&path, script) {
            Ok(()) => format!("{why}; the script is {}", path.display()),
            Err(_) => why,
        }
    }
}

impl Drop for Programs {
    fn drop(&mut self) {
        let _ = fs::remove_dir_all(&self.folder);
    }
}

fn kept(program: &Path) -> Command {
    let mut command = Command::new(program);
    command
        .stdin(Stdio::null())
        .stdout(Stdio::piped())
        .stderr(Stdio::piped());
    command
}

/// How a program ended, and what it wrote.
pub struct Ended {
    pub status: ExitStatus,
    pub output: Vec<u8>,
    pub message: Vec<u8>,
}

impl Ended {
    pub fn told(&self) -> String {
        let ended = match (self.status.code(), self.status.signal()) {
            (Some(code), _) => format!("status {code}"),
            (_, Some(signal)) => format!("signal {signal}"),
            _ => "no status".to_string(),
        };
        let message = String::from_utf8_lossy(&self.message);
        format!("it ended with {ended} and said {message:?}")
    }

    /// It ended with status 0, without a message, and wrote this.
    pub fn answered(&self, right: &[u8]) -> Met {
        if self.status.code() != Some(0) || !self.message.is_empty() {
            return Err(self.told());
        }
        same(&self.output, right)
    }

    /// It ended with status 1 and said these things in one line.
    pub fn failed(&self, saying: &[&str]) -> Result<String, String> {
        let told = || Err(format!("{}, not {saying:?}", self.told()));
        let message = match std::str::from_utf8(&self.message) {
            Ok(message) => message,
            Err(_) => return told(),
        };
        let is_line = message.ends_with('\n') && message.matches('\n').count() == 1;
        let is_said = saying.iter().all(|&words| message.contains(words));
        if self.status.code() != Some(1)
            || !is_line
            || !is_said
            || !message.starts_with("planner: ")
        {
            return told();
        }
        Ok(message.to_string())
    }

    /// It failed so, and wrote nothing.
    pub fn failed_at_once(&self, saying: &[&str]) -> Met {
        self.failed(saying)?;
        same(&self.output, b"")
    }
}

/// Asks that the bytes that were written are the right ones, and tells the first line that is not.
pub fn same(output: &[u8], right: &[u8]) -> Met {
    if output == right {
        return Ok(());
    }
    let (mut wrote, mut wanted) = (output.split(is_feed), right.split(is_feed));
    for line in 1.. {
        let (one, other) = (wrote.next(), wanted.next());
        if one != other {
            return Err(format!(
                "answer {line} is {}, and should be {}",
                shown(one),
                shown(other)
            ));
        }
    }
    Ok(())
}

pub fn is_feed(byte: &u8) -> bool {
    *byte == b'\n'
}

fn shown(line: Option<&[u8]>) -> String {
    line.map_or("missing".to_string(), |line| {
        let cut = &line[..line.len().min(200)];
        format!("{:?}", String::from_utf8_lossy(cut))
    })
}

/// Runs a command on these bytes.
pub fn fed(command: &mut Command, script: &[u8]) -> Result<Ended, String> {
    ended(command.stdin(Stdio::piped()), |input| {
        input.write_all(script)
    })
}

/// Runs a command whose standard input, if it is a pipe, is written by a function; that the program reads no more is no fault.
pub fn ended(
    command: &mut Command,
    feed: impl FnOnce(&mut dyn Write) -> io::Result<()> + Send,
) -> Result<Ended, String> {
    ended_beside(command, feed, |_| ())
}

/// The same, where a function may first take something of the child.
pub fn ended_beside(
    command: &mut Command,
    feed: impl FnOnce(&mut dyn Write) -> io::Result<()> + Send,
    take: impl FnOnce(&mut Child),
) -> Result<Ended, String> {
    let mut child = command
        .spawn()
        .map_err(|error| format!("{command:?} does not start: {error}"))?;
    let input = child.stdin.take();
    take(&mut child);
    let (output, message) = (child.stdout.take(), child.stderr.take());
    thread::scope(|scope| {
        scope.spawn(move || input.map(|mut input| feed(&mut input)));
        let output = scope.spawn(move || read(output));
        let message = scope.spawn(move || read(message));
        let status = end(&mut child);
        let output = output.join().unwrap_or_default();
        let message = message.join().unwrap_or_default();
        Ok(Ended {
            status: status?,
            output,
            message,
        })
    })
}

fn read(from: Option<impl Read>) -> Vec<u8> {
    let mut bytes = Vec::new();
    if let Some(mut from) = from {
        let _ = from.read_to_end(&mut bytes);
    }
    bytes
}

/// Waits until a program ends, and ends it where that takes too long.
pub fn end(child: &mut Child) -> Result<ExitStatus, String> {
    let begun = Instant::now();
    let mut pause = Duration::from_micros(200);
    loop {
        if let Some(status) = child.try_wait().map_err(|error| error.to_string())? {
            return Ok(status);
        }
        if begun.elapsed() > LIMIT {
            let _ = child.kill();
            let _ = child.wait();
            return Err(format!("it did not end in {} seconds", LIMIT.as_secs()));
        }
        thread::sleep(pause);
        pause = (pause * 2).min(Duration::from_millis(5));
    }
}

/// A device to write to.
pub fn written(path: &str) -> Result<File, String> {
    let file = fs::OpenOptions::new().write(true).open(path);
    file.map_err(|error| format!("{path}: {error}"))
}
