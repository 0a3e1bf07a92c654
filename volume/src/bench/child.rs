//! Programs run with a file as their input, and what they spend.
//!
//! A new process counts the memory of the one that began it as its own until it
//! has its program, so that a small process, this program again, stands between.

use std::env;
use std::ffi::OsStr;
use std::fs::File;
use std::io::{self, Read};
use std::path::{Path, PathBuf};
use std::process::{Command, Stdio};

/// What a program spent.
#[derive(Clone, Copy)]
pub struct Spent {
    /// Seconds in the program itself.
    pub user: f64,
    /// Bytes at the most.
    pub memory: u64,
}

impl Spent {
    /// Before the first run.
    pub const NOTHING: Spent = Spent {
        user: f64::INFINITY,
        memory: 0,
    };

    /// The best time of two runs, and the most memory.
    pub fn and(self, other: Spent) -> Spent {
        Spent {
            user: self.user.min(other.user),
            memory: self.memory.max(other.memory),
        }
    }
}

/// The proved program.
pub fn wagefile() -> PathBuf {
    match env::var_os("LANECOCKLE_BIN") {
        Some(folder) => PathBuf::from(folder).join("wagefile"),
        None => Path::new(env!("CARGO_MANIFEST_DIR")).join("../target/bin/wagefile"),
    }
}

/// The program second, which the scripts build beside this one.
pub fn second() -> PathBuf {
    env::current_exe()
        .unwrap_or_default()
        .with_file_name("second")
}

/// Runs a program by way of the small process.
pub fn measured(program: &[&OsStr], file: &Path) -> io::Result<Spent> {
    let output = Command::new(env::current_exe()?)
        .arg("child")
        .arg(file)
        .args(program)
        .stderr(Stdio::inherit())
        .output()?;
    let text = String::from_utf8_lossy(&output.stdout);
    let mut words = text.split_whitespace();
    let (user, memory) = (words.next(), words.next());
    match (user.map(str::parse), memory.map(str::parse)) {
        (Some(Ok(user)), Some(Ok(memory))) => Ok(Spent { user, memory }),
        _ => Err(io::Error::other(format!("no numbers in {text:?}"))),
    }
}

/// The small process: runs the program and writes what it spent.
pub fn run(file: &OsStr, program: &[&OsStr]) -> io::Result<()> {
    let mut child = Command::new(program[0])
        .args(&program[1..])
        .stdin(File::open(file)?)
        .stdout(Stdio::piped())
        .spawn()?;
    let mut answer = String::new();
    child
        .stdout
        .take()
        .expect("it was asked for")
        .read_to_string(&mut answer)?;
    if !answer.starts_with("accepted") {
        return Err(io::Error::other(format!("{program:?} said {answer:?}")));
    }
    let usage = waited(child.id())?;
    let user = usage.user.seconds as f64 + usage.user.microseconds as f64 / 1e6;
    println!("{user} {}", usage.most_memory * 1024);
    Ok(())
}

#[repr(C)]
#[derive(Default)]
struct Timeval {
    seconds: i64,
    microseconds: i64,
}

/// The kernel's struct rusage.
#[repr(C)]
#[derive(Default)]
struct Usage {
    user: Timeval,
    system: Timeval,
    /// In units of 1,024 bytes.
    most_memory: i64,
    others: [i64; 13],
}

extern "C" {
    fn wait4(process: i32, status: *mut i32, options: i32, usage: *mut Usage) -> i32;
}

fn waited(process: u32) -> io::Result<Usage> {
    let (mut status, mut usage) = (0, Usage::default());
    let done = unsafe { wait4(process as i32, &mut status, 0, &mut usage) };
    if done == process as i32 && status == 0 {
        Ok(usage)
    } else {
        Err(io::Error::other(format!("a program ended with {status}")))
    }
}
