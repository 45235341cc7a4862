//! The programs, run as processes: target/bin/job and target/bin/trial, or the files that the environment variables PLANNER_JOB and PLANNER_TRIAL
//! name.

use std::env;
use std::ffi::OsStr;
use std::fs::{remove_file, write, File, OpenOptions};
use std::io::{ErrorKind, Write};
use std::path::PathBuf;
use std::process::{Child, Command, Output, Stdio};
use std::sync::atomic::{AtomicUsize, Ordering};
use std::thread::{self, JoinHandle};
use std::time::Duration;

fn program() -> Command {
    built("job", "PLANNER_JOB")
}

fn built(name: &str, variable: &str) -> Command {
    let built = PathBuf::from(env!("CARGO_MANIFEST_DIR")).join("../../target/bin").join(name);
    let path = env::var_os(variable).map_or(built, PathBuf::from);
    assert!(path.is_file(), "{} is not there: make it with `rt check {name}`", path.display());
    Command::new(path)
}

/// What the program prints for these bytes, which come to it through a pipe in pieces of so many bytes, the sizes taken in turn.
/// On a good run nothing goes to standard error.
pub fn printed_by_pieces(input: &[u8], pieces: &[usize]) -> String {
    let piped = program().stdin(Stdio::piped()).stdout(Stdio::piped()).stderr(Stdio::piped()).spawn();
    let mut child = piped.unwrap();
    let writer = feed(&mut child, input, pieces);
    let output = child.wait_with_output().unwrap();
    writer.join().unwrap();
    of_a_good_run(output)
}

pub fn printed(input: &[u8], piece: usize) -> String {
    printed_by_pieces(input, &[piece])
}

/// The same for a job that stands in a file: every read but the last fills the program's buffer.
pub fn printed_from_a_file(input: &[u8]) -> String {
    static FILES: AtomicUsize = AtomicUsize::new(0);
    let name = format!("planner-job-{}-{}", std::process::id(), FILES.fetch_add(1, Ordering::Relaxed));
    let path = env::temp_dir().join(name);
    write(&path, input).unwrap();
    let output = program().stdin(File::open(&path).unwrap()).output().unwrap();
    remove_file(&path).unwrap();
    of_a_good_run(output)
}

/// A standard output to which every write fails, the disk being full.
fn full_disk() -> File {
    OpenOptions::new().write(true).open("/dev/full").unwrap()
}

/// What goes to standard error on a full disk.
pub fn errors_on_a_full_disk(input: &[u8]) -> String {
    let mut child = program().stdin(Stdio::piped()).stdout(full_disk()).stderr(Stdio::piped()).spawn().unwrap();
    let writer = feed(&mut child, input, &[input.len().max(1)]);
    let output = child.wait_with_output().unwrap();
    writer.join().unwrap();
    String::from_utf8(output.stderr).unwrap()
}

/// What is printed, and what goes to standard error, where standard input cannot be read: it is a folder.
pub fn where_input_is_a_folder() -> (String, String) {
    let output = program().stdin(File::open("/").unwrap()).output().unwrap();
    (String::from_utf8(output.stdout).unwrap(), String::from_utf8(output.stderr).unwrap())
}

fn trial<A: AsRef<OsStr>>(arguments: &[A]) -> Command {
    let mut command = built("trial", "PLANNER_TRIAL");
    command.args(arguments).stdin(Stdio::null()).stderr(Stdio::piped());
    command
}

/// What the trial program writes to standard output and to standard error. It ends with 0 whatever happens.
pub fn trial_written<A: AsRef<OsStr>>(arguments: &[A]) -> (Vec<u8>, String) {
    let output = trial(arguments).output().unwrap();
    assert!(output.status.success(), "{:?}", output.status);
    (output.stdout, String::from_utf8(output.stderr).unwrap())
}

/// What goes to the trial program's standard error on a full disk.
pub fn trial_errors_on_a_full_disk<A: AsRef<OsStr>>(arguments: &[A]) -> String {
    let output = trial(arguments).stdout(full_disk()).output().unwrap();
    assert!(output.status.success(), "{:?}", output.status);
    String::from_utf8(output.stderr).unwrap()
}

/// `trial START EDGES | job`: what the job program prints.
pub fn trial_into_job<A: AsRef<OsStr>>(arguments: &[A]) -> String {
    let mut made = trial(arguments).stdout(Stdio::piped()).spawn().unwrap();
    let output = program().stdin(made.stdout.take().unwrap()).output().unwrap();
    let errors = made.wait_with_output().unwrap().stderr;
    assert_eq!(String::from_utf8_lossy(&errors), "", "on standard error of the trial program");
    of_a_good_run(output)
}

fn of_a_good_run(output: Output) -> String {
    assert!(output.status.success(), "{:?}", output.status);
    assert_eq!(String::from_utf8_lossy(&output.stderr), "", "on standard error");
    String::from_utf8(output.stdout).unwrap()
}

/// Write the bytes to the program's standard input, piece by piece. After small pieces the program is given time to read them.
fn feed(child: &mut Child, input: &[u8], pieces: &[usize]) -> JoinHandle<()> {
    let mut to = child.stdin.take().unwrap();
    let (bytes, pieces) = (input.to_vec(), pieces.to_vec());
    thread::spawn(move || {
        let mut rest = bytes.as_slice();
        for &piece in pieces.iter().cycle() {
            if rest.is_empty() {
                return;
            }
            let (part, after) = rest.split_at(piece.min(rest.len()));
            // After a bad mark the program reads no more.
            match to.write_all(part) {
                Err(e) if e.kind() == ErrorKind::BrokenPipe => return,
                written => written.unwrap(),
            }
            if piece < 100 {
                thread::sleep(Duration::from_micros(50));
            }
            rest = after;
        }
    })
}
