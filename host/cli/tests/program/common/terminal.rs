//! A terminal to run the program at.

use std::ffi::CStr;
use std::fs::{File, OpenOptions};
use std::io::Read;
use std::os::fd::AsRawFd;
use std::os::raw::{c_char, c_int};
use std::os::unix::fs::OpenOptionsExt;
use std::process::{Command, Stdio};

extern "C" {
    fn grantpt(fd: c_int) -> c_int;
    fn unlockpt(fd: c_int) -> c_int;
    fn ptsname_r(fd: c_int, name: *mut c_char, length: usize) -> c_int;
}

/// That it shall not become the terminal of this process.
const NO_CONTROL: i32 = 0o400;

/// The two ends of a new terminal: ours, and the one to run a program at.
fn pair() -> (File, File) {
    let mut options = OpenOptions::new();
    options.read(true).write(true).custom_flags(NO_CONTROL);
    let ours = options.open("/dev/ptmx").expect("terminals");
    let mut name = [0; 100];
    let fd = ours.as_raw_fd();
    // SAFETY: the descriptor is open, and the pointer and length are those of an array.
    let made = unsafe {
        grantpt(fd) == 0 && unlockpt(fd) == 0 && ptsname_r(fd, name.as_mut_ptr(), name.len()) == 0
    };
    assert!(made, "a terminal");
    // SAFETY: `ptsname_r` ended it with a zero.
    let name = unsafe { CStr::from_ptr(name.as_ptr()) };
    let theirs = options.open(name.to_str().expect("a path"));
    (ours, theirs.expect("its other end"))
}

/// Runs a command with its standard error at a terminal. Its status and what the terminal got.
pub fn at_terminal(mut command: Command) -> (i32, String) {
    let (mut ours, theirs) = pair();
    command.stdout(Stdio::null()).stderr(theirs);
    let mut child = command.spawn().expect("it runs");
    drop(command); // and with it its copy of the other end
    let mut got = Vec::new();
    let mut buffer = [0; 4096];
    // The end is an error here.
    while let Ok(count @ 1..) = ours.read(&mut buffer) {
        got.extend(&buffer[..count]);
    }
    let status = child.wait().expect("it ends");
    let got = String::from_utf8(got).expect("words");
    (status.code().expect("no signal"), got)
}
