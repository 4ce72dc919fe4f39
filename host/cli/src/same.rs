//! Whether standard error is the connection that replies go to, as an inetd has it.

use std::fs::File;
use std::io;
use std::os::fd::{AsFd, BorrowedFd};
use std::os::unix::fs::{FileTypeExt, MetadataExt};

/// Whether both are one socket: words there would be taken for a part of a reply.
pub fn socket() -> bool {
    let out = identity(io::stdout().as_fd());
    out.is_some() && out == identity(io::stderr().as_fd())
}

/// Which socket it is, if it is one.
fn identity(stream: BorrowedFd) -> Option<(u64, u64)> {
    let file = File::from(stream.try_clone_to_owned().ok()?);
    let found = file.metadata().ok()?;
    let socket = found.file_type().is_socket();
    socket.then(|| (found.dev(), found.ino()))
}
