//! Talks with the built player through pipes: a line goes in, and its reply is waited
//! for before the next line does.

use std::env;
use std::fs;
use std::io::{Read, Write};
use std::path::{Path, PathBuf};
use std::process::{Child, ChildStdin, Command, Stdio};
use std::sync::atomic::{AtomicUsize, Ordering};
use std::sync::mpsc::{channel, Receiver, RecvTimeoutError};
use std::thread;
use std::time::Duration;

/// A reply: "3 fields a line, same columns", and a line feed.
pub const REPLY_BYTES: usize = 19;

/// How long a reply may take before the player counts as one that waits for more.
const PATIENCE: Duration = Duration::from_secs(20);

/// The project's root.
pub fn root() -> PathBuf {
    Path::new(env!("CARGO_MANIFEST_DIR")).join("../..")
}

/// The player, which `tools/build player` builds.
pub fn player() -> PathBuf {
    let player = root().join("target/bin/player");
    assert!(player.is_file(), "{} is missing: `tools/build player` builds it", player.display());
    player.canonicalize().expect("the player's path")
}

/// A new folder, removed when it is dropped.
pub struct Folder(PathBuf);

impl Folder {
    pub fn new() -> Folder {
        static MADE: AtomicUsize = AtomicUsize::new(0);
        let number = MADE.fetch_add(1, Ordering::Relaxed);
        let path = env::temp_dir().join(format!("talk-{}-{number}", std::process::id()));
        fs::create_dir(&path).expect("a new folder");
        Folder(path)
    }

    /// Where the player that runs in this folder looks for its image.
    pub fn image(&self) -> PathBuf {
        self.0.join("image.bin")
    }

    /// A folder with this image in it, or with none.
    pub fn with_image(image: Option<&[u8]>) -> Folder {
        let folder = Folder::new();
        if let Some(bytes) = image {
            fs::write(folder.image(), bytes).expect("the image");
        }
        folder
    }

    pub fn path(&self) -> &Path {
        &self.0
    }
}

impl Default for Folder {
    fn default() -> Folder {
        Folder::new()
    }
}

impl Drop for Folder {
    fn drop(&mut self) {
        let _ = fs::remove_dir_all(&self.0);
    }
}

/// A player that runs, and what it has printed so far.
pub struct Talk {
    child: Child,
    input: Option<ChildStdin>,
    printed: Receiver<u8>,
}

impl Talk {
    /// Starts the player in a folder.
    pub fn in_folder(folder: &Folder) -> Talk {
        let mut child = Command::new(player())
            .current_dir(folder.path())
            .stdin(Stdio::piped())
            .stdout(Stdio::piped())
            .spawn()
            .expect("the player starts");
        let mut output = child.stdout.take().expect("its output");
        let (sender, printed) = channel();
        thread::spawn(move || {
            let mut byte = [0];
            while matches!(output.read(&mut byte), Ok(1)) && sender.send(byte[0]).is_ok() {}
        });
        Talk { input: child.stdin.take(), child, printed }
    }

    /// Hands bytes of the roll to the player.
    pub fn send(&mut self, bytes: &[u8]) {
        let input = self.input.as_mut().expect("the roll has not ended");
        input.write_all(bytes).expect("the player reads on");
        input.flush().expect("the player reads on");
    }

    /// Waits for a reply, and fails where none comes.
    pub fn reply(&mut self) -> String {
        let mut reply = Vec::new();
        while reply.len() < REPLY_BYTES {
            match self.printed.recv_timeout(PATIENCE) {
                Ok(byte) => reply.push(byte),
                Err(why) => panic!("no reply, but {:?}: {why}", String::from_utf8_lossy(&reply)),
            }
        }
        String::from_utf8(reply).expect("columns")
    }

    /// Whether the player prints nothing for a while.
    pub fn is_silent(&mut self, wait: Duration) -> bool {
        self.printed.recv_timeout(wait) == Err(RecvTimeoutError::Timeout)
    }

    /// Ends the roll, and gives what the player prints from then on, when it has ended too.
    pub fn end(mut self) -> String {
        drop(self.input.take());
        let mut rest = Vec::new();
        loop {
            match self.printed.recv_timeout(PATIENCE) {
                Ok(byte) => rest.push(byte),
                Err(RecvTimeoutError::Disconnected) => break,
                Err(why) => panic!("the player does not end: {why}"),
            }
        }
        assert!(self.child.wait().expect("it ends").success());
        String::from_utf8(rest).expect("columns")
    }
}

/// A player that still runs is not left behind by a test that failed.
impl Drop for Talk {
    fn drop(&mut self) {
        let _ = self.child.kill();
        let _ = self.child.wait();
    }
}
