//! Processes of nodes, files for them, and peers that a test plays itself.

#![allow(dead_code, missing_docs)]

use p2p_directory::{Info, Ingress, Key};
use p2p_node::handshake::{HandshakeError, NONCE_SIZE, Own};
use p2p_node::identity::Identity;
use p2p_node::sodium::Sodium;
use p2p_node::wire::{Timed, read_frame, write_frame};
use std::env;
use std::fs;
use std::io::{BufRead, BufReader, PipeReader, PipeWriter, Write};
use std::net::{SocketAddr, TcpStream};
use std::os::unix::fs::PermissionsExt;
use std::path::{Path, PathBuf};
use std::process::{Child, Command, ExitStatus, Stdio};
use std::sync::atomic::{AtomicBool, AtomicUsize, Ordering};
use std::sync::{Arc, Mutex};
use std::thread;
use std::time::{Duration, Instant, SystemTime, UNIX_EPOCH};

/// The time within which each expected event has to happen.
pub const PATIENCE: Duration = Duration::from_secs(40);

/// The namespace of the networks of tests.
pub const NAMESPACE: &[u8] = b"test";

/// No frame of a test is longer.
pub const LIMIT: u32 = 1 << 24;

static NEVER: AtomicBool = AtomicBool::new(false);

pub fn sodium() -> Sodium {
    Sodium::new().unwrap()
}

/// The keys of a number.
pub fn identity(number: u8) -> Identity {
    Identity::from_seed(sodium(), &[number; 32])
}

pub fn key(number: u8) -> Key {
    identity(number).public_key()
}

/// The present time in milliseconds.
pub fn milliseconds() -> u64 {
    let passed = SystemTime::now().duration_since(UNIX_EPOCH).unwrap();
    passed.as_millis() as u64
}

/// An info of a number that is signed for this namespace.
pub fn info(number: u8, namespace: &[u8], timestamp: u64) -> Info {
    let identity = identity(number);
    let ingress = Ingress::from(SocketAddr::from(([127, 0, 0, 1], 9)));
    Info::sign(
        key(number),
        namespace,
        ingress,
        timestamp,
        |namespace, message| identity.sign(namespace, message),
    )
}

/// Waits until the closure returns something.
pub fn until<T>(what: &str, mut found: impl FnMut() -> Option<T>) -> T {
    let end = Instant::now() + PATIENCE;
    loop {
        if let Some(found) = found() {
            return found;
        }
        assert!(Instant::now() < end, "not in time: {what}");
        thread::sleep(Duration::from_millis(5));
    }
}

/// The text of a member of a line of JSON that has this name, without quotation marks.
pub fn member<'l>(line: &'l str, name: &str) -> Option<&'l str> {
    let (_, value) = line.split_once(&format!("\"{name}\":"))?;
    match value.strip_prefix('"') {
        Some(text) => text.split('"').next(),
        None => value.split([',', '}']).next(),
    }
}

/// A folder that is removed at the end of a test.
pub struct Folder(PathBuf);

static FOLDERS: AtomicUsize = AtomicUsize::new(0);

impl Folder {
    pub fn new() -> Folder {
        let number = FOLDERS.fetch_add(1, Ordering::Relaxed);
        let name = format!("p2p-node-{}-{number}", std::process::id());
        let path = env::temp_dir().join(name);
        fs::create_dir_all(&path).unwrap();
        Folder(path)
    }

    pub fn path(&self, name: &str) -> PathBuf {
        self.0.join(name)
    }

    pub fn write(&self, name: &str, text: &str, mode: u32) -> PathBuf {
        let path = self.path(name);
        fs::write(&path, text).unwrap();
        fs::set_permissions(&path, fs::Permissions::from_mode(mode)).unwrap();
        path
    }

    /// Creates the key file of a number.
    pub fn key(&self, number: u8) -> PathBuf {
        self.write(
            &format!("key{number}"),
            &format!("{}\n", Key([number; 32])),
            0o600,
        )
    }

    /// Renames a file with a set into place.
    pub fn set(&self, index: u64, numbers: &[u8]) -> PathBuf {
        let mut text = format!("index {index}\n");
        for number in numbers {
            text += &format!("primary {}\n", key(*number));
        }
        let hidden = self.write("new", &text, 0o644);
        let path = self.path("set");
        fs::rename(hidden, &path).unwrap();
        path
    }
}

impl Drop for Folder {
    fn drop(&mut self) {
        let _ = fs::remove_dir_all(&self.0);
    }
}

/// The program with these words.
pub fn program(words: &[&str]) -> Command {
    let mut command = Command::new(env!("CARGO_BIN_EXE_p2p-node"));
    command.args(words).stdin(Stdio::null());
    command
}

/// What the program says on its standard error output before it fails.
pub fn failure(words: &[&str]) -> String {
    let output = program(words).output().unwrap();
    assert!(!output.status.success(), "{words:?} succeeded");
    String::from_utf8(output.stderr).unwrap()
}

/// A running node, which is killed at the end of a test.
pub struct Running {
    child: Child,
    output: Arc<Mutex<Vec<String>>>,
    ledger: PathBuf,
    pub address: SocketAddr,
    pub key: Key,
}

/// Writes to a pipe until it takes no more for some time.
fn fill(mut writer: PipeWriter) {
    let written = Arc::new(AtomicUsize::new(0));
    let count = Arc::clone(&written);
    // The thread ends when the reader does.
    thread::spawn(move || {
        while let Ok(length) = writer.write(&[b'\n'; 512]) {
            count.fetch_add(length, Ordering::Relaxed);
        }
    });
    let mut last = (0, Instant::now());
    until("a full pipe", || {
        let written = written.load(Ordering::Relaxed);
        if written != last.0 {
            last = (written, Instant::now());
        }
        (written > 0 && last.1.elapsed() > Duration::from_millis(500)).then_some(())
    });
}

/// The address that the first line of a node tells.
fn address(line: &str) -> SocketAddr {
    line.strip_prefix("listening ").unwrap().parse().unwrap()
}

/// Settings with which a network comes together in a second.
pub const QUICK: &str = "--tick 0.2 --silence 5 --cooldown 1 --dial-fail-limit 1";

impl Running {
    /// Starts the node of a number with these further words. Its set is the file `set`.
    pub fn start(folder: &Folder, number: u8, words: &str) -> Running {
        let mut command = Running::command(folder, number, words);
        let mut child = command.stdout(Stdio::piped()).spawn().unwrap();
        let output = Arc::new(Mutex::new(Vec::new()));
        let (lines, kept) = (
            BufReader::new(child.stdout.take().unwrap()).lines(),
            output.clone(),
        );
        thread::spawn(move || {
            for line in lines.map_while(Result::ok) {
                kept.lock().unwrap().push(line);
            }
        });
        let first = until("the address", || output.lock().unwrap().first().cloned());
        Running {
            child,
            output,
            ledger: Running::ledger(folder, number),
            address: address(&first),
            key: key(number),
        }
    }

    /// Starts a node whose output isn't read beyond its first line: its pipe is full, and lasts as
    /// long as the reader.
    pub fn start_unread(folder: &Folder, number: u8, words: &str) -> (Running, PipeReader) {
        let (reader, writer) = std::io::pipe().unwrap();
        let mut command = Running::command(folder, number, words);
        let child = command.stdout(writer.try_clone().unwrap()).spawn().unwrap();
        // The command holds a writer of its own.
        drop(command);
        let mut first = String::new();
        BufReader::with_capacity(1, &reader)
            .read_line(&mut first)
            .unwrap();
        fill(writer);
        let node = Running {
            child,
            output: Arc::default(),
            ledger: Running::ledger(folder, number),
            address: address(first.trim_end()),
            key: key(number),
        };
        (node, reader)
    }

    fn ledger(folder: &Folder, number: u8) -> PathBuf {
        folder.path(&format!("ledger{number}"))
    }

    fn command(folder: &Folder, number: u8, words: &str) -> Command {
        let (own, set) = (folder.key(number), folder.path("set"));
        let ledger = Running::ledger(folder, number);
        let path = |path: &Path| path.to_str().unwrap().to_owned();
        let mut command = program(&["run", "--namespace", "test", "--allow-private-ips", "true"]);
        command.args([
            "--key",
            &path(&own),
            "--sets",
            &path(&set),
            "--ledger",
            &path(&ledger),
        ]);
        command.args(words.split_whitespace());
        command
    }

    /// The words that tell another node of this one.
    pub fn as_bootstrapper(&self) -> String {
        format!("--bootstrapper {}@{}", self.key, self.address)
    }

    pub fn id(&self) -> u32 {
        self.child.id()
    }

    /// The latest status line.
    pub fn status(&self) -> Option<String> {
        let output = self.output.lock().unwrap();
        output.last().filter(|line| line.starts_with('{')).cloned()
    }

    /// Waits until a count of the status line is this.
    pub fn until_count(&self, name: &str, expected: u64) {
        until(&format!("{name} {expected}: {:?}", self.status()), || {
            let count: u64 = member(&self.status()?, name)?.parse().ok()?;
            (count == expected).then_some(())
        });
    }

    /// Waits until a count that goes on is at least so great.
    pub fn until_at_least(&self, name: &str, least: u64) {
        until(&format!("at least {least} {name}"), || {
            let count: u64 = member(&self.status()?, name)?.parse().ok()?;
            (count >= least).then_some(())
        });
    }

    /// The lines of the ledger of this event, in order.
    pub fn events(&self, event: &str) -> Vec<String> {
        let text = fs::read_to_string(&self.ledger).unwrap_or_default();
        let whole = text.rsplit_once('\n').map_or("", |(whole, _)| whole);
        let of_event = |line: &&str| member(line, "event") == Some(event);
        whole.lines().filter(of_event).map(str::to_owned).collect()
    }

    /// Waits for an event about a peer, and returns its line.
    pub fn until_event(&self, event: &str, peer: &Key) -> String {
        until(
            &format!("{event} of {peer}: {:?}", self.events(event)),
            || {
                let mut events = self.events(event).into_iter();
                events.find(|line| member(line, "peer") == Some(&peer.to_string()))
            },
        )
    }

    /// Sends SIGTERM, and returns the exit status and how long the node took to end.
    pub fn terminate(mut self) -> (ExitStatus, Duration) {
        let begin = Instant::now();
        let id = self.id().to_string();
        let sent = Command::new("kill").args(["-TERM", &id]).status().unwrap();
        assert!(sent.success());
        let status = until("the end", || self.child.try_wait().unwrap());
        (status, begin.elapsed())
    }

    /// Opens a stream to the node.
    pub fn stream(&self) -> TcpStream {
        let stream = TcpStream::connect(self.address).unwrap();
        stream.set_nodelay(true).unwrap();
        stream
    }

    /// Dials the node as the peer of a number, and returns the stream after the handshake.
    pub fn dial(&self, number: u8) -> TcpStream {
        self.try_dial(number).unwrap()
    }

    /// The same, or why there was no handshake.
    pub fn try_dial(&self, number: u8) -> Result<TcpStream, HandshakeError> {
        let stream = self.stream();
        let identity = identity(number);
        let own = own(&identity, NAMESPACE);
        own.dial(&mut timed(&stream), &self.key)?;
        Ok(stream)
    }

    /// Opens a stream and claims the key of a number, which isn't proved.
    pub fn claim(&self, number: u8) -> TcpStream {
        let mut stream = self.stream();
        let claim = [&[7; NONCE_SIZE], key(number).as_ref()].concat();
        stream.write_all(&claim).unwrap();
        stream
    }

    /// Whether the node still runs.
    pub fn is_running(&mut self) -> bool {
        self.child.try_wait().unwrap().is_none()
    }
}

impl Drop for Running {
    fn drop(&mut self) {
        let _ = self.child.kill();
        let _ = self.child.wait();
    }
}

pub fn own<'i>(identity: &'i Identity, namespace: &'i [u8]) -> Own<'i> {
    Own {
        identity,
        namespace,
        sodium: sodium(),
    }
}

/// The stream with the deadline of tests.
pub fn timed(stream: &TcpStream) -> Timed<'_> {
    let mut timed = Timed::new(stream, &NEVER).unwrap();
    timed.set_deadline(Some(PATIENCE));
    timed
}

pub fn send(stream: &TcpStream, frame: &[u8]) {
    write_frame(&mut timed(stream), frame).unwrap();
}

/// The frames that arrive until the stream ends.
pub fn frames(stream: &TcpStream) -> Vec<Vec<u8>> {
    frames_of(stream, usize::MAX)
}

/// The frames that arrive until there are so many, the stream ends or time is up.
pub fn frames_of(stream: &TcpStream, most: usize) -> Vec<Vec<u8>> {
    let (mut stream, mut frames) = (timed(stream), Vec::new());
    while frames.len() < most {
        match read_frame(&mut stream, LIMIT) {
            Ok(frame) => frames.push(frame),
            Err(_) => break,
        }
    }
    frames
}
