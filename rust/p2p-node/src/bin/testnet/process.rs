//! Processes of nodes.

use crate::bounds::{COOLDOWN, FRAMES, HANDSHAKE, HANDSHAKES, SILENCE, TICK};
use crate::place::Place;
use std::fmt::Display;
use std::fs::{self, File};
use std::io;
use std::net::SocketAddr;
use std::path::{Path, PathBuf};
use std::process::{Child, Command, ExitStatus, Stdio};
use std::thread;
use std::time::{Duration, Instant};

/// The namespace of the networks.
pub const NAMESPACE: &str = "testnet";

/// The maximum length of a log of calls, in bytes.
const RECORD_LIMIT: u64 = 512 << 20;

/// Says what went wrong with a file.
pub fn said(path: &Path, error: &dyn Display) -> String {
    format!("{}: {error}", path.display())
}

/// With what a node is started.
#[derive(Clone, Debug)]
pub struct Start {
    /// The number of the node.
    pub number: usize,
    /// Where it runs.
    pub place: Place,
    /// The program.
    pub program: PathBuf,
    /// The file of its key.
    pub key: PathBuf,
    /// The file of the sets.
    pub sets: PathBuf,
    /// The file of the ledger.
    pub ledger: PathBuf,
    /// The file of the recorded calls.
    pub record: PathBuf,
    /// The file of the standard output.
    pub output: PathBuf,
    /// Where others reach it.
    pub address: SocketAddr,
    /// The peers that it knows, as `KEY@HOST:PORT`.
    pub bootstrappers: Vec<String>,
    /// The maximum number of peers.
    pub largest: usize,
    /// The rule that it breaks.
    pub broken: Option<String>,
    /// The bound on its virtual memory, in KiB.
    pub memory: Option<u64>,
}

impl Start {
    fn words(&self) -> Vec<String> {
        let path = |path: &Path| path.to_string_lossy().into_owned();
        let seconds = |time: Duration| time.as_secs_f64().to_string();
        let (burst, refill) = FRAMES;
        let mut flags = vec![
            ("key", path(&self.key)),
            ("namespace", NAMESPACE.to_owned()),
            ("sets", path(&self.sets)),
            ("ledger", path(&self.ledger)),
            ("record", path(&self.record)),
            ("record-limit", RECORD_LIMIT.to_string()),
            (
                "listen",
                SocketAddr::new(self.place.of_node(self.number), 0).to_string(),
            ),
            ("address", self.address.to_string()),
            ("allow-private-ips", "true".to_owned()),
            ("tick", seconds(TICK)),
            ("silence", seconds(SILENCE)),
            ("cooldown", seconds(COOLDOWN)),
            ("handshake", seconds(HANDSHAKE)),
            ("dial-fail-limit", "1".to_owned()),
            ("max-sets", "1".to_owned()),
            ("largest-set", self.largest.to_string()),
            ("max-handshakes", HANDSHAKES.to_string()),
            ("burst", burst.to_string()),
            ("refill", refill.to_string()),
        ];
        let known = self.bootstrappers.iter();
        flags.extend(known.map(|peer| ("bootstrapper", peer.clone())));
        flags.extend(self.broken.iter().map(|rule| ("break", rule.clone())));
        let words = flags.into_iter();
        let words = words.flat_map(|(name, value)| [format!("--{name}"), value]);
        ["run".to_owned()].into_iter().chain(words).collect()
    }

    fn command(&self) -> Command {
        let words = self.words();
        let Some(kibibytes) = self.memory else {
            let mut command = self.place.command(self.number, &self.program);
            command.args(words);
            return command;
        };
        let script = format!("ulimit -v {kibibytes}; exec \"$@\"");
        let mut command = self.place.command(self.number, "sh");
        command
            .args(["-c", &script, "sh"])
            .arg(&self.program)
            .args(words);
        command
    }

    /// Starts the process.
    ///
    /// # Errors
    ///
    /// Names the file of the output, or the program, that the system refused.
    pub fn spawn(&self) -> Result<Process, String> {
        let of_output = |error: io::Error| said(&self.output, &error);
        let output = File::create(&self.output).map_err(of_output)?;
        let errors = output.try_clone().map_err(of_output)?;
        let mut command = self.command();
        let command = command.stdin(Stdio::null()).stdout(output).stderr(errors);
        let child = command.spawn();
        Ok(Process {
            child: child.map_err(|error| said(&self.program, &error))?,
            output: self.output.clone(),
        })
    }
}

/// Sends SIGTERM to the process of a number.
pub fn terminate(id: u32) {
    let _ = Command::new("sh")
        .args(["-c", &format!("kill -TERM {id}")])
        .stderr(Stdio::null())
        .status();
}

/// A process that is killed when it is dropped.
#[derive(Debug)]
pub struct Process {
    child: Child,
    output: PathBuf,
}

impl Process {
    /// Its number.
    pub fn id(&self) -> u32 {
        self.child.id()
    }

    /// Waits until the node says where it listens.
    ///
    /// # Errors
    ///
    /// Says that it has ended, or didn't say so in time.
    pub fn address(&mut self, within: Duration) -> Result<SocketAddr, String> {
        let begin = Instant::now();
        while begin.elapsed() < within {
            let text = fs::read_to_string(&self.output).unwrap_or_default();
            let mut lines = text
                .split_inclusive('\n')
                .filter(|line| line.ends_with('\n'));
            let address = lines.find_map(|line| line.trim_end().strip_prefix("listening "));
            if let Some(address) = address.and_then(|text| text.parse().ok()) {
                return Ok(address);
            }
            if let Some(status) = self.status() {
                return Err(format!("it has ended, with {status}: {}", text.trim_end()));
            }
            thread::sleep(Duration::from_millis(10));
        }
        Err("it doesn't say where it listens".to_owned())
    }

    /// How it ended, if it did.
    pub fn status(&mut self) -> Option<ExitStatus> {
        self.child.try_wait().ok().flatten()
    }

    /// Ends it with SIGKILL.
    pub fn kill(&mut self) {
        let _ = self.child.kill();
        let _ = self.child.wait();
    }

    /// Sends SIGTERM.
    pub fn terminate(&self) {
        terminate(self.id());
    }

    /// The memory that it has, and the most that it had, in KiB.
    pub fn memory(&self) -> Option<Memory> {
        let text = fs::read_to_string(format!("/proc/{}/status", self.id())).ok()?;
        let member = |name: &str| {
            let line = text.lines().find_map(|line| line.strip_prefix(name))?;
            line.split_whitespace().next()?.parse().ok()
        };
        Some(Memory {
            resident: member("VmRSS:")?,
            highest: member("VmHWM:")?,
        })
    }
}

impl Drop for Process {
    fn drop(&mut self) {
        self.kill();
    }
}

/// The memory of a process, in KiB.
#[derive(Clone, Copy, Debug)]
pub struct Memory {
    /// The memory that it has: VmRSS.
    pub resident: u64,
    /// The most that it had: VmHWM.
    pub highest: u64,
}
