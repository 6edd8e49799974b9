//! The commands of the README, as a shell runs them.

mod common;

use common::{Folder, until};
use std::fs::{self, File};
use std::net::{TcpListener, TcpStream};
use std::os::unix::process::CommandExt;
use std::process::{Child, Command};

/// The first commands of the README.
fn commands() -> &'static str {
    let (_, rest) = include_str!("../README.md").split_once("```sh\n").unwrap();
    rest.split_once("```").unwrap().0
}

/// A shell, which is ended with all processes that it has started.
struct Shell(Child);

impl Drop for Shell {
    fn drop(&mut self) {
        let group = format!("-{}", self.0.id());
        let _ = Command::new("kill").args(["-KILL", "--", &group]).output();
        let _ = self.0.wait();
    }
}

#[test]
fn the_commands_of_two_nodes_end_both() {
    let folder = Folder::new();
    let listeners = [(); 2].map(|()| TcpListener::bind("127.0.0.1:0").unwrap());
    let [one, two] = listeners.map(|listener| listener.local_addr().unwrap().to_string());
    let net = folder.path("");
    let commands = commands()
        .replace("cargo build --release --offline", "set -e")
        .replace("target/release/p2p-node", env!("CARGO_BIN_EXE_p2p-node"))
        .replace("$(mktemp -d)", net.to_str().unwrap())
        .replace("127.0.0.1:4001", &one)
        .replace("127.0.0.1:4002", &two);
    let output = folder.path("output");
    let file = File::create(&output).unwrap();
    let mut shell = Command::new("sh");
    shell.arg("-c").arg(commands).process_group(0);
    shell.stdout(file.try_clone().unwrap()).stderr(file);
    let mut shell = Shell(shell.spawn().unwrap());
    let status = shell.0.wait().unwrap();
    let said = fs::read_to_string(&output).unwrap();
    assert!(status.success(), "{said}");
    for address in [one, two] {
        assert!(said.contains(&format!("listening {address}\n")), "{said}");
        until("the end of a node", || TcpStream::connect(&address).err());
    }
}
