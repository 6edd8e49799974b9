//! Where the processes of a network run.

use std::ffi::OsStr;
use std::net::{IpAddr, Ipv4Addr};
use std::process::Command;

/// How many bits the addresses of all namespaces have in common.
pub const SUBNET: u8 = 16;

/// Where the nodes of a network run.
#[derive(Clone, Debug, PartialEq, Eq)]
pub enum Place {
    /// All next to each other, with addresses of loopback.
    Loopback,
    /// Each in a network namespace of its own. Their names begin with this.
    Namespaces(String),
}

impl Place {
    /// The address of the proxies.
    pub fn of_proxies(&self) -> IpAddr {
        IpAddr::V4(match self {
            Place::Loopback => Ipv4Addr::LOCALHOST,
            Place::Namespaces(_) => Ipv4Addr::new(10, 77, 0, 1),
        })
    }

    /// The address at which the node of a number listens. There are at most 254.
    pub fn of_node(&self, number: usize) -> IpAddr {
        IpAddr::V4(match self {
            Place::Loopback => Ipv4Addr::LOCALHOST,
            Place::Namespaces(_) => Ipv4Addr::new(10, 77, 1, (number + 1) as u8),
        })
    }

    /// A command that runs a program where the node of a number runs, as the process that is started.
    pub fn command(&self, number: usize, program: impl AsRef<OsStr>) -> Command {
        match self {
            Place::Loopback => Command::new(program),
            Place::Namespaces(prefix) => {
                let mut command = Command::new("ip");
                let namespace = format!("{prefix}-{number}");
                command
                    .args(["netns", "exec", &namespace])
                    .arg(program.as_ref());
                command
            }
        }
    }
}
