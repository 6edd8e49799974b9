//! The addresses at which peers can be dialled.

use crate::answer::is_certain;
use crate::codec::{ReadError, Reader, varint_size, write_varint};
use crate::error::{CodecError, ParseError, What};
use p2p_directory_sys as exports;
use std::cmp::Ordering;
use std::fmt;
use std::hash::{Hash, Hasher};
use std::mem;
use std::net::{IpAddr, SocketAddr};
use std::str::FromStr;

/// The maximum length of a hostname, in bytes.
pub(crate) const MAX_HOSTNAME: usize = 253;

/// The maximum length of a label of a hostname, in bytes.
const MAX_LABEL: usize = 63;

const SOCKET_PREFIX: u8 = 0;
const DNS_PREFIX: u8 = 1;
const VERSION_4: u8 = 4;
const VERSION_6: u8 = 6;

/// The name of a host: 1 to 253 bytes of ASCII, which are labels separated by dots. A label has 1
/// to 63 letters, digits and hyphens, and neither begins nor ends with a hyphen.
///
/// # Examples
///
/// ```
/// use p2p_directory::{CodecError, Hostname};
///
/// let host = Hostname::new("node-1.example.com")?;
/// assert_eq!(host.as_str(), "node-1.example.com");
/// assert_eq!(Hostname::new(""), Err(CodecError::InvalidLength(0)));
/// # Ok::<(), CodecError>(())
/// ```
#[derive(Clone, Debug, PartialEq, Eq, PartialOrd, Ord, Hash)]
pub struct Hostname(String);

impl Hostname {
    /// The maximum encoded size of a hostname.
    ///
    /// # Examples
    ///
    /// ```
    /// assert_eq!(p2p_directory::Hostname::MAX_ENCODE_SIZE, 258);
    /// ```
    pub const MAX_ENCODE_SIZE: usize = 5 + MAX_HOSTNAME;

    /// Creates a hostname from a text.
    ///
    /// # Errors
    ///
    /// [`CodecError::InvalidLength`] if the text doesn't have 1 to 253 bytes, and otherwise
    /// [`CodecError::Invalid`] if it doesn't have the form of a hostname.
    ///
    /// # Examples
    ///
    /// ```
    /// use p2p_directory::{CodecError, Hostname, What};
    ///
    /// assert!(Hostname::new("localhost").is_ok());
    /// assert_eq!(Hostname::new("a..b"), Err(CodecError::Invalid(What::Hostname)));
    /// ```
    pub fn new(text: &str) -> Result<Hostname, CodecError> {
        judge_length(text.len() as u64)?;
        read_text(String::new(), text.as_bytes()).map_err(ReadError::fault)
    }

    /// The text of the hostname.
    ///
    /// # Examples
    ///
    /// ```
    /// # use p2p_directory::{CodecError, Hostname};
    /// assert_eq!(Hostname::new("example.com")?.as_str(), "example.com");
    /// # Ok::<(), CodecError>(())
    /// ```
    #[must_use]
    pub fn as_str(&self) -> &str {
        &self.0
    }

    pub(crate) fn write(&self, out: &mut Vec<u8>) {
        write_varint(out, self.0.len() as u64);
        out.extend_from_slice(self.0.as_bytes());
    }

    // Decodes a hostname into this string, which is taken.
    fn read_into(name: &mut String, reader: &mut Reader<'_>) -> Result<Hostname, ReadError> {
        let length = reader.length()?;
        judge_length(length)?;
        read_text(mem::take(name), reader.take(length as usize)?)
    }
}

impl AsRef<str> for Hostname {
    fn as_ref(&self) -> &str {
        &self.0
    }
}

impl TryFrom<&str> for Hostname {
    type Error = CodecError;

    /// Creates a hostname as [`Hostname::new`] does, with the same errors.
    fn try_from(text: &str) -> Result<Hostname, CodecError> {
        Hostname::new(text)
    }
}

impl FromStr for Hostname {
    type Err = CodecError;

    /// Creates a hostname as [`Hostname::new`] does, with the same errors.
    fn from_str(text: &str) -> Result<Hostname, CodecError> {
        Hostname::new(text)
    }
}

impl fmt::Display for Hostname {
    fn fmt(&self, f: &mut fmt::Formatter<'_>) -> fmt::Result {
        f.write_str(&self.0)
    }
}

fn judge_length(length: u64) -> Result<(), CodecError> {
    if length == 0 || length > MAX_HOSTNAME as u64 {
        return Err(CodecError::InvalidLength(length));
    }
    Ok(())
}

// `name` is empty. It doesn't allocate if `name` has the capacity.
fn read_text(mut name: String, text: &[u8]) -> Result<Hostname, ReadError> {
    if !text.split(|byte| *byte == b'.').all(is_label) {
        return Err(CodecError::Invalid(What::Hostname).into());
    }
    let text = std::str::from_utf8(text).map_err(|_| CodecError::Invalid(What::Hostname))?;
    name.try_reserve_exact(text.len())?;
    name.push_str(text);
    Ok(Hostname(name))
}

fn is_label(label: &[u8]) -> bool {
    (1..=MAX_LABEL).contains(&label.len())
        && label
            .iter()
            .all(|byte| byte.is_ascii_alphanumeric() || *byte == b'-')
        && label.first() != Some(&b'-')
        && label.last() != Some(&b'-')
}

/// The address at which a peer can be dialled: a socket address, or a hostname with a port.
///
/// The flow label and the scope of an IPv6 socket address aren't encoded. `From` drops them,
/// comparisons ignore them, and texts don't have them. [`FromStr`] parses each text that
/// [`Display`](fmt::Display) writes, except that of a name whose last label is a number.
///
/// # Examples
///
/// ```
/// use p2p_directory::Ingress;
/// use std::net::SocketAddr;
///
/// let ingress = Ingress::from(SocketAddr::from(([127, 0, 0, 1], 8080)));
/// assert_eq!("127.0.0.1:8080".parse(), Ok(ingress.clone()));
/// assert_eq!(ingress.encode(), [0, 4, 127, 0, 0, 1, 0x1f, 0x90]);
/// assert_eq!(Ingress::decode(&ingress.encode()), Ok(ingress));
/// ```
#[derive(Clone, Debug)]
pub enum Ingress {
    /// A socket address.
    Socket(SocketAddr),
    /// A name, which has to be resolved, with a port.
    Dns {
        /// The name.
        host: Hostname,
        /// The port.
        port: u16,
    },
}

/// Whether an address is global: not reserved for private networks, documentation, tests or similar
/// uses, by the table in `docs/FORMATS.md` of the repository.
///
/// If [`allow_private_ips`](crate::Config::allow_private_ips) is false, a directory dials only
/// those socket addresses for which this returns true. A host that resolves a name can check the
/// result in the same way.
///
/// # Examples
///
/// ```
/// use p2p_directory::is_global;
///
/// assert!(is_global([8, 8, 8, 8].into()));
/// assert!(!is_global([192, 168, 0, 1].into()));
/// ```
#[must_use]
pub fn is_global(address: IpAddr) -> bool {
    is_certain(match address {
        IpAddr::V4(address) => exports::is_global(&address.octets()),
        IpAddr::V6(address) => exports::is_global(&address.octets()),
    })
}

// The part of an ingress that is encoded, by which it is compared.
#[derive(PartialEq, Eq, PartialOrd, Ord, Hash)]
enum Told<'i> {
    Socket(IpAddr, u16),
    Dns(&'i Hostname, u16),
}

impl Ingress {
    /// The maximum encoded size of an ingress.
    ///
    /// # Examples
    ///
    /// ```
    /// assert_eq!(p2p_directory::Ingress::MAX_ENCODE_SIZE, 261);
    /// ```
    pub const MAX_ENCODE_SIZE: usize = 1 + Hostname::MAX_ENCODE_SIZE + 2;

    /// The port.
    ///
    /// # Examples
    ///
    /// ```
    /// # use p2p_directory::Ingress;
    /// let socket = std::net::SocketAddr::from(([127, 0, 0, 1], 8080));
    /// assert_eq!(Ingress::Socket(socket).port(), 8080);
    /// ```
    #[must_use]
    pub fn port(&self) -> u16 {
        match self {
            Ingress::Socket(socket) => socket.port(),
            Ingress::Dns { port, .. } => *port,
        }
    }

    /// The IP address, or `None` for a name.
    ///
    /// # Examples
    ///
    /// ```
    /// # use p2p_directory::{CodecError, Hostname, Ingress};
    /// let host = Hostname::new("example.com")?;
    /// assert_eq!(Ingress::Dns { host, port: 443 }.ip(), None);
    /// # Ok::<(), CodecError>(())
    /// ```
    #[must_use]
    pub fn ip(&self) -> Option<IpAddr> {
        match self {
            Ingress::Socket(socket) => Some(socket.ip()),
            Ingress::Dns { .. } => None,
        }
    }

    /// Whether it may be dialled under these settings. A socket address may if it is
    /// [global](is_global) or `allow_private_ips` is true, and a name if `allow_dns` is true. The
    /// address to which a name resolves isn't checked: the host must check it with [`is_global`].
    ///
    /// # Examples
    ///
    /// ```
    /// # use p2p_directory::{Hostname, Ingress};
    /// let ingress: Ingress = "10.0.0.1:80".parse()?;
    /// assert!(ingress.is_valid(true, false));
    /// assert!(!ingress.is_valid(false, true));
    /// # Ok::<(), p2p_directory::ParseError>(())
    /// ```
    #[must_use]
    pub fn is_valid(&self, allow_private_ips: bool, allow_dns: bool) -> bool {
        let is_valid = |address: &[u8]| exports::is_valid(address, allow_private_ips, allow_dns);
        is_certain(match self.ip() {
            None => is_valid(&[]),
            Some(IpAddr::V4(address)) => is_valid(&address.octets()),
            Some(IpAddr::V6(address)) => is_valid(&address.octets()),
        })
    }

    /// The encoding of the ingress.
    ///
    /// # Examples
    ///
    /// ```
    /// # use p2p_directory::{CodecError, Hostname, Ingress};
    /// let ingress = Ingress::Dns { host: Hostname::new("ab")?, port: 80 };
    /// assert_eq!(ingress.encode(), [1, 2, b'a', b'b', 0, 80]);
    /// # Ok::<(), CodecError>(())
    /// ```
    #[must_use]
    pub fn encode(&self) -> Vec<u8> {
        let mut out = Vec::with_capacity(self.encode_size());
        self.write(&mut out);
        out
    }

    /// Decodes the ingress that these bytes encode.
    ///
    /// # Errors
    ///
    /// The first error of bytes that encode no ingress.
    ///
    /// # Examples
    ///
    /// ```
    /// # use p2p_directory::{CodecError, Ingress};
    /// assert_eq!(Ingress::decode(&[0, 5]), Err(CodecError::InvalidEnum(5)));
    /// ```
    pub fn decode(bytes: &[u8]) -> Result<Ingress, CodecError> {
        let mut reader = Reader::new(bytes);
        let ingress = Ingress::read(&mut reader).map_err(ReadError::fault)?;
        reader.end()?;
        Ok(ingress)
    }

    fn told(&self) -> Told<'_> {
        match self {
            Ingress::Socket(socket) => Told::Socket(socket.ip(), socket.port()),
            Ingress::Dns { host, port } => Told::Dns(host, *port),
        }
    }

    /// The encoded size of the ingress.
    ///
    /// # Examples
    ///
    /// ```
    /// # use p2p_directory::Ingress;
    /// # use std::net::SocketAddr;
    /// let ingress = Ingress::from(SocketAddr::from(([127, 0, 0, 1], 8080)));
    /// assert_eq!(ingress.encode_size(), ingress.encode().len());
    /// ```
    #[must_use]
    pub fn encode_size(&self) -> usize {
        match self {
            Ingress::Socket(socket) if socket.is_ipv4() => 1 + 1 + 4 + 2,
            Ingress::Socket(_) => 1 + 1 + 16 + 2,
            Ingress::Dns { host, .. } => 1 + varint_size(host.0.len() as u64) + host.0.len() + 2,
        }
    }

    pub(crate) fn write(&self, out: &mut Vec<u8>) {
        match self {
            Ingress::Socket(socket) => {
                out.push(SOCKET_PREFIX);
                match socket.ip() {
                    IpAddr::V4(address) => {
                        out.push(VERSION_4);
                        out.extend_from_slice(&address.octets());
                    }
                    IpAddr::V6(address) => {
                        out.push(VERSION_6);
                        out.extend_from_slice(&address.octets());
                    }
                }
            }
            Ingress::Dns { host, .. } => {
                out.push(DNS_PREFIX);
                host.write(out);
            }
        }
        out.extend_from_slice(&self.port().to_be_bytes());
    }

    pub(crate) fn read(reader: &mut Reader<'_>) -> Result<Ingress, ReadError> {
        Ingress::read_into(&mut String::new(), reader)
    }

    /// Decodes an ingress, and takes this string for its name if it has one. It doesn't allocate if
    /// the string has the capacity.
    #[inline]
    pub(crate) fn read_into(
        name: &mut String,
        reader: &mut Reader<'_>,
    ) -> Result<Ingress, ReadError> {
        match reader.byte()? {
            SOCKET_PREFIX => Ok(Ingress::Socket(read_socket(reader)?)),
            DNS_PREFIX => {
                let host = Hostname::read_into(name, reader)?;
                let port = reader.short()?;
                Ok(Ingress::Dns { host, port })
            }
            other => Err(CodecError::InvalidEnum(other).into()),
        }
    }
}

impl PartialEq for Ingress {
    fn eq(&self, other: &Ingress) -> bool {
        self.told() == other.told()
    }
}

impl Eq for Ingress {}

impl PartialOrd for Ingress {
    fn partial_cmp(&self, other: &Ingress) -> Option<Ordering> {
        Some(self.cmp(other))
    }
}

impl Ord for Ingress {
    fn cmp(&self, other: &Ingress) -> Ordering {
        self.told().cmp(&other.told())
    }
}

impl Hash for Ingress {
    fn hash<H: Hasher>(&self, state: &mut H) {
        self.told().hash(state);
    }
}

impl From<SocketAddr> for Ingress {
    /// Creates an ingress of this address and port, without flow label and scope.
    fn from(socket: SocketAddr) -> Ingress {
        Ingress::Socket(SocketAddr::new(socket.ip(), socket.port()))
    }
}

impl From<(Hostname, u16)> for Ingress {
    /// Creates an ingress of this name and port.
    fn from((host, port): (Hostname, u16)) -> Ingress {
        Ingress::Dns { host, port }
    }
}

impl FromStr for Ingress {
    type Err = ParseError;

    /// Parses a text such as `1.2.3.4:80`, `[::1]:80` or `example.com:80`. A host whose last label
    /// is a number must be an address. Fails with the [`ParseError`] of the part that is invalid.
    fn from_str(text: &str) -> Result<Ingress, ParseError> {
        let (host, port) = text.rsplit_once(':').ok_or(ParseError::Port)?;
        let port = read_port(port)?;
        if let Ok(socket) = text.parse::<SocketAddr>() {
            return Ok(socket.into());
        }
        if host.starts_with('[') || is_numeric(host.rsplit('.').next()) {
            return Err(ParseError::Address);
        }
        let host = Hostname::new(host).map_err(ParseError::Hostname)?;
        Ok(Ingress::Dns { host, port })
    }
}

fn read_port(text: &str) -> Result<u16, ParseError> {
    // `parse` alone would accept a sign.
    match is_numeric(Some(text)) {
        true => text.parse().map_err(|_| ParseError::Port),
        false => Err(ParseError::Port),
    }
}

fn is_numeric(text: Option<&str>) -> bool {
    text.is_some_and(|text| {
        !text.is_empty() && text.bytes().all(|character| character.is_ascii_digit())
    })
}

impl fmt::Display for Ingress {
    fn fmt(&self, f: &mut fmt::Formatter<'_>) -> fmt::Result {
        match self {
            Ingress::Socket(socket) => SocketAddr::new(socket.ip(), socket.port()).fmt(f),
            Ingress::Dns { host, port } => write!(f, "{host}:{port}"),
        }
    }
}

#[inline]
fn read_socket(reader: &mut Reader<'_>) -> Result<SocketAddr, CodecError> {
    let address = match reader.byte()? {
        VERSION_4 => IpAddr::from(reader.array::<4>()?),
        VERSION_6 => IpAddr::from(reader.array::<16>()?),
        other => return Err(CodecError::InvalidEnum(other)),
    };
    Ok(SocketAddr::new(address, reader.short()?))
}
