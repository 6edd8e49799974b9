//! Which addresses are global, and which may be dialled under which settings, as the library says.

use p2p_directory::{Hostname, Ingress, is_global};
use std::net::{IpAddr, Ipv4Addr, Ipv6Addr};

// The ranges whose addresses are not global, each with the length of its prefix in bits.
const VERSION_4: [(&str, u32); 13] = [
    ("0.0.0.0", 8),
    ("10.0.0.0", 8),
    ("100.64.0.0", 10),
    ("127.0.0.0", 8),
    ("169.254.0.0", 16),
    ("172.16.0.0", 12),
    ("192.0.0.0", 24),
    ("192.0.2.0", 24),
    ("192.168.0.0", 16),
    ("198.18.0.0", 15),
    ("198.51.100.0", 24),
    ("203.0.113.0", 24),
    ("240.0.0.0", 4),
];
const VERSION_6: [(&str, u32); 10] = [
    ("::", 128),
    ("::1", 128),
    ("::ffff:0:0", 96),
    ("64:ff9b:1::", 48),
    ("100::", 64),
    ("2001::", 23),
    ("2001:db8::", 32),
    ("2002::", 16),
    ("fc00::", 7),
    ("fe80::", 10),
];

// The addresses at both ends of each range and next to them.
fn edges(first: u128, bits: u32, width: u32) -> impl Iterator<Item = u128> {
    let size = 1 << (width - bits);
    let most = u128::MAX >> (128 - width);
    let last = first + (size - 1);
    let beside = [first.checked_sub(1), last.checked_add(1)];
    let beside = beside.into_iter().flatten();
    [first, last]
        .into_iter()
        .chain(beside.filter(move |number| *number <= most))
}

fn lies_in(number: u128, first: u128, bits: u32, width: u32) -> bool {
    number >> (width - bits) == first >> (width - bits)
}

#[test]
fn addresses_of_version_4_outside_the_ranges_are_global() {
    let ranges = VERSION_4.map(|(first, bits)| {
        let first: Ipv4Addr = first.parse().unwrap();
        (u128::from(u32::from(first)), bits)
    });
    for (first, bits) in ranges {
        for number in edges(first, bits, 32) {
            let mut ranges = ranges.into_iter();
            let is_in = ranges.any(|(first, bits)| lies_in(number, first, bits, 32));
            let address = Ipv4Addr::from(number as u32);
            assert_eq!(is_global(address.into()), !is_in, "{address}");
        }
    }
}

#[test]
fn addresses_of_version_6_outside_the_ranges_are_global() {
    let ranges = VERSION_6.map(|(first, bits)| {
        let first: Ipv6Addr = first.parse().unwrap();
        (u128::from(first), bits)
    });
    for (first, bits) in ranges {
        for number in edges(first, bits, 128) {
            let mut ranges = ranges.into_iter();
            let is_in = ranges.any(|(first, bits)| lies_in(number, first, bits, 128));
            let address = Ipv6Addr::from(number);
            assert_eq!(is_global(address.into()), !is_in, "{address}");
        }
    }
}

// The results for (private, names) = (false, false), (false, true), (true, false), (true, true).
fn validity(ingress: &Ingress) -> [bool; 4] {
    [(false, false), (false, true), (true, false), (true, true)]
        .map(|(private, names)| ingress.is_valid(private, names))
}

#[test]
fn an_ingress_is_valid_by_its_address_or_as_a_name() {
    let parsed = |text: &str| text.parse::<Ingress>().unwrap();
    assert_eq!(validity(&parsed("100.128.0.0:8080")), [true; 4]);
    let private = [false, false, true, true];
    assert_eq!(validity(&parsed("100.127.255.255:8080")), private);
    assert_eq!(validity(&parsed("[fe80::1]:8080")), private);
    assert_eq!(validity(&parsed("[2600::1]:8080")), [true; 4]);
    let named = [false, true, false, true];
    assert_eq!(validity(&parsed("example.com:8080")), named);
    let host = Hostname::new("a").unwrap();
    assert_eq!(validity(&Ingress::Dns { host, port: 0 }), named);
}

#[test]
fn what_a_name_resolves_to_is_judged_by_its_address() {
    let resolved: [IpAddr; 3] = [[8, 8, 8, 8], [10, 0, 0, 1], [127, 0, 0, 1]].map(IpAddr::from);
    let mut dialled = resolved.into_iter().filter(|address| is_global(*address));
    assert_eq!(dialled.next(), Some(resolved[0]));
    assert_eq!(dialled.next(), None);
}
