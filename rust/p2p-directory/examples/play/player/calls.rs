//! The commands, and calls of one node, or of two.

use super::Named;
use super::fault::Fault;
use super::printed::{
    bit_vec, data, dialable, hexadecimal, info, infos, ingress, keys, option, or_none, tracked,
    update,
};
use super::usage::{Usage, nearest};
use super::words::Words;
use p2p_directory::sized::testing::verify;
use p2p_directory::sized::{Pair, Payload, Received, Reservation};
use p2p_directory::{Data, Moment, OutOfMemory, PayloadConfig};

/// The reply to a call.
pub type Reply = Result<String, OutOfMemory>;

/// A call with its arguments.
pub type Call<P> = Box<dyn FnOnce(&mut Named<P>) -> Reply>;

const ALL: PayloadConfig = PayloadConfig {
    max_bit_vec: u64::MAX,
    max_peers: usize::MAX,
    max_data_length: usize::MAX,
};

const COMMANDS: [Usage; 33] = [
    Usage("node", "NAME [KEY=VALUE ..]"),
    Usage("track", "I LIST [/ LIST]"),
    Usage("dial", "P T [DRAW]"),
    Usage("listen", "P T [DRAW]"),
    Usage("connect", "P BOOL"),
    Usage("release", "P"),
    Usage("update", "INFOS"),
    Usage("block", "P T"),
    Usage("unblock_expired", "T"),
    Usage("forget_cooled", "T"),
    Usage("next_unblock", ""),
    Usage("blocked_peers", "T"),
    Usage("get_peer_set", "I"),
    Usage("latest_update", ""),
    Usage("latest_set_index", ""),
    Usage("all", ""),
    Usage("status", "P"),
    Usage("info", "P"),
    Usage("ingress", "P"),
    Usage("infos", "I BITS T"),
    Usage("bits", "PLACE"),
    Usage("eligible", "P T"),
    Usage("acceptable", "P T"),
    Usage("may_listen", "P T"),
    Usage("dialable", "T"),
    Usage("tracked", ""),
    Usage("ask", "PLACE"),
    Usage("receive", "HEX T"),
    Usage("exchange", "OTHER PLACE ASKER_T REPLIER_T"),
    Usage("decode", "KIND HEX"),
    Usage("recode", "KIND HEX"),
    Usage("frame", "FORM"),
    Usage("=", "TEXT"),
];

/// The command of this name.
pub fn command_of(name: &str) -> Option<Usage> {
    COMMANDS.into_iter().find(|usage| usage.0 == name)
}

/// The command that is nearest to the word.
pub fn nearest_command(word: &str) -> &'static str {
    nearest(word, COMMANDS.iter().map(|usage| usage.0))
}

/// Parses the arguments of the call of this name. Infos are signed in the namespace.
pub fn parsed<P: Pair>(
    name: &str,
    words: &mut Words<'_, P>,
    namespace: &[u8],
) -> Result<Call<P>, Fault> {
    match name {
        "track" | "get_peer_set" | "latest_update" | "latest_set_index" | "all" => {
            sets(name, words)
        }
        "dial" | "listen" | "connect" | "release" => reservations(name, words),
        "block" | "unblock_expired" | "next_unblock" | "blocked_peers" => blocks(name, words),
        "update" | "info" | "ingress" | "infos" | "bits" => knowledge(name, words, namespace),
        "ask" | "receive" => frames(name, words),
        _ => others(name, words),
    }
}

fn sets<P: Pair>(name: &str, words: &mut Words<'_, P>) -> Result<Call<P>, Fault> {
    Ok(match name {
        "track" => {
            let (index, peers) = (words.number()?, words.tracked()?);
            Box::new(move |named| {
                let torn = named.directory().track(index, &peers)?.accepted();
                Ok(option(torn.map(|torn| keys::<P>(&torn))))
            })
        }
        "get_peer_set" => {
            let index = words.number()?;
            Box::new(move |named| {
                let set = named.directory().get_peer_set(index)?;
                Ok(option(set.map(|set| tracked(&set))))
            })
        }
        "latest_update" => Box::new(|named| {
            let latest = named.directory().latest_update()?;
            Ok(option(latest.map(|latest| update(&latest))))
        }),
        "latest_set_index" => Box::new(|named| Ok(option(named.directory().latest_set_index()))),
        _ => Box::new(|named| Ok(tracked(&named.directory().all()?))),
    })
}

fn reservations<P: Pair>(name: &str, words: &mut Words<'_, P>) -> Result<Call<P>, Fault> {
    let peer = words.peer()?;
    Ok(match name {
        "dial" => {
            let (now, draw) = (words.moment()?, words.draw()?);
            Box::new(move |named| {
                let granted = named.directory().dial(&peer, now, draw)?;
                Ok(named.keep(granted))
            })
        }
        "listen" => {
            let (now, draw) = (words.moment()?, words.draw()?);
            Box::new(move |named| {
                let granted = named.directory().listen(&peer, now, draw)?;
                Ok(named.keep(granted))
            })
        }
        "connect" => {
            let is_dialer = words.truth()?;
            Box::new(move |named| {
                let connected = named.directory().connect(&peer, is_dialer);
                Ok(connected.map_or("NotReserved", |()| "done").to_owned())
            })
        }
        _ => Box::new(move |named| {
            let Some(reservation) = named.held.remove(&peer) else {
                return Ok("NotHeld".to_owned());
            };
            let released = named.directory().release(reservation);
            released.expect("the reservation is of this directory");
            Ok("done".to_owned())
        }),
    })
}

impl<P: Pair> Named<P> {
    fn keep(&mut self, granted: Option<Reservation<P>>) -> String {
        let Some(reservation) = granted else {
            return "refused".to_owned();
        };
        self.held.insert(*reservation.public_key(), reservation);
        "granted".to_owned()
    }
}

fn blocks<P: Pair>(name: &str, words: &mut Words<'_, P>) -> Result<Call<P>, Fault> {
    Ok(match name {
        "block" => {
            let (peer, now) = (words.peer()?, words.moment()?);
            Box::new(move |named| Ok(named.directory().block(&peer, now)?.to_string()))
        }
        "unblock_expired" => {
            let now = words.moment()?;
            Box::new(move |named| Ok(named.directory().unblock_expired(now).to_string()))
        }
        "blocked_peers" => {
            let now = words.moment()?;
            Box::new(move |named| Ok(keys::<P>(&named.directory().blocked_peers(now)?)))
        }
        _ => Box::new(|named| Ok(option(named.directory().next_unblock()))),
    })
}

fn knowledge<P: Pair>(
    name: &str,
    words: &mut Words<'_, P>,
    namespace: &[u8],
) -> Result<Call<P>, Fault> {
    Ok(match name {
        "update" => {
            let news = words.infos(namespace)?;
            Box::new(move |named| {
                named.directory().update_peers(&news)?;
                Ok("done".to_owned())
            })
        }
        "info" => {
            let peer = words.peer()?;
            Box::new(move |named| {
                let known = named.directory().info(&peer)?;
                Ok(or_none(known.map(|known| info(&known))))
            })
        }
        "ingress" => {
            let peer = words.peer()?;
            Box::new(move |named| {
                let held = named.directory().ingress(&peer)?;
                Ok(or_none(held.map(|held| ingress(&held))))
            })
        }
        "infos" => {
            let (bits, now) = (words.bit_vec()?, words.moment()?);
            Box::new(move |named| {
                let shared = named.directory().infos(&bits, now)?;
                Ok(option(shared.map(|shared| infos(&shared))))
            })
        }
        _ => {
            let place = words.size()?;
            Box::new(move |named| {
                let bits = named.directory().get_random_bit_vec(place)?;
                Ok(or_none(bits.map(|bits| bit_vec(&bits))))
            })
        }
    })
}

fn frames<P: Pair>(name: &str, words: &mut Words<'_, P>) -> Result<Call<P>, Fault> {
    Ok(match name {
        "ask" => {
            let place = words.size()?;
            Box::new(move |named| {
                let frame = named.node.ask(place)?;
                Ok(or_none(frame.map(|frame| hexadecimal(&frame))))
            })
        }
        _ => {
            let (frame, now) = (words.bytes()?, words.moment()?);
            Box::new(move |named| Ok(received(&frame, named.node.receive(&frame, now, verify))))
        }
    })
}

// The result of a frame.
fn received<P: Pair>(frame: &[u8], received: Received<P>) -> String {
    match received {
        Received::Data { channel, message } => {
            let message = frame[message].to_vec();
            format!("Data({})", data(&Data { channel, message }))
        }
        Received::Greeted(_) => "Greeted".to_owned(),
        Received::Reply(frame) => format!("Reply({})", hexadecimal(&frame)),
        other => format!("{other:?}"),
    }
}

fn others<P: Pair>(name: &str, words: &mut Words<'_, P>) -> Result<Call<P>, Fault> {
    Ok(match name {
        "status" => {
            let peer = words.peer()?;
            Box::new(move |named| {
                let status = named.directory().status(&peer);
                Ok(or_none(status.map(|status| format!("{status:?}"))))
            })
        }
        "eligible" => {
            let (peer, now) = (words.peer()?, words.moment()?);
            Box::new(move |named| Ok(named.directory().eligible(&peer, now).to_string()))
        }
        "acceptable" => {
            let (peer, now) = (words.peer()?, words.moment()?);
            Box::new(move |named| Ok(named.directory().acceptable(&peer, now).to_string()))
        }
        "may_listen" => {
            let (peer, now) = (words.peer()?, words.moment()?);
            Box::new(move |named| Ok(named.directory().may_listen(&peer, now).to_string()))
        }
        "dialable" => {
            let now = words.moment()?;
            Box::new(move |named| Ok(dialable(&named.directory().dialable(now)?)))
        }
        "forget_cooled" => {
            let now = words.moment()?;
            Box::new(move |named| Ok(named.directory().forget_cooled(now).to_string()))
        }
        "tracked" => Box::new(|named| Ok(named.directory().tracked().to_string())),
        _ => return Err(Fault::unknown("command", nearest_command(name))),
    })
}

/// The result of an exchange, in which one node asks another for its wanted infos of the set at a
/// position.
pub fn exchanged<P: Pair>(
    asker: &mut Named<P>,
    replier: &mut Named<P>,
    place: usize,
    asker_now: Moment,
    replier_now: Moment,
) -> Reply {
    let Some(frame) = asker.node.ask(place)? else {
        return Ok("NoSet".to_owned());
    };
    let reply = match replier.node.receive(&frame, replier_now, verify) {
        Received::Reply(reply) => reply,
        Received::Codec(fault) => return Ok(format!("AskRefused({fault:?})")),
        other => return Ok(received(&frame, other)),
    };
    Ok(match asker.node.receive(&reply, asker_now, verify) {
        Received::Applied(_) => match Payload::<P>::decode(&reply, &ALL) {
            Ok(Payload::Peers(peers)) => format!("Applied({})", infos(&peers)),
            other => format!("{other:?}"),
        },
        Received::Codec(fault) => format!("ReplyRefused({fault:?})"),
        other => received(&reply, other),
    })
}
