//! Recorded calls as a script of `play`.

use crate::fields::{Fields, NO_LIMITS, Outcome, infos};
use crate::player::printed::{bit_vec, hexadecimal, info, infos as printed_infos, ingress, keys};
use crate::player::printed::{option, or_none};
use crate::player::{key, signed};
use p2p_directory::record::{Argument, Call, Log};
use p2p_directory::sized::{Bytes, Info, Pair, Payload, Setup};
use p2p_directory::{BitVec, Ingress, Moment, PayloadConfig};
use p2p_directory_sys as exports;
use std::collections::{BTreeMap, BTreeSet};
use std::time::Duration;

/// The namespace of nodes of `play` whose settings have none.
const NAMESPACE: &[u8] = b"rows";

/// The length of the longest line that `play` reads, in bytes.
const LONGEST_LINE: usize = 1 << 20;

/// The lines of a script: each call of the log that `play` has a command for, and its reply.
pub struct Script<P: Pair> {
    numbers: BTreeMap<P::Key, u64>,
    limits: PayloadConfig,
    lines: Vec<String>,
    without_command: u64,
}

impl<P: Pair> Script<P> {
    pub fn of(log: &Log) -> Outcome<Script<P>> {
        let mut all = BTreeSet::new();
        for call in log.calls() {
            all.extend(keys_of::<P>(&call)?);
        }
        let mut script = Script {
            numbers: all.into_iter().zip(1..).collect(),
            limits: NO_LIMITS,
            lines: Vec::new(),
            without_command: 0,
        };
        for call in log.calls() {
            if !call.answer.is_out_of_memory() {
                script.add(&call)?;
            }
        }
        Ok(script)
    }

    pub fn lines(&self) -> &[String] {
        &self.lines
    }

    /// How many calls of the log `play` has no command for, so that the script lacks them.
    pub fn without_command(&self) -> u64 {
        self.without_command
    }

    // Appends the command of a call and its reply, if there is a command.
    fn add(&mut self, call: &Call<'_>) -> Outcome<()> {
        let fields = Fields::<P>::of(call);
        let told = match call.name() {
            "init" => {
                let setup = fields.setup()?;
                self.limits = setup.payload;
                Some((
                    format!("node recorded {}", self.settings(&setup)),
                    "ready".into(),
                ))
            }
            "receive" => Some(self.received(&fields)?),
            name => match self.changed(name, &fields)? {
                Some(told) => Some(told),
                None => self.asked(name, &fields)?,
            },
        };
        let lines = told.map(|(command, reply)| [command, format!("= {reply}")]);
        match lines {
            Some(lines) if !is_long_message(call, &lines) => self.lines.extend(lines),
            _ => self.without_command += 1,
        }
        Ok(())
    }

    fn number(&self, key: &P::Key) -> u64 {
        self.numbers[key]
    }

    // The key that `play` has for the number of a key.
    fn numbered(&self, of: &P::Key) -> P::Key {
        key::<P>(self.number(of))
    }

    fn all_numbered(&self, bytes: &[u8]) -> Vec<P::Key> {
        let keys = bytes.chunks_exact(P::KEY_SIZE);
        let keys = keys.filter_map(P::Key::of_bytes);
        keys.map(|key| self.numbered(&key)).collect()
    }

    // The info with the numbered key, signed anew.
    fn signed(&self, info: &Info<P>) -> Info<P> {
        let key = self.numbered(&info.public_key);
        signed(key, NAMESPACE, info.ingress.clone(), info.timestamp)
    }

    fn all_signed(&self, all: &[Info<P>]) -> Vec<Info<P>> {
        all.iter().map(|info| self.signed(info)).collect()
    }

    fn settings(&self, setup: &Setup<P>) -> String {
        let boot = setup.bootstrappers.iter();
        let boot = boot.map(|(key, at)| format!("{}@{}", self.number(key), ingress(at)));
        let boot = listed(boot.collect());
        let (cfg, payload, own) = (&setup.cfg, &setup.payload, &setup.myself);
        format!(
            "max_sets={} dial_fail_limit={} cooldown={} block={} private={} dns={} own={} own_at={} own_ts={} boot={boot} \
             max_bit_vec={} max_peers={} max_data_length={} gossip={} bound={}",
            cfg.max_sets,
            cfg.dial_fail_limit,
            time(cfg.peer_connection_cooldown),
            time(cfg.block_duration),
            cfg.allow_private_ips,
            cfg.allow_dns,
            self.number(&own.public_key),
            ingress(&own.ingress),
            own.timestamp,
            payload.max_bit_vec,
            payload.max_peers,
            payload.max_data_length,
            setup.peer_gossip_max_count,
            time(setup.synchrony_bound)
        )
    }

    fn changed(&self, name: &str, fields: &Fields<'_, '_, P>) -> Outcome<Option<(String, String)>> {
        let answer = &fields.call.answer;
        let truth = || (answer.number == 1).to_string();
        Ok(Some(match name {
            "track" => {
                let sets = ["primary", "secondary"].map(|role| fields.keys(role));
                let [primary, secondary] = sets;
                let lists = (self.list(&primary?), self.list(&secondary?));
                let torn = self.given(fields, |bytes| keys::<P>(&self.all_numbered(bytes)));
                let index = fields.number("index")?;
                (
                    format!("track {index} {} / {}", lists.0, lists.1),
                    option(torn),
                )
            }
            "dial" | "listen" => {
                let (now, draw) = (fields.now()?, time(fields.duration("draw_")?));
                let granted = if answer.number == 1 {
                    "granted"
                } else {
                    "refused"
                };
                (
                    format!("{name} {} {now} {draw}", self.peer(fields)?),
                    granted.into(),
                )
            }
            "connect" => {
                let command = format!("connect {} {}", self.peer(fields)?, fields.flag("dialer")?);
                (command, done(answer.number, "NotReserved"))
            }
            "release" => (
                format!("release {}", self.peer(fields)?),
                done(answer.number, "NotHeld"),
            ),
            "update_peers" => {
                let all = fields.infos()?;
                let words = all.iter().map(|info| {
                    let number = self.number(&info.public_key);
                    format!("{number}@{}@{}", info.timestamp, ingress(&info.ingress))
                });
                (format!("update {}", listed(words.collect())), "done".into())
            }
            "block" => (
                format!("block {} {}", self.peer(fields)?, fields.now()?),
                truth(),
            ),
            "unblock_expired" => (format!("unblock_expired {}", fields.now()?), truth()),
            "forget_cooled" => (
                format!("forget_cooled {}", fields.now()?),
                answer.number.to_string(),
            ),
            _ => return Ok(None),
        }))
    }

    fn asked(&self, name: &str, fields: &Fields<'_, '_, P>) -> Outcome<Option<(String, String)>> {
        let answer = &fields.call.answer;
        // A buffer that was too short is asked with once more.
        if answer.number != exports::NONE && answer.bytes.len() as u64 != answer.number {
            match name {
                "status" | "eligible" | "acceptable" | "may_listen" | "tracked" => {}
                _ => return Ok(None),
            }
        }
        Ok(Some(match name {
            "status" => {
                let states = ["Inert", "Reserved", "Active"];
                let state = states.get(usize::try_from(answer.number)?);
                (format!("status {}", self.peer(fields)?), or_none(state))
            }
            "eligible" | "acceptable" | "may_listen" => {
                let command = format!("{name} {} {}", self.peer(fields)?, fields.now()?);
                (command, (answer.number == 1).to_string())
            }
            "tracked" => ("tracked".into(), answer.number.to_string()),
            "next_unblock" => ("next_unblock".into(), option(self.given(fields, moment))),
            "blocked_peers" => {
                let blocked = keys::<P>(&self.all_numbered(&answer.bytes));
                (format!("blocked_peers {}", fields.now()?), blocked)
            }
            "dialable" => (
                format!("dialable {}", fields.now()?),
                self.dialable(&answer.bytes),
            ),
            "info" => {
                let known = self.given(fields, |bytes| Info::<P>::decode(bytes).ok());
                let known = known.flatten().map(|known| info(&self.signed(&known)));
                (format!("info {}", self.peer(fields)?), or_none(known))
            }
            "ingress" => {
                let held = self.given(fields, |bytes| Ingress::decode(bytes).ok());
                let held = held.flatten().map(|held| ingress(&held));
                (format!("ingress {}", self.peer(fields)?), or_none(held))
            }
            "infos" => {
                let BitVec { index, bits } = fields.bit_vec()?;
                let shared = self.given(fields, |bytes| infos::<P>(bytes).unwrap_or_default());
                let shared = shared.map(|all| printed_infos(&self.all_signed(&all)));
                let command = format!("infos {index} {} {}", digits(bits), fields.now()?);
                (command, option(shared))
            }
            "get_random_bit_vec" => {
                let command = format!("bits {}", fields.number("place")?);
                let bits = self.given(fields, |bytes| {
                    let frame = [&[2][..], bytes].concat();
                    match Payload::<P>::decode(&frame, &NO_LIMITS) {
                        Ok(Payload::BitVec(bits)) => bit_vec(&bits),
                        other => format!("{other:?}"),
                    }
                });
                (command, or_none(bits))
            }
            "ask" => {
                let frame = self.given(fields, hexadecimal);
                (format!("ask {}", fields.number("place")?), or_none(frame))
            }
            _ => return Ok(None),
        }))
    }

    // The frame with numbered keys and new signatures, bad ones where the verdict was bad.
    fn received(&self, fields: &Fields<'_, '_, P>) -> Outcome<(String, String)> {
        let (frame, verdicts) = (fields.bytes("frame")?, fields.bytes("verdicts")?);
        let judged = |all: &[Info<P>]| -> Vec<Info<P>> {
            let places = all.iter().enumerate();
            let signed = places.map(|(place, info)| {
                let mut info = self.signed(info);
                if verdicts.get(place).is_none_or(|byte| *byte == 0) {
                    let wrong = P::Signature::of_bytes(&vec![1; P::SIGNATURE_SIZE]);
                    info.signature = wrong.expect("bytes of a signature");
                }
                info
            });
            signed.collect()
        };
        let frame = match Payload::decode(&frame, &self.limits) {
            Ok(Payload::Greeting(info)) => {
                let mut one = judged(&[info]);
                one.pop()
                    .map_or_else(Vec::new, |info| Payload::Greeting(info).encode())
            }
            Ok(Payload::Peers(all)) => Payload::Peers(judged(&all)).encode(),
            Ok(Payload::Data(_) | Payload::BitVec(_)) | Err(_) => frame.to_vec(),
        };
        let reply = self.outcome(&frame, &fields.call.answer.bytes)?;
        Ok((
            format!("receive {} {}", hexadecimal(&frame), fields.now()?),
            reply,
        ))
    }

    // What `play` replies to a frame with this outcome.
    fn outcome(&self, frame: &[u8], told: &[u8]) -> Outcome<String> {
        let (kind, rest) = told.split_first().ok_or("receive has no outcome")?;
        let number = |at: usize| -> Outcome<u64> {
            let bytes = rest.get(at..at + 8).ok_or("an outcome is too short")?;
            Ok(u64::from_be_bytes(bytes.try_into()?))
        };
        Ok(match kind {
            0 => {
                let length = usize::try_from(number(8)?)?;
                let message = &frame[frame.len() - length..];
                format!("Data(Data({}, {}))", number(0)?, hexadecimal(message))
            }
            1 => "Greeted".into(),
            2 => match Payload::<P>::decode(rest, &NO_LIMITS)? {
                Payload::Peers(all) => {
                    let reply = Payload::Peers(self.all_signed(&all)).encode();
                    format!("Reply({})", hexadecimal(&reply))
                }
                other => return Err(format!("{other:?} is no reply").into()),
            },
            3 => format!("Applied({})", number(0)?),
            4 => match Payload::<P>::decode(frame, &self.limits) {
                Err(error) => format!("Codec({error:?})"),
                Ok(_) => return Err("a frame that decodes is told as none".into()),
            },
            5 => "Malformed".into(),
            6 => match rest.first() {
                Some(0) => format!(
                    "Invalid(TooManyPeers({}))",
                    u64::from_be_bytes(rest[1..9].try_into()?)
                ),
                Some(1) => "Invalid(ReceivedSelf)".into(),
                Some(2) => "Invalid(InvalidSignature)".into(),
                Some(3) => "Invalid(SynchronyBound)".into(),
                _ => return Err("an outcome has no reason".into()),
            },
            other => return Err(format!("there is no outcome {other}").into()),
        })
    }

    fn peer(&self, fields: &Fields<'_, '_, P>) -> Outcome<u64> {
        Ok(self.number(&fields.peer()?))
    }

    fn list(&self, keys: &[P::Key]) -> String {
        listed(
            keys.iter()
                .map(|key| self.number(key).to_string())
                .collect(),
        )
    }

    // What the bytes of an answer stand for, or `None` if there is none.
    fn given<T>(&self, fields: &Fields<'_, '_, P>, read: impl FnOnce(&[u8]) -> T) -> Option<T> {
        let answer = &fields.call.answer;
        (answer.number != exports::NONE).then(|| read(&answer.bytes))
    }

    fn dialable(&self, bytes: &[u8]) -> String {
        let (next, peers) = match bytes.split_first() {
            Some((1, rest)) => (Some(moment(rest)), rest.get(12..).unwrap_or_default()),
            Some((_, rest)) => (None, rest),
            None => (None, &[][..]),
        };
        format!("{} {}", keys::<P>(&self.all_numbered(peers)), option(next))
    }
}

// Whether the lines of a message are longer than `play` reads. A message changes nothing, so the
// script does without it.
fn is_long_message(call: &Call<'_>, lines: &[String]) -> bool {
    let is_message = matches!(call.argument("frame"), Some(Argument::Message { .. }));
    is_message && lines.iter().any(|line| line.len() > LONGEST_LINE)
}

// All keys of a call, those of infos in frames that decode among them.
fn keys_of<P: Pair>(call: &Call<'_>) -> Outcome<Vec<P::Key>> {
    let fields = Fields::<P>::of(call);
    let named = |all: Vec<Info<P>>| all.into_iter().map(|info| info.public_key).collect();
    Ok(match call.name() {
        "init" => {
            let setup = fields.setup()?;
            let boot = setup.bootstrappers.into_iter().map(|(key, _)| key);
            boot.chain([setup.myself.public_key]).collect()
        }
        "track" => [fields.keys("primary")?, fields.keys("secondary")?].concat(),
        "update_peers" => named(fields.infos()?),
        "receive" => match Payload::decode(&fields.bytes("frame")?, &NO_LIMITS) {
            Ok(Payload::Greeting(info)) => vec![info.public_key],
            Ok(Payload::Peers(all)) => named(all),
            Ok(Payload::Data(_) | Payload::BitVec(_)) | Err(_) => Vec::new(),
        },
        _ if call.argument("peer").is_some() => vec![fields.peer()?],
        _ => Vec::new(),
    })
}

fn listed(words: Vec<String>) -> String {
    match words.is_empty() {
        true => "-".into(),
        false => words.join(","),
    }
}

fn digits(bits: Vec<bool>) -> String {
    match bits.is_empty() {
        true => "-".into(),
        false => bits
            .into_iter()
            .map(|bit| if bit { '1' } else { '0' })
            .collect(),
    }
}

fn done(number: u64, refused: &str) -> String {
    if number == 1 { "done" } else { refused }.into()
}

fn time(duration: Duration) -> String {
    Moment::from(duration).to_string()
}

// The time in twelve bytes, as it is printed.
fn moment(bytes: &[u8]) -> String {
    let (seconds, rest) = bytes.split_first_chunk().unwrap_or((&[0; 8], &[]));
    let nanos = rest.first_chunk().unwrap_or(&[0; 4]);
    time(Duration::new(
        u64::from_be_bytes(*seconds),
        u32::from_be_bytes(*nanos),
    ))
}
