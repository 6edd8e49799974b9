//! Recorded calls, answered by the model.

use super::fields::{Fields, Outcome, key_bytes, moment_bytes, set_bytes};
use super::model::Model;
use p2p_directory::record::{Answer, Call};
use p2p_directory::sized::{Info, Metadata, Pair, Payload, Received};
use p2p_directory::{CodecError, Error, Moment, PayloadConfig, Status, What};
use p2p_directory_sys as exports;

/// The model, and the limits of its node.
pub struct Modelled<P: Pair> {
    node: Option<(Model<P>, PayloadConfig)>,
}

/// What the model answers: a number alone, bytes, or that there is none.
enum Told {
    Number(u64),
    Bytes(Vec<u8>),
    Absent,
}

impl Told {
    fn of_option(bytes: Option<Vec<u8>>) -> Told {
        bytes.map_or(Told::Absent, Told::Bytes)
    }

    fn truth(is_true: bool) -> Told {
        Told::Number(u64::from(is_true))
    }

    // The answer, of whose bytes none are written if the buffer is too short.
    fn answer(self, room: Option<u64>) -> Answer {
        match self {
            Told::Number(number) => Answer::new(number, Vec::new()),
            Told::Absent => Answer::new(exports::NONE, Vec::new()),
            Told::Bytes(bytes) => {
                let length = bytes.len() as u64;
                let is_written = room.is_some_and(|room| length <= room);
                Answer::new(length, if is_written { bytes } else { Vec::new() })
            }
        }
    }
}

impl<P: Pair> Modelled<P> {
    pub fn new() -> Modelled<P> {
        Modelled { node: None }
    }

    /// What the model answers to a recorded call.
    pub fn answer(&mut self, call: &Call<'_>) -> Outcome<Answer> {
        let fields = Fields::of(call);
        if call.name() == "init" {
            let setup = fields.setup()?;
            let limits = setup.payload;
            self.node = Some((Model::new(setup), limits));
            return Ok(Answer::new(1, Vec::new()));
        }
        let (model, limits) = self.node.as_mut().ok_or("there is no node yet")?;
        let told = match call.name() {
            "check" => checked(model, limits, &fields)?,
            "receive" => received(model, limits, &fields)?,
            name => match changed(model, name, &fields)? {
                Some(told) => told,
                None => asked(model, name, &fields)?,
            },
        };
        Ok(told.answer(call.room()))
    }
}

// What a call answers that may change the node, or `None` if it is another call.
fn changed<P: Pair>(
    model: &mut Model<P>,
    name: &str,
    fields: &Fields<'_, '_, P>,
) -> Outcome<Option<Told>> {
    Ok(Some(match name {
        "track" => {
            let index = fields.number("index")?;
            let (primary, secondary) = (fields.keys("primary")?, fields.keys("secondary")?);
            let torn = model.track(index, &primary, &secondary);
            Told::of_option(torn.map(|torn| key_bytes(&torn)))
        }
        "dial" | "listen" => {
            let (peer, draw) = (fields.peer()?, fields.duration("draw_")?);
            let granted = model.grant(&peer, fields.now()?, draw, name == "dial");
            Told::truth(granted.is_some())
        }
        "connect" => match model.connect(&fields.peer()?, fields.flag("dialer")?) {
            true => Told::Number(1),
            false => Told::Number(exports::NOT_RESERVED),
        },
        "release" => match model.release(&fields.peer()?) {
            true => Told::Number(1),
            false => Told::Number(exports::NOT_HELD),
        },
        "update_peers" => {
            model.update(&fields.infos()?);
            Told::Number(1)
        }
        "block" => Told::truth(model.block(&fields.peer()?, fields.now()?)),
        "unblock_expired" => Told::truth(model.unblock_expired(fields.now()?)),
        "forget_cooled" => Told::Number(model.forget_cooled(fields.now()?) as u64),
        _ => return Ok(None),
    }))
}

fn asked<P: Pair>(model: &Model<P>, name: &str, fields: &Fields<'_, '_, P>) -> Outcome<Told> {
    Ok(match name {
        "track_room" => Told::Number((model.tracked() * P::KEY_SIZE) as u64),
        "tracked" => Told::Number(model.tracked() as u64),
        "retained" => Told::Number(model.retained().len() as u64),
        "reservation" => Told::of_option(model.metadata(&fields.peer()?).map(|held| match held {
            Metadata::Dialer(_, ingress) => [&[1][..], &ingress.encode()].concat(),
            _ => vec![0],
        })),
        "status" => status(model, fields)?,
        "eligible" => Told::truth(model.is_eligible(&fields.peer()?, fields.now()?)),
        "acceptable" => Told::truth(model.is_acceptable(&fields.peer()?, fields.now()?)),
        "may_listen" => Told::truth(model.may_listen(&fields.peer()?, fields.now()?)),
        "next_unblock" => Told::of_option(model.next_unblock().map(moment_bytes)),
        "next_cooled" => Told::of_option(model.next_cooled().map(moment_bytes)),
        "blocked_peers" => Told::Bytes(key_bytes(&model.blocked_peers(fields.now()?))),
        "dialable" => Told::Bytes(dialable(model, fields.now()?)),
        "info" => Told::of_option(model.sharable(&fields.peer()?).map(|info| info.encode())),
        "ingress" => Told::of_option(model.ingress(&fields.peer()?).map(|held| held.encode())),
        "infos" => {
            let infos = model.infos(&fields.bit_vec()?, fields.now()?);
            Told::of_option(infos.map(|infos| untagged(Payload::Peers(infos))))
        }
        "get_random_bit_vec" => {
            let bits = model.bits(fields.size("place")?);
            Told::of_option(bits.map(|bits| untagged(Payload::<P>::BitVec(bits))))
        }
        "ask" => {
            let bits = model.bits(fields.size("place")?);
            Told::of_option(bits.map(|bits| Payload::<P>::BitVec(bits).encode()))
        }
        name => sets(model, name, fields)?,
    })
}

fn sets<P: Pair>(model: &Model<P>, name: &str, fields: &Fields<'_, '_, P>) -> Outcome<Told> {
    Ok(match name {
        "get_peer_set" => {
            let place = model.set_of(fields.number("index")?);
            Told::of_option(place.map(|place| set_bytes(&model.set_at(place))))
        }
        "latest_set_index" => {
            let latest = model.latest_update();
            Told::of_option(latest.map(|(index, _, _)| index.to_be_bytes().to_vec()))
        }
        "latest_update" => Told::of_option(model.latest_update().map(|(index, latest, all)| {
            let lengths = [&latest.primary, &latest.secondary, &all.primary];
            let numbers = [index]
                .into_iter()
                .chain(lengths.map(|set| set.len() as u64));
            let mut bytes: Vec<u8> = numbers.flat_map(u64::to_be_bytes).collect();
            for set in [
                &latest.primary,
                &latest.secondary,
                &all.primary,
                &all.secondary,
            ] {
                bytes.extend(key_bytes(set));
            }
            bytes
        })),
        "all" => Told::Bytes(set_bytes(&model.all())),
        other => return Err(format!("the model has no {other}").into()),
    })
}

fn status<P: Pair>(model: &Model<P>, fields: &Fields<'_, '_, P>) -> Outcome<Told> {
    let peer = fields.peer()?;
    if !model.is_present(&peer) {
        return Ok(Told::Absent);
    }
    Ok(Told::Number(match model.status(&peer) {
        Status::Inert => 0,
        Status::Reserved => 1,
        _ => 2,
    }))
}

fn dialable<P: Pair>(model: &Model<P>, now: Moment) -> Vec<u8> {
    let (peers, next) = model.dialable(now);
    let mut bytes = match next {
        Some(next) => [&[1][..], &moment_bytes(next)].concat(),
        None => vec![0],
    };
    for peer in peers {
        bytes.extend(peer.as_ref());
    }
    bytes
}

// The encoding of a payload without its first byte.
fn untagged<P: Pair>(payload: Payload<P>) -> Vec<u8> {
    payload.encode().split_off(1)
}

// The infos of a frame, if it decodes.
fn infos_of<P: Pair>(frame: &[u8], limits: &PayloadConfig) -> Result<Vec<Info<P>>, CodecError> {
    Ok(match Payload::decode(frame, limits)? {
        Payload::Greeting(info) => vec![info],
        Payload::Peers(infos) => infos,
        Payload::Data(_) | Payload::BitVec(_) => Vec::new(),
    })
}

// The signatures to verify: each that decides, up to the first info that is refused without.
fn checked<P: Pair>(
    model: &Model<P>,
    limits: &PayloadConfig,
    fields: &Fields<'_, '_, P>,
) -> Outcome<Told> {
    let (frame, now) = (fields.bytes("frame")?, fields.now()?);
    let infos = infos_of(&frame, limits).unwrap_or_default();
    let mut told = (infos.len() as u64).to_be_bytes().to_vec();
    let is_list = frame.first() == Some(&3);
    if is_list && model.all_judged(&infos, now, &|_, _| true) == Err(too_many(&infos)) {
        return Ok(Told::Bytes(told));
    }
    for info in infos {
        if model.judged(0, &info, now, &|_, _| true).is_err() {
            break;
        }
        let signed = info.signed_bytes();
        told.extend((signed.len() as u64).to_be_bytes());
        told.extend(info.public_key.as_ref());
        told.extend(signed);
        told.extend(info.signature.as_ref());
    }
    Ok(Told::Bytes(told))
}

fn too_many<P: Pair>(infos: &[Info<P>]) -> Error {
    Error::TooManyPeers(infos.len() as u64)
}

fn received<P: Pair>(
    model: &mut Model<P>,
    limits: &PayloadConfig,
    fields: &Fields<'_, '_, P>,
) -> Outcome<Told> {
    let (frame, now) = (fields.bytes("frame")?, fields.now()?);
    let verdicts = fields.bytes("verdicts")?;
    let payload = match Payload::decode(&frame, limits) {
        Ok(payload) => payload,
        Err(error) => return Ok(Told::Bytes([&[4][..], &codec_error(error)?].concat())),
    };
    let is_valid = |place: usize, _: &Info<P>| verdicts.get(place).is_some_and(|byte| *byte != 0);
    let frame = payload.encode();
    Ok(Told::Bytes(match model.receive(&payload, now, &is_valid) {
        Received::Data { channel, message } => {
            let length = (frame[message].len() as u64).to_be_bytes();
            [&[0][..], &channel.to_be_bytes(), &length].concat()
        }
        Received::Greeted(key) => [&[1][..], key.as_ref()].concat(),
        Received::Reply(reply) => [&[2][..], &reply].concat(),
        Received::Applied(count) => [&[3][..], &(count as u64).to_be_bytes()].concat(),
        Received::Codec(error) => [&[4][..], &codec_error(error)?].concat(),
        Received::Malformed => vec![5],
        Received::Invalid(error) => [&[6][..], &reason(error)?].concat(),
        other => return Err(format!("the model answers {other:?}").into()),
    }))
}

fn codec_error(error: CodecError) -> Outcome<Vec<u8>> {
    let numbered = |tag: u8, number: u64| [&[tag][..], &number.to_be_bytes()].concat();
    Ok(match error {
        CodecError::EndOfBuffer => vec![0],
        CodecError::ExtraData(left) => numbered(1, left),
        CodecError::InvalidLength(length) => numbered(2, length),
        CodecError::InvalidVarint(size) => numbered(3, size),
        CodecError::InvalidEnum(tag) => numbered(4, u64::from(tag)),
        CodecError::Invalid(What::Hostname) => vec![5],
        CodecError::Invalid(What::Padding) => vec![6],
        CodecError::Invalid(What::Key) => vec![7],
        CodecError::Invalid(What::Signature) => vec![8],
        other => return Err(format!("{other:?} has no number").into()),
    })
}

fn reason(error: Error) -> Outcome<Vec<u8>> {
    Ok(match error {
        Error::TooManyPeers(count) => [&[0][..], &count.to_be_bytes()].concat(),
        Error::ReceivedSelf => vec![1],
        Error::InvalidSignature => vec![2],
        Error::SynchronyBound => vec![3],
        other => return Err(format!("{other:?} has no number").into()),
    })
}
