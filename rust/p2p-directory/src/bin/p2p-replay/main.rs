//! Makes the calls of a log anew, and compares each answer with the one of the log.

#![forbid(unsafe_code)]

mod fields;
#[path = "../../../tests/calls/model.rs"]
#[allow(dead_code)]
mod model;
#[path = "../../../tests/calls/modelled.rs"]
mod modelled;
#[path = "../../../examples/play/player/mod.rs"]
#[allow(dead_code)]
mod player;
mod script;

/// Calls of the model, which takes them from here.
#[path = "../../../tests/calls/call.rs"]
#[allow(dead_code)]
mod call;

use modelled::Modelled;
use p2p_directory::keys33_64::Keys33_64;
use p2p_directory::keys48_96::Keys48_96;
use p2p_directory::keys96_48::Keys96_48;
use p2p_directory::record::{Answer, Call, Log, MOST_ROOM};
use p2p_directory::{Keys32_64, sized::Pair, sized::Replay};
use player::{Mode, Tally, play};
use script::Script;
use std::error::Error;
use std::process::ExitCode;
use std::{env, fs, io, process};

const HELP: &str = "\
p2p-replay [--model | --script | --play] [--unchecked N] [--room BYTES] FILE

Makes the calls of a log on a new node, and compares each answer with the one of the log. It ends at
the first that differs, and prints its record and both answers. A call that was refused for want of
memory counts as not made, and isn't checked.

  --model        on a model of maps and lists, which shares no code with the library
  --script       prints the calls as a script of `play`, with the replies that it expects: keys are
                 numbered in the order of their bytes, infos are signed anew
  --play         plays that script, and prints each reply that isn't as expected. It has no command
                 for some calls, such as `check` and `get_peer_set`, and no line for a message above
                 half a MiB: these are counted
  --unchecked N  fails if more than N calls weren't checked; without it, if one was refused for want
                 of memory
  --room BYTES   how many bytes a call of the library may ask for, in place of 268435456, for the
                 buffer that it writes and for a message: the log has its first bytes and a checksum,
                 and zeros stand for the others

Status: 0 if all is as in the log; 1 if an answer differs, or too many calls weren't checked; 2 if the
log can't be read or made; 3 if all is as in the log, but its end is missing, or it reached its bound.";

/// What is done with the calls of a log.
#[derive(Clone, Copy, PartialEq)]
enum Way {
    Library,
    Model,
    Script,
    Play,
}

struct Options {
    way: Way,
    // How many calls may be left unchecked, if that was said.
    unchecked: Option<u64>,
    room: u64,
    file: String,
}

/// What became of the calls of a log whose answers don't differ.
#[derive(Default)]
struct Checked {
    calls: u64,
    out_of_memory: u64,
    without_command: u64,
}

/// The status for a log whose end is missing, or which reached its bound.
const NOT_WHOLE: u8 = 3;

fn main() -> ExitCode {
    let words: Vec<String> = env::args().skip(1).collect();
    if words == ["--help"] {
        println!("{HELP}");
        return ExitCode::SUCCESS;
    }
    let Some(options) = options(words) else {
        eprintln!("{HELP}");
        process::exit(2);
    };
    match run(&options) {
        Ok(code) => code,
        Err(error) => {
            eprintln!("p2p-replay: {error}");
            ExitCode::from(2)
        }
    }
}

fn options(words: Vec<String>) -> Option<Options> {
    let mut options = Options {
        way: Way::Library,
        unchecked: None,
        room: MOST_ROOM,
        file: String::new(),
    };
    let mut words = words.into_iter();
    while let Some(word) = words.next() {
        match word.as_str() {
            "--model" => options.way = Way::Model,
            "--script" => options.way = Way::Script,
            "--play" => options.way = Way::Play,
            "--unchecked" => options.unchecked = Some(words.next()?.parse().ok()?),
            "--room" => options.room = words.next()?.parse().ok()?,
            other if other.starts_with('-') || !options.file.is_empty() => return None,
            _ => options.file = word,
        }
    }
    (!options.file.is_empty()).then_some(options)
}

fn run(options: &Options) -> Result<ExitCode, Box<dyn Error>> {
    let file = &options.file;
    let bytes = fs::read(file).map_err(|error| format!("{file}: {error}"))?;
    let log = Log::read(bytes).map_err(|error| format!("{file}: {error}"))?;
    let header = log.header();
    let check = match (header.key_size, header.signature_size) {
        (32, 64) => checked::<Keys32_64>,
        (33, 64) => checked::<Keys33_64>,
        (48, 96) => checked::<Keys48_96>,
        (96, 48) => checked::<Keys96_48>,
        (key, signature) => {
            return Err(format!("no keys have {key} bytes with signatures of {signature}").into());
        }
    };
    let checked = check(&log, options)?;
    Ok(match checked {
        Some(checked) => ended(&log, options, &checked),
        None => ExitCode::FAILURE,
    })
}

// Checks the calls of a log with these sizes. Returns nothing if an answer differs.
fn checked<P: Pair>(log: &Log, options: &Options) -> Result<Option<Checked>, Box<dyn Error>> {
    match options.way {
        Way::Library => on_the_library::<P>(log, options.room),
        Way::Model => {
            let mut modelled = Modelled::<P>::new();
            compare(log, |call| modelled.answer(call))
        }
        Way::Script => as_script::<P>(log).map(Some),
        Way::Play => by_play::<P>(log),
    }
}

// Says what was checked, and whether that is enough.
fn ended(log: &Log, options: &Options, checked: &Checked) -> ExitCode {
    let unchecked = checked.out_of_memory + checked.without_command;
    let mut told = vec![format!("{} calls", checked.calls)];
    if options.way != Way::Script {
        told.push(format!(
            "{} answered as in the log",
            checked.calls - unchecked
        ));
    }
    let whys = [
        (checked.out_of_memory, "refused for want of memory"),
        (checked.without_command, "without a command of play"),
    ];
    let whys = whys.iter().filter(|(count, _)| *count > 0);
    told.extend(whys.map(|(count, why)| format!("{count} {why}, not checked")));
    if log.is_full() {
        told.push("then the log is full".into());
    }
    if log.is_cut() {
        told.push("then its end is missing: it is cut off".into());
    }
    let told = told.join(", ");
    match options.way {
        Way::Script => eprintln!("{told}"),
        _ => println!("{told}"),
    }
    let is_enough = match options.unchecked {
        Some(most) => unchecked <= most,
        None => checked.out_of_memory == 0,
    };
    match (is_enough, log.is_full() || log.is_cut()) {
        (false, _) => ExitCode::FAILURE,
        (true, true) => ExitCode::from(NOT_WHOLE),
        (true, false) => ExitCode::SUCCESS,
    }
}

// Makes each call by the closure. Returns nothing if an answer differs, which it prints.
fn compare(
    log: &Log,
    mut make: impl FnMut(&Call<'_>) -> Result<Answer, Box<dyn Error>>,
) -> Result<Option<Checked>, Box<dyn Error>> {
    let mut checked = Checked::default();
    for call in log.calls() {
        checked.calls += 1;
        if call.answer.is_out_of_memory() {
            checked.out_of_memory += 1;
            continue;
        }
        let now = make(&call).map_err(|error| format!("record {}: {error}", call.place))?;
        if now != call.answer {
            println!("{call:?}");
            println!("is answered {now:?} now");
            return Ok(None);
        }
    }
    Ok(Some(checked))
}

fn on_the_library<P: Pair>(log: &Log, room: u64) -> Result<Option<Checked>, Box<dyn Error>> {
    let mut replay = Replay::<P>::with_room(room).ok_or("there is no memory")?;
    if log.header().archive != p2p_directory::record::ARCHIVE {
        eprintln!("p2p-replay: another archive of the library answered when this was recorded");
    }
    compare(log, |call| Ok(replay.make(call)?))
}

// What a script has of the calls of a log.
fn scripted<P: Pair>(log: &Log, script: &Script<P>) -> Checked {
    let out_of_memory = log.calls().filter(|call| call.answer.is_out_of_memory());
    Checked {
        calls: log.calls().count() as u64,
        out_of_memory: out_of_memory.count() as u64,
        without_command: script.without_command(),
    }
}

fn as_script<P: Pair>(log: &Log) -> Result<Checked, Box<dyn Error>> {
    let script = Script::<P>::of(log)?;
    for line in script.lines() {
        println!("{line}");
    }
    Ok(scripted(log, &script))
}

fn by_play<P: Pair>(log: &Log) -> Result<Option<Checked>, Box<dyn Error>> {
    let script = Script::<P>::of(log)?;
    let lines = script.lines().join("\n") + "\n";
    let tally: Tally = play::<P>(lines.as_bytes(), &mut io::stdout().lock(), Mode::Checks)?;
    println!("{tally}");
    Ok(tally.is_good().then(|| scripted(log, &script)))
}
