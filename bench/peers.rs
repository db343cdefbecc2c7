//! Times documents in a process, from bytes in memory: building them from plain values, the check before their bytes
//! are trusted, questions, and edits of numbers in place, by each format that is there. Usage: peers FOLDER COUNT, for
//! COUNT questions and edits about the documents that bench/peers.sh has written to the folder. All formats must find
//! the same, before and after the edits. Prints a line for each figure; calls are made in turns, and the least processor
//! time of all rounds counts.

#[allow(dead_code)]
mod library;
#[allow(dead_code)]
mod measured;
#[cfg(has_cabinet)]
mod peers_cabinet;
#[allow(dead_code)]
mod peers_document;
mod peers_figure;
#[cfg(has_flatbuffers)]
mod peers_flatbuffers;
#[cfg(has_rkyv)]
mod peers_rkyv;
#[cfg(has_sqlite)]
mod peers_sqlite;

use library::ROUNDS;
use peers_document::{Found, Map, Peer, Records, Refusal, Wanted};
use peers_figure::{least_times_of, print_figure};
use std::env;
use std::hint::black_box;
use std::path::Path;

/// The rounds of building, which takes longest.
const BUILDS: usize = 5;

type Peers<'a> = Vec<Box<dyn Peer + 'a>>;

/// What a format can do.
struct Able {
    checks: bool,
    edits: bool,
}

fn main() -> Result<(), Refusal> {
    let words: Vec<String> = env::args().collect();
    let [_, folder, count] = &words[..] else {
        return Err("usage: peers FOLDER COUNT".into());
    };
    let (folder, count) = (Path::new(folder), count.parse()?);
    let records = Records::read(folder, count)?;
    compare("records", &records.wanted(), &mut of_records(&records))?;
    drop(records);
    for kind in ["ordered", "hashed", "kept"] {
        let map = Map::read(folder, kind, count)?;
        compare(kind, &map.wanted(), &mut of_map(&map, kind)?)?;
    }
    Ok(())
}

#[allow(unused_variables)]
fn of_records<'a>(document: &'a Records) -> Peers<'a> {
    vec![
        #[cfg(has_cabinet)]
        peers_cabinet::of_records(document),
        #[cfg(has_rkyv)]
        peers_rkyv::of_records(document),
        #[cfg(has_flatbuffers)]
        peers_flatbuffers::of_records(document),
        #[cfg(has_sqlite)]
        peers_sqlite::of_records(document),
    ]
}

#[allow(unused_mut, unused_variables)]
fn of_map<'a>(document: &'a Map, kind: &str) -> Result<Peers<'a>, Refusal> {
    let mut peers: Peers<'a> = vec![
        #[cfg(has_cabinet)]
        peers_cabinet::of_map(document),
        #[cfg(has_rkyv)]
        peers_rkyv::of_map(document, kind),
        #[cfg(has_sqlite)]
        peers_sqlite::of_map(document, kind),
    ];
    #[cfg(has_flatbuffers)]
    if kind == "ordered" {
        peers.push(peers_flatbuffers::of_map(document)?);
    }
    Ok(peers)
}

// ---- answers

/// Returns a refusal if a format has not these answers.
fn agree(what: &str, peer: &mut dyn Peer, wanted: &[Found]) -> Result<(), Refusal> {
    let name = peer.name();
    let mut sum = 0u64;
    for (question, found) in wanted.iter().enumerate() {
        let (head, wanted) = (peer.head(question)?, found.head());
        if head != wanted {
            let said =
                format!("{what}: {name} answers question {question} by {head}, not {wanted}");
            return Err(said.into());
        }
        sum = sum.wrapping_add(match peer.is_spelling() {
            true => head.len() as u64 + 1,
            false => found.sum(),
        });
    }
    match peer.sum() == sum {
        true => Ok(()),
        false => Err(format!("{what}: {name} has another sum").into()),
    }
}

/// Builds the document by a format, which must accept what it built and have the wanted answers before and after the
/// edits.
fn tried(what: &str, peer: &mut dyn Peer, wanted: &Wanted) -> Result<Able, Refusal> {
    let name = peer.name();
    let length = peer.build()?;
    print_figure("bytes", what, "size", name, length as f64, "bytes");
    let accepted = peer.check();
    if accepted == Some(false) {
        return Err(format!("{what}: {name} refuses what it built").into());
    }
    agree(what, peer, &wanted.before)?;
    let done = peer.edit();
    if let Some(done) = done {
        if done != wanted.after.len() {
            return Err(format!("{what}: {name} did {done} edits").into());
        }
        agree(&format!("{what}, edited"), peer, &wanted.after)?;
    }
    Ok(Able {
        checks: accepted.is_some(),
        edits: done.is_some(),
    })
}

// ---- times

/// Prints the least times of a call of each format that is able to it, each divided by a number, in a unit.
fn time(
    (what, action): (&str, &str),
    peers: &mut Peers,
    able: impl Fn(usize) -> bool,
    rounds: usize,
    call: fn(&mut dyn Peer),
    (divisor, unit): (f64, &str),
) {
    let mut names = Vec::new();
    let mut calls = Vec::new();
    for (at, peer) in peers.iter_mut().enumerate() {
        if able(at) {
            names.push(peer.name());
            calls.push(move || call(peer.as_mut()));
        }
    }
    let times = least_times_of(rounds, &mut calls);
    for (name, time) in names.into_iter().zip(times) {
        print_figure("process", what, action, name, time / divisor, unit);
    }
}

/// Compares what a document takes in each format.
fn compare(what: &str, wanted: &Wanted, peers: &mut Peers) -> Result<(), Refusal> {
    let able: Vec<Able> = peers
        .iter_mut()
        .map(|peer| tried(what, peer.as_mut(), wanted))
        .collect::<Result<_, _>>()?;
    let (all, milliseconds) = (|_| true, (1e6, "ms"));
    let each = (wanted.before.len() as f64, "ns");
    let build = |peer: &mut dyn Peer| _ = black_box(peer.build());
    let check = |peer: &mut dyn Peer| _ = black_box(peer.check());
    let ask = |peer: &mut dyn Peer| _ = black_box(peer.sum());
    let edit = |peer: &mut dyn Peer| _ = black_box(peer.edit());
    time((what, "build"), peers, all, BUILDS, build, milliseconds);
    time(
        (what, "open"),
        peers,
        |at| able[at].checks,
        ROUNDS,
        check,
        milliseconds,
    );
    time((what, "question"), peers, all, ROUNDS, ask, each);
    time(
        (what, "edit"),
        peers,
        |at| able[at].edits,
        ROUNDS,
        edit,
        each,
    );
    Ok(())
}
