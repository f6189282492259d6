//! The script runner `circle`, over the published Rust session.
//!
//! `oracle < script` prints one line a record, as `circle` must.
//! `oracle --trace < script` prints in addition, while a session exists, the
//! message that a pump sent (`> `) and what the session shows (`= `).
//! `oracle --carried < script` prints for each record the call, the number and
//! every value that the answer carries, as the program `carried` must.
//! `oracle --measure < jobs` makes calls over and over to be timed, as the
//! program `measure` does, and prints the sum of their answers.
//!
//! The session is driven through its own front door: a record becomes a
//! datagram by the published writer and goes into `deliver`, and what comes
//! out of the pump is taken apart by the published reader. What those types
//! and writers cannot say (a seat above 7, session 0 in a message, any
//! malformed message) is not for this program to judge: it prints `outside`
//! and leaves the session alone.

mod carried;
mod measure;

use std::io::{self, BufWriter, Read, Write};
use std::num::NonZeroU64;
use std::process::ExitCode;

use renew_net::wire::{self, Body};
use renew_net::{
    Advance, CommitError, Delivery, DesyncReport, MAX_DATAGRAM_BYTES, Outbound, Outcome,
    ParamsError, PeerId, Refusal, Session, SessionParams, SubmitError,
};

const OPEN: u16 = 1;
const SUBMIT: u16 = 2;
const HELLO: u16 = 3;
const INPUTS: u16 = 4;
const DIGEST: u16 = 5;
const BYE: u16 = 6;
const OTHER: u16 = 7;
const ADVANCE: u16 = 8;
const COMMIT: u16 = 9;
const LEAVE: u16 = 10;
const PUMP: u16 = 11;
const REPORT: u16 = 12;

/// What is printed.
#[derive(Clone, Copy, PartialEq)]
enum Form {
    Plain,
    Trace,
    Carried,
    Measure,
}

fn main() -> ExitCode {
    let arguments: Vec<String> = std::env::args().skip(1).collect();
    let form = match arguments.iter().map(String::as_str).collect::<Vec<_>>()[..] {
        [] => Form::Plain,
        ["--trace"] => Form::Trace,
        ["--carried"] => Form::Carried,
        ["--measure"] => Form::Measure,
        _ => {
            eprintln!("usage: oracle [--trace | --carried] < script, or oracle --measure < jobs");
            return ExitCode::from(2);
        }
    };
    match run(form) {
        Ok(()) => ExitCode::SUCCESS,
        Err(error) => {
            eprintln!("oracle: {error}");
            ExitCode::FAILURE
        }
    }
}

fn run(form: Form) -> io::Result<()> {
    let trace = form == Form::Trace;
    let mut script = Vec::new();
    io::stdin().lock().read_to_end(&mut script)?;
    let mut out = BufWriter::new(io::stdout().lock());
    if form == Form::Measure {
        measure::answer(&script, &mut out)?;
        return out.flush();
    }
    let mut session = None;
    let mut rest = &script[..];
    while !rest.is_empty() {
        if let Some((kind, payload, after)) = record(rest) {
            rest = after;
            if form == Form::Carried {
                carried::answer(&mut session, kind, payload, &mut out)?;
            } else {
                answer(&mut session, kind, payload, trace, &mut out)?;
            }
        } else {
            rest = &[];
            writeln!(out, "cut")?;
        }
        if trace && let Some(session) = &session {
            print_state(session, &mut out)?;
        }
    }
    out.flush()
}

/// The first record of `rest` and what follows it, or `None` if it is cut.
fn record(rest: &[u8]) -> Option<(u16, &[u8], &[u8])> {
    let (head, rest) = rest.split_at_checked(4)?;
    let length = u16::from_le_bytes([head[0], head[1]]);
    let kind = u16::from_le_bytes([head[2], head[3]]);
    let (payload, rest) = rest.split_at_checked(usize::from(length))?;
    Some((kind, payload, rest))
}

/// Whether a payload of this length is right for the kind.
fn fits(kind: u16, length: usize) -> bool {
    match kind {
        OPEN => length == 37,
        SUBMIT => true,
        HELLO => length == 46,
        INPUTS => (20..=148).contains(&length),
        DIGEST => length == 34,
        BYE => length == 18,
        OTHER => length == 11,
        COMMIT => length == 17,
        ADVANCE | LEAVE | PUMP | REPORT => length == 0,
        _ => false,
    }
}

/// A payload's fields, from the front. Lengths are settled by `fits`.
struct Fields<'a>(&'a [u8]);

impl Fields<'_> {
    fn u8(&mut self) -> u8 {
        let (first, rest) = self.0.split_first().expect("a byte is left");
        self.0 = rest;
        *first
    }

    fn u64(&mut self) -> u64 {
        let (first, rest) = self.0.split_first_chunk().expect("eight bytes are left");
        self.0 = rest;
        u64::from_le_bytes(*first)
    }
}

/// Runs one whole record and prints its line.
fn answer(
    session: &mut Option<Box<Session>>,
    kind: u16,
    payload: &[u8],
    trace: bool,
    out: &mut impl Write,
) -> io::Result<()> {
    if !fits(kind, payload.len()) {
        return writeln!(out, "bad");
    }
    let mut fields = Fields(payload);
    if kind == OPEN {
        let number = match open(&mut fields) {
            Ok(opened) => {
                *session = Some(Box::new(opened));
                0
            }
            Err((number, _)) => number,
        };
        return print_open(number, out);
    }
    let Some(session) = session else {
        return writeln!(out, "none");
    };
    match kind {
        SUBMIT => print_submit(session.submit(payload), out),
        ADVANCE => print_advance(&session.advance(), out),
        COMMIT => {
            let tick = fields.u64();
            let given = fields.u8() != 0;
            let digest = fields.u64();
            print_commit(session.commit(tick, given.then_some(digest)), out)
        }
        LEAVE => print_leave(session.leave(), out),
        PUMP => {
            let mut bytes = [0; MAX_DATAGRAM_BYTES];
            print_send(session.next_outbound(&mut bytes), trace, out)
        }
        REPORT => print_report(session.desync(), out),
        _ => {
            let mut bytes = [0; MAX_DATAGRAM_BYTES];
            let Some((source, length)) = datagram(kind, fields, &mut bytes) else {
                return writeln!(out, "outside");
            };
            print_delivery(session.deliver(source, &bytes[..length]), out)
        }
    }
}

/// A new session, or the number of the first check that refuses it and what
/// that refusal carries.
///
/// The Rust settles a local seat above 7 and session 0 by its types, so there
/// it is asked with a seat and a session that the types can say, and the
/// check that they stand for is made here, in its place among the others.
fn open(fields: &mut Fields) -> Result<Session, (u8, Vec<u64>)> {
    let [peer_count, local, input_bytes, input_delay, digest_period] =
        std::array::from_fn(|_| fields.u8());
    let [seed, content, rules, session] = std::array::from_fn(|_| fields.u64());
    let seat = PeerId::new(local);
    let token = NonZeroU64::new(session);
    let params = SessionParams {
        peer_count,
        local: seat.unwrap_or(PeerId::new(0).expect("a seat")),
        input_bytes,
        input_delay,
        digest_period,
        seed,
        content,
        rules,
        session: token.unwrap_or(NonZeroU64::MIN),
    };
    match params.validate() {
        Err(ParamsError::PeerCount {
            saw,
            floor,
            ceiling,
        }) => Err((11, vec![saw.into(), floor.into(), ceiling.into()])),
        _ if seat.is_none() => Err((12, vec![local.into(), peer_count.into()])),
        Err(ParamsError::LocalNotInRoster { local, peer_count }) => {
            Err((12, vec![local.into(), peer_count.into()]))
        }
        Err(ParamsError::InputBytes { saw, ceiling }) => {
            Err((13, vec![saw.into(), ceiling.into()]))
        }
        Err(ParamsError::InputDelay { saw, window }) => Err((14, vec![saw.into(), window.into()])),
        Err(ParamsError::DigestPeriodZero) => Err((15, vec![])),
        Err(_) => unreachable!("a refusal that document 01 does not know"),
        Ok(_) if token.is_none() => Err((16, vec![])),
        Ok(valid) => Ok(Session::new(valid)),
    }
}

/// Writes a message record as a datagram: its source and its length, or
/// `None` where the published types and writers cannot say it.
fn datagram(
    kind: u16,
    mut fields: Fields,
    out: &mut [u8; MAX_DATAGRAM_BYTES],
) -> Option<(PeerId, usize)> {
    let source = PeerId::new(fields.u8())?;
    let addressing = wire::Addressing {
        sender: PeerId::new(fields.u8())?,
        session: NonZeroU64::new(fields.u64())?,
    };
    let length = match kind {
        HELLO => {
            let body = wire::HelloBody {
                agreement_digest: fields.u64(),
                content: fields.u64(),
                rules: fields.u64(),
                seed: fields.u64(),
                peer_count: fields.u8(),
                input_bytes: fields.u8(),
                input_delay: fields.u8(),
                digest_period: fields.u8(),
            };
            wire::write_hello(out, addressing, &body).ok()?
        }
        INPUTS => {
            let first_tick = fields.u64();
            let count = fields.u8();
            let width = fields.u8();
            wire::write_inputs(out, addressing, first_tick, count, width, fields.0).ok()?
        }
        DIGEST => {
            let body = wire::DigestBody {
                tick: fields.u64(),
                state_digest: fields.u64(),
                input_digest: fields.u64(),
            };
            wire::write_digest(out, addressing, &body)
        }
        BYE => wire::write_bye(out, addressing, &wire::ByeBody { tick: fields.u64() }),
        _ => other(fields.u8(), addressing, out)?,
    };
    Some((source, length))
}

/// A message of a kind that a session refuses, as small as its writer allows:
/// the session looks at nothing but the kind.
fn other(
    which: u8,
    addressing: wire::Addressing,
    out: &mut [u8; MAX_DATAGRAM_BYTES],
) -> Option<usize> {
    match which {
        1 => wire::write_chat(out, addressing, 0, b"-").ok(),
        2 => {
            let body = wire::JoinBody {
                content: 0,
                rules: 0,
            };
            Some(wire::write_join(out, addressing, &body))
        }
        3 => {
            let body = wire::RosterBody {
                seat: 0,
                peer_count: 2,
                input_bytes: 1,
                input_delay: 0,
                digest_period: 1,
                seed: 0,
                content: 0,
                rules: 0,
                endpoints: &[0; 2 * wire::ENDPOINT_BYTES],
            };
            wire::write_roster(out, addressing, &body).ok()
        }
        4 => {
            let body = wire::StartBody {
                agreement_digest: 0,
            };
            Some(wire::write_start(out, addressing, &body))
        }
        _ => None,
    }
}

fn submit_number(error: SubmitError) -> u8 {
    match error {
        SubmitError::Ended(_) => 1,
        SubmitError::WrongWidth { .. } => 41,
        SubmitError::WindowFull { .. } => 42,
        _ => unreachable!("a refusal that document 01 does not know"),
    }
}

fn commit_number(error: CommitError) -> u8 {
    match error {
        CommitError::OutOfOrder { .. } => 51,
        CommitError::DigestMismatch { .. } => 52,
        _ => unreachable!("a refusal that document 01 does not know"),
    }
}

fn delivery_number(delivery: Delivery) -> u8 {
    match delivery {
        Delivery::Accepted => 0,
        Delivery::Ends(_) => 1,
        Delivery::Refused(refusal) => match refusal {
            Refusal::Malformed(error) => {
                unreachable!("the published reader refuses what its writer made: {error}")
            }
            Refusal::WrongSession { .. } => 22,
            Refusal::SenderNotSource { .. } => 23,
            Refusal::FromSelf => 24,
            Refusal::NotInRoster { .. } => 25,
            Refusal::Disagreement { .. } => 26,
            Refusal::OutOfWindow { .. } => 27,
            Refusal::Contradiction { .. } => 28,
            Refusal::WrongWidth { .. } => 29,
            Refusal::DigestContradiction { .. } => 30,
            Refusal::NotSessionTraffic { .. } => 31,
            _ => unreachable!("a refusal that document 01 does not know"),
        },
    }
}

fn print_open(number: u8, out: &mut impl Write) -> io::Result<()> {
    writeln!(out, "open {number}")
}

fn print_submit(answer: Result<u64, SubmitError>, out: &mut impl Write) -> io::Result<()> {
    match answer {
        Ok(tick) => writeln!(out, "submit 0 {tick}"),
        Err(error) => writeln!(out, "submit {}", submit_number(error)),
    }
}

fn print_delivery(answer: Delivery, out: &mut impl Write) -> io::Result<()> {
    writeln!(out, "deliver {}", delivery_number(answer))
}

fn print_commit(answer: Result<(), CommitError>, out: &mut impl Write) -> io::Result<()> {
    writeln!(out, "commit {}", answer.map_or_else(commit_number, |()| 0))
}

fn print_leave(outcome: Outcome, out: &mut impl Write) -> io::Result<()> {
    writeln!(out, "ended {}", Ending(Some(outcome)))
}

fn print_report(answer: Option<DesyncReport>, out: &mut impl Write) -> io::Result<()> {
    match answer {
        Some(report) => writeln!(out, "{}", report.json()),
        None => writeln!(out, "report 61"),
    }
}

fn print_advance(advance: &Advance, out: &mut impl Write) -> io::Result<()> {
    match advance {
        Advance::Step(step) => {
            write!(out, "step {} {}", step.tick(), u8::from(step.digest_due()))?;
            for (_, bytes) in step.inputs() {
                write!(out, " {}", Hex(bytes))?;
            }
            writeln!(out)
        }
        Advance::Waiting => writeln!(out, "waiting"),
        Advance::Stalled {
            tick,
            waiting,
            pumps,
        } => writeln!(out, "stalled {tick} {} {pumps}", waiting.bits()),
        Advance::Ended(outcome) => writeln!(out, "ended {}", Ending(Some(*outcome))),
    }
}

fn print_send(sent: Option<Outbound>, trace: bool, out: &mut impl Write) -> io::Result<()> {
    let Some(outbound) = sent else {
        return writeln!(out, "send 71");
    };
    let message = wire::read(outbound.bytes()).expect("the session's own datagram is readable");
    let (kind, tick, count) = match message.body {
        Body::Hello(_) => (HELLO, 0, 0),
        Body::Inputs(body) => (INPUTS, body.first_tick, body.count),
        Body::Digest(body) => (DIGEST, body.tick, 0),
        Body::Bye(body) => (BYE, body.tick, 0),
        _ => unreachable!("a session sends nothing of the lobby or the chat"),
    };
    let peer = outbound.peer().index();
    writeln!(out, "send {peer} {kind} {tick} {count}")?;
    if trace {
        print_message(&message, out)?;
    }
    Ok(())
}

fn print_message(message: &wire::Datagram, out: &mut impl Write) -> io::Result<()> {
    let header = &message.header;
    write!(out, "> {} {}", header.sender.index(), header.session)?;
    match message.body {
        Body::Hello(body) => write!(
            out,
            " {} {} {} {} {} {} {} {}",
            body.agreement_digest,
            body.content,
            body.rules,
            body.seed,
            body.peer_count,
            body.input_bytes,
            body.input_delay,
            body.digest_period
        )?,
        Body::Inputs(body) => write!(
            out,
            " {} {} {} {}",
            body.first_tick,
            body.count,
            body.input_bytes,
            Hex(body.frames())
        )?,
        Body::Digest(body) => write!(
            out,
            " {} {} {}",
            body.tick, body.state_digest, body.input_digest
        )?,
        Body::Bye(body) => write!(out, " {}", body.tick)?,
        _ => unreachable!("a session sends nothing of the lobby or the chat"),
    }
    writeln!(out)
}

fn print_state(session: &Session, out: &mut impl Write) -> io::Result<()> {
    let stats = session.stats();
    writeln!(
        out,
        "= {} {} {} {} {} {} {} {} {} {} {} {}",
        stats.datagrams_refused,
        stats.frames_repeated,
        stats.frames_contradicted,
        stats.frames_out_of_window,
        stats.digests_contradicted,
        stats.stall_pumps,
        session.pending_tick(),
        session.next_local_tick(),
        u8::from(session.is_playing()),
        u8::from(session.wants_local()),
        session.input_digest(),
        Ending(session.outcome())
    )
}

/// Bytes as lower-case hex.
struct Hex<'a>(&'a [u8]);

impl std::fmt::Display for Hex<'_> {
    fn fmt(&self, out: &mut std::fmt::Formatter<'_>) -> std::fmt::Result {
        self.0.iter().try_for_each(|byte| write!(out, "{byte:02x}"))
    }
}

/// An outcome as `WHY SEAT TICK`, and `0 - 0` while there is none.
struct Ending(Option<Outcome>);

impl std::fmt::Display for Ending {
    fn fmt(&self, out: &mut std::fmt::Formatter<'_>) -> std::fmt::Result {
        match self.0 {
            None => write!(out, "0 - 0"),
            Some(Outcome::Desynced { tick }) => write!(out, "1 - {tick}"),
            Some(Outcome::PeerLeft { peer, tick }) => write!(out, "2 {} {tick}", peer.index()),
            Some(Outcome::LeftLocally { tick }) => write!(out, "3 - {tick}"),
            Some(_) => unreachable!("an outcome that document 01 does not know"),
        }
    }
}
