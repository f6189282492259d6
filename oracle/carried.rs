//! The form `--carried`: for each record the call, document 01's number of the
//! answer, and every value that the published enums carry in that answer.

use super::*;

/// Runs one whole record and prints its line.
pub fn answer(
    session: &mut Option<Box<Session>>,
    kind: u16,
    payload: &[u8],
    out: &mut impl Write,
) -> io::Result<()> {
    if !fits(kind, payload.len()) {
        return writeln!(out, "bad");
    }
    let mut fields = Fields(payload);
    if kind == OPEN {
        return match open(&mut fields) {
            Ok(opened) => {
                *session = Some(Box::new(opened));
                writeln!(out, "open 0")
            }
            Err((number, carried)) => writeln!(out, "open {number}{}", values(&carried)),
        };
    }
    let Some(session) = session else {
        return writeln!(out, "none");
    };
    match kind {
        SUBMIT => match session.submit(payload) {
            Ok(tick) => writeln!(out, "submit 0 {tick}"),
            Err(error) => writeln!(out, "submit {}{}", submit_number(error), of_submit(error)),
        },
        ADVANCE => writeln!(out, "advance {}", of_advance(&session.advance())),
        COMMIT => {
            let tick = fields.u64();
            let given = fields.u8() != 0;
            let digest = fields.u64();
            match session.commit(tick, given.then_some(digest)) {
                Ok(()) => writeln!(out, "commit 0"),
                Err(error) => writeln!(out, "commit {}{}", commit_number(error), of_commit(error)),
            }
        }
        LEAVE => writeln!(out, "leave 1{}", ended(session.leave())),
        PUMP => writeln!(out, "pump {}", of_pump(session)),
        REPORT => writeln!(out, "report{}", of_report(session)),
        _ => {
            let mut bytes = [0; MAX_DATAGRAM_BYTES];
            let Some((source, length)) = datagram(kind, fields, &mut bytes) else {
                return writeln!(out, "outside");
            };
            let delivery = session.deliver(source, &bytes[..length]);
            let number = delivery_number(delivery);
            writeln!(out, "deliver {number}{}", of_delivery(delivery))
        }
    }
}

/// Each value with a blank before it.
fn values(carried: &[u64]) -> String {
    carried.iter().map(|value| format!(" {value}")).collect()
}

fn ended(outcome: Outcome) -> String {
    format!(" {}", Ending(Some(outcome)))
}

fn seat(peer: PeerId) -> u64 {
    peer.index().into()
}

fn of_submit(error: SubmitError) -> String {
    match error {
        SubmitError::Ended(outcome) => ended(outcome),
        SubmitError::WrongWidth { saw, agreed } => values(&[saw as u64, agreed.into()]),
        SubmitError::WindowFull { tick, pending } => values(&[tick, pending]),
        _ => unreachable!("a refusal that document 01 does not know"),
    }
}

fn of_commit(error: CommitError) -> String {
    match error {
        CommitError::OutOfOrder { saw, expected } => values(&[saw, expected]),
        CommitError::DigestMismatch { tick, owed } => values(&[tick, owed.into()]),
        _ => unreachable!("a refusal that document 01 does not know"),
    }
}

fn of_delivery(delivery: Delivery) -> String {
    match delivery {
        Delivery::Accepted => String::new(),
        Delivery::Ends(outcome) => ended(outcome),
        Delivery::Refused(refusal) => values(&of_refusal(refusal)),
    }
}

fn of_refusal(refusal: Refusal) -> Vec<u64> {
    match refusal {
        Refusal::WrongSession { saw } => vec![saw],
        Refusal::SenderNotSource { claimed, source } => vec![seat(claimed), seat(source)],
        Refusal::FromSelf => vec![],
        Refusal::NotInRoster { peer } => vec![seat(peer)],
        Refusal::Disagreement { theirs, ours } => vec![theirs, ours],
        Refusal::OutOfWindow { tick, pending } => vec![tick, pending],
        Refusal::Contradiction { peer, tick } => vec![seat(peer), tick],
        Refusal::WrongWidth { saw, agreed } => vec![saw.into(), agreed.into()],
        Refusal::DigestContradiction { peer, tick } => vec![seat(peer), tick],
        Refusal::NotSessionTraffic { kind } => vec![script_byte(kind)],
        _ => unreachable!("a refusal that document 01 does not know"),
    }
}

/// The byte that stands for a message of this kind in a script.
fn script_byte(kind: wire::Kind) -> u64 {
    match kind {
        wire::Kind::Chat => 1,
        wire::Kind::Join => 2,
        wire::Kind::Roster => 3,
        wire::Kind::Start => 4,
        _ => unreachable!("a session takes the other kinds"),
    }
}

/// The number 0 has three forms here, so a word says which.
fn of_advance(advance: &Advance) -> String {
    match advance {
        Advance::Step(step) => {
            let seats = step.inputs().count() as u64;
            let width = step.inputs().next().map_or(0, |(_, bytes)| bytes.len()) as u64;
            let due = step.digest_due().into();
            format!("0 step{}", values(&[step.tick(), due, seats, width]))
        }
        Advance::Waiting => "0 waiting".to_string(),
        Advance::Stalled {
            tick,
            waiting,
            pumps,
        } => format!(
            "0 stalled{}",
            values(&[*tick, waiting.bits().into(), *pumps])
        ),
        Advance::Ended(outcome) => format!("1{}", ended(*outcome)),
    }
}

/// The seat it goes to, the kind as a script numbers it, and the message's
/// own fields; an Inputs' run is left to the trace form.
fn of_pump(session: &mut Session) -> String {
    let mut bytes = [0; MAX_DATAGRAM_BYTES];
    let Some(outbound) = session.next_outbound(&mut bytes) else {
        return "71".to_string();
    };
    let message = wire::read(outbound.bytes()).expect("the session's own datagram is readable");
    let (kind, fields) = match message.body {
        Body::Hello(body) => (
            HELLO,
            vec![
                body.agreement_digest,
                body.content,
                body.rules,
                body.seed,
                body.peer_count.into(),
                body.input_bytes.into(),
                body.input_delay.into(),
                body.digest_period.into(),
            ],
        ),
        Body::Inputs(body) => (
            INPUTS,
            vec![body.first_tick, body.count.into(), body.input_bytes.into()],
        ),
        Body::Digest(body) => (
            DIGEST,
            vec![body.tick, body.state_digest, body.input_digest],
        ),
        Body::Bye(body) => (BYE, vec![body.tick]),
        _ => unreachable!("a session sends nothing of the lobby or the chat"),
    };
    let header = &message.header;
    let front = [
        seat(outbound.peer()),
        kind.into(),
        seat(header.sender),
        header.session.into(),
    ];
    format!("0{}{}", values(&front), values(&fields))
}

/// A report asked for in the largest buffer, in one that is a byte too short
/// and in one that just holds it: the number, the length where it is written,
/// and how many bytes of the buffer change. The Rust writes no report into a
/// lent buffer, so of it this has the length alone, and the rest from document
/// 01's sentence about 62.
fn of_report(session: &Session) -> String {
    let Some(report) = session.desync() else {
        return " 61 0".repeat(3);
    };
    let length = report.json().to_string().len();
    let written = format!(" 0 {length} {length}");
    format!("{written} 62 0{written}")
}
