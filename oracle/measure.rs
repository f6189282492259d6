//! The form `--measure`: the calls of a session made over and over, to be timed
//! beside those of the program `measure`, whose jobs it takes. The two ways in
//! which that one calls are the same here; P and V make the line of each answer
//! too, into one buffer.
//!
//! A message of the radio is a datagram here and a record there, so a delivery
//! reads a datagram and a pump writes one, which the record spares; the line of
//! a pump reads it back.

use super::*;

/// This seat's press is the front of this, and so are the other's.
const PRESSES: [u8; 32] = *b"abcdabcdabcdabcdabcdabcdabcdabcd";
/// Where a datagram has its kind, and an Inputs its first tick and its frames.
const KIND_AT: usize = 6;
const FIRST_AT: usize = wire::HEADER_BYTES;
const FRAMES_AT: usize = wire::HEADER_BYTES + wire::INPUTS_BODY_BYTES;

/// Prints the sum of each job, one to a line.
pub fn answer(jobs: &[u8], out: &mut impl Write) -> io::Result<()> {
    for job in jobs
        .split(|byte| *byte == b'\n')
        .filter(|job| !job.is_empty())
    {
        let blank = behind(job, b' ');
        let turns = (job[..blank].iter()).filter(|byte| byte.is_ascii_digit());
        let turns = turns.fold(0, |count, byte| count * 10 + u64::from(byte - b'0'));
        let sum = match job[0] {
            b'p' | b'v' => play(&job[blank..], turns, false)?,
            b'P' | b'V' => play(&job[blank..], turns, true)?,
            _ => 0,
        };
        writeln!(out, "{sum}")?;
    }
    Ok(())
}

fn behind(bytes: &[u8], sought: u8) -> usize {
    let place = bytes.iter().position(|byte| *byte == sought);
    place.map_or(bytes.len(), |at| at + 1)
}

fn seat(index: u8) -> PeerId {
    PeerId::new(index).expect("a seat")
}

/// Two seats, of which this is seat 0, four bytes a tick, a digest every tick.
fn pair() -> Session {
    let params = SessionParams {
        peer_count: 2,
        local: seat(0),
        input_bytes: 4,
        input_delay: 0,
        digest_period: 1,
        seed: 1,
        content: 2,
        rules: 3,
        session: NonZeroU64::new(9).expect("a session"),
    };
    Session::new(params.validate().expect("good parameters"))
}

/// A message of the other seat, as the radio brings it.
struct Datagram {
    bytes: [u8; MAX_DATAGRAM_BYTES],
    size: usize,
}

impl Datagram {
    fn new(call: u8) -> Self {
        let mut bytes = [0; MAX_DATAGRAM_BYTES];
        let from = wire::Addressing {
            sender: seat(1),
            session: NonZeroU64::new(9).expect("a session"),
        };
        let digest = |tick| wire::DigestBody {
            tick,
            state_digest: 6,
            input_digest: 7,
        };
        let size = match call {
            b'h' => {
                let body = wire::HelloBody {
                    agreement_digest: pair().params().agreement_digest(),
                    content: 2,
                    rules: 3,
                    seed: 1,
                    peer_count: 2,
                    input_bytes: 4,
                    input_delay: 0,
                    digest_period: 1,
                };
                wire::write_hello(&mut bytes, from, &body).expect("a Hello")
            }
            b'i' => wire::write_inputs(&mut bytes, from, 0, 1, 4, &PRESSES[..4]).expect("Inputs"),
            b'e' => wire::write_inputs(&mut bytes, from, 0, 8, 4, &PRESSES).expect("Inputs"),
            b'd' => wire::write_digest(&mut bytes, from, &digest(3)),
            _ => wire::write_digest(&mut bytes, from, &digest(0)),
        };
        Self { bytes, size }
    }

    /// The same frames for other ticks.
    fn starting(&mut self, first: u64) -> &[u8] {
        self.bytes[FIRST_AT..FIRST_AT + 8].copy_from_slice(&first.to_le_bytes());
        self.whole()
    }

    fn whole(&self) -> &[u8] {
        &self.bytes[..self.size]
    }
}

/// Makes the calls. The sum takes document 01's number of an answer or values
/// that it carries, the length of its line, the bytes of the last line, and how
/// far the session came.
fn play(calls: &[u8], turns: u64, lined: bool) -> io::Result<u64> {
    let again = behind(calls, b'*');
    let [hello, digest, parted] = [b'h', b'd', b'f'].map(Datagram::new);
    let [mut inputs, mut eight] = [b'i', b'e'].map(Datagram::new);
    let other = seat(1);
    let mut sent = [0; MAX_DATAGRAM_BYTES];
    let mut line = Vec::with_capacity(2048);
    let mut session = pair();
    let mut sum: u64 = 0;
    let mut at = 0;
    for _ in 0..turns {
        line.clear();
        let value = match calls.get(at).copied().unwrap_or(b'*') {
            b'o' => {
                session = pair();
                if lined {
                    print_open(0, &mut line)?;
                }
                0
            }
            call @ (b's' | b'x') => {
                let width = if call == b's' { 4 } else { 5 };
                let answer = session.submit(&PRESSES[..width]);
                if lined {
                    print_submit(answer, &mut line)?;
                }
                answer.unwrap_or_else(|error| submit_number(error).into())
            }
            call @ (b'h' | b'i' | b'e' | b'd' | b'f') => {
                let pending = session.pending_tick();
                let bytes = match call {
                    b'h' => hello.whole(),
                    b'i' => inputs.starting(pending),
                    b'e' => eight.starting(pending),
                    b'd' => digest.whole(),
                    _ => parted.whole(),
                };
                let answer = session.deliver(other, bytes);
                if lined {
                    print_delivery(answer, &mut line)?;
                }
                delivery_number(answer).into()
            }
            b'a' => {
                let answer = session.advance();
                if lined {
                    print_advance(&answer, &mut line)?;
                }
                of_advance(&answer)
            }
            b'c' => {
                let answer = session.commit(session.pending_tick(), Some(5));
                if lined {
                    print_commit(answer, &mut line)?;
                }
                answer.map_or_else(|error| commit_number(error).into(), |()| 0)
            }
            b'p' => {
                let answer = session.next_outbound(&mut sent);
                if lined {
                    print_send(answer, false, &mut line)?;
                }
                of_send(answer)
            }
            b'l' => {
                let outcome = session.leave();
                if lined {
                    print_leave(outcome, &mut line)?;
                }
                1 + ended_at(outcome)
            }
            b'r' => {
                let answer = session.desync();
                if lined {
                    print_report(answer, &mut line)?;
                }
                answer.map_or(61, of_report)
            }
            b'w' => match session.desync() {
                Some(report) => {
                    write!(line, "{}", report.json())?;
                    0
                }
                None => 61,
            },
            _ => 0,
        };
        sum = sum.wrapping_add(value).wrapping_add(line.len() as u64);
        at = if at + 1 < calls.len() { at + 1 } else { again };
    }
    let stats = session.stats();
    let refused = stats.datagrams_refused + stats.frames_contradicted;
    let end = stats.frames_repeated + refused + stats.stall_pumps + session.pending_tick();
    let bytes: u64 = line.iter().map(|byte| u64::from(*byte)).sum();
    Ok(sum.wrapping_add(end + bytes))
}

/// The tick and a byte of each seat's press, or what a stall carries.
fn of_advance(answer: &Advance) -> u64 {
    match answer {
        Advance::Step(step) => {
            let press = |index, at: usize| step.input(seat(index)).map_or(0, |bytes| bytes[at]);
            step.tick() + u64::from(press(0, 0)) + u64::from(press(1, 3))
        }
        Advance::Waiting => 0,
        Advance::Stalled {
            tick,
            waiting,
            pumps,
        } => tick + u64::from(waiting.bits()) + pumps,
        Advance::Ended(_) => 1,
    }
}

/// To whom, and a byte of the frames that an Inputs carries.
fn of_send(answer: Option<Outbound>) -> u64 {
    let Some(outbound) = answer else {
        return 71;
    };
    let bytes = std::hint::black_box(outbound.bytes());
    let carries = bytes[KIND_AT] == wire::Kind::Inputs as u8;
    let frames = if carries { bytes[FRAMES_AT + 3] } else { 0 };
    u64::from(outbound.peer().index()) + u64::from(frames)
}

/// A number that was kept, and one that was worked out.
fn of_report(report: DesyncReport) -> u64 {
    let state = report.tick.wrapping_add(report.local_state_digest);
    state.wrapping_add(report.agreement_digest)
}

fn ended_at(outcome: Outcome) -> u64 {
    match outcome {
        Outcome::Desynced { tick } => tick,
        Outcome::PeerLeft { tick, .. } => tick,
        Outcome::LeftLocally { tick } => tick,
        _ => unreachable!("an outcome that document 01 does not know"),
    }
}
