//! Rehearsals: commands on one pair, and what each is answered.

use std::fmt::Write;

use crate::account::Accounts;
use crate::fault::Refusal;
use crate::frame::Received;
use crate::line::{AnyLine, Line, Paced, Ring, Straight, LINE_LIMIT};
use crate::log::{AnyLog, Indexed, Journal, Log, SIZE_LIMIT, TABLE_LIMIT};
use crate::packet::{Letter, PACKET_LIMIT};
use crate::pair::{Fields, Heard, Pair};
use crate::seat::How;

/// The trace of a script, without its last line and without words for people.
pub fn rehearse(script: &[u8]) -> Vec<u8> {
    let mut rehearsal = Rehearsal::new();
    let mut trace = Vec::new();
    for line in script.split(|&byte| byte == b'\n') {
        let line = String::from_utf8_lossy(line);
        let line = line.trim();
        if line.is_empty() || line.starts_with('#') {
            continue;
        }
        let answer = rehearsal.command(line);
        trace.extend_from_slice(line.as_bytes());
        trace.extend_from_slice(b" -> ");
        trace.extend_from_slice(answer.as_bytes());
        trace.push(b'\n');
    }
    trace
}

/// A line that counts the packets which an end puts on it.
#[derive(Debug)]
struct Watched {
    line: AnyLine,
    written: [u64; 256],
}

impl Watched {
    fn new(line: AnyLine) -> Watched {
        Watched {
            line,
            written: [0; 256],
        }
    }
}

impl Line for Watched {
    fn waiting(&self) -> usize {
        self.line.waiting()
    }

    fn room(&self) -> usize {
        self.line.room()
    }

    fn full_size(&self) -> usize {
        self.line.full_size()
    }

    fn limit(&self) -> usize {
        self.line.limit()
    }

    fn put(&mut self, piece: &[u8]) -> Result<(), Refusal> {
        self.line.put(piece)?;
        if let Some(&letter) = piece.get(2) {
            self.written[letter as usize] += 1;
        }
        Ok(())
    }

    fn take(&mut self, buffer: &mut [u8]) -> usize {
        self.line.take(buffer)
    }

    fn clear(&mut self) {
        self.line.clear();
    }

    fn slices(&self) -> (&[u8], &[u8]) {
        self.line.slices()
    }
}

/// What the seat logs in with, not judged yet.
struct SeatFields {
    user: Vec<u8>,
    computer: Vec<u8>,
    protocol: Vec<u8>,
}

/// The parts of a pair, and the pair once it is made.
pub struct Rehearsal {
    hub_log: Option<AnyLog>,
    seat_log: Option<AnyLog>,
    up: Option<Watched>,
    down: Option<Watched>,
    accounts: Accounts,
    seat: Option<SeatFields>,
    hub_frame: Vec<u8>,
    seat_frame: Vec<u8>,
    out: Vec<u8>,
    pair: Option<Pair>,
}

/// Why a command has no answer but `error`.
struct Malformed;

impl Default for Rehearsal {
    fn default() -> Self {
        Rehearsal::new()
    }
}

type Answer = Result<String, Malformed>;

/// The parts that calls are lent.
struct Stage<'a> {
    pair: &'a mut Pair,
    hub_log: &'a mut AnyLog,
    seat_log: &'a mut AnyLog,
    up: &'a mut Watched,
    down: &'a mut Watched,
    hub_frame: &'a mut [u8],
    seat_frame: &'a mut [u8],
    out: &'a mut [u8],
}

impl Rehearsal {
    pub fn new() -> Rehearsal {
        Rehearsal {
            hub_log: None,
            seat_log: None,
            up: None,
            down: None,
            accounts: Accounts::new(),
            seat: None,
            hub_frame: vec![0; PACKET_LIMIT],
            seat_frame: vec![0; PACKET_LIMIT],
            out: vec![0; PACKET_LIMIT],
            pair: None,
        }
    }

    /// Performs one command and gives its answer.
    pub fn command(&mut self, line: &str) -> String {
        let words: Vec<&[u8]> = line.split_whitespace().map(str::as_bytes).collect();
        let Some((name, rest)) = words.split_first() else {
            return "error".to_string();
        };
        let answer = match *name {
            b"show" | b"wire" | b"log" | b"out" => self.question(name, rest),
            b"hub-log" | b"seat-log" | b"up" | b"down" | b"account" | b"seat" | b"buffers"
            | b"setup" => self.part(name, rest),
            _ => self.call(name, rest),
        };
        answer.unwrap_or_else(|Malformed| "error".to_string())
    }

    pub fn pair(&self) -> Option<&Pair> {
        self.pair.as_ref()
    }

    pub fn hub_log(&self) -> Option<&AnyLog> {
        self.hub_log.as_ref()
    }

    pub fn seat_log(&self) -> Option<&AnyLog> {
        self.seat_log.as_ref()
    }

    pub fn up(&self) -> Option<&AnyLine> {
        self.up.as_ref().map(|watched| &watched.line)
    }

    pub fn down(&self) -> Option<&AnyLine> {
        self.down.as_ref().map(|watched| &watched.line)
    }

    /// The buffers of the hub's frame and the seat's.
    pub fn frames(&self) -> (&[u8], &[u8]) {
        (&self.hub_frame, &self.seat_frame)
    }

    /// How many packets of a letter the hub and the seat have written.
    pub fn written(&self, letter: Letter) -> (u64, u64) {
        let count = |line: &Option<Watched>| {
            line.as_ref()
                .map_or(0, |watched| watched.written[letter.byte() as usize])
        };
        (count(&self.down), count(&self.up))
    }

    fn part(&mut self, name: &[u8], rest: &[&[u8]]) -> Answer {
        if self.pair.is_some() {
            return Err(Malformed);
        }
        match (name, rest) {
            (b"hub-log", _) => keep(&mut self.hub_log, log_of(rest)?),
            (b"seat-log", _) => keep(&mut self.seat_log, log_of(rest)?),
            (b"up", _) => keep(&mut self.up, line_of(rest)?.map(Watched::new)),
            (b"down", _) => keep(&mut self.down, line_of(rest)?.map(Watched::new)),
            (b"account", [user, computer, protocol]) => {
                granted(self.accounts.add(user, computer, protocol))
            }
            (b"seat", [user, computer, protocol]) => {
                self.seat = Some(SeatFields {
                    user: user.to_vec(),
                    computer: computer.to_vec(),
                    protocol: protocol.to_vec(),
                });
                granted(Ok(()))
            }
            (b"buffers", [hub, seat, out]) => {
                let length = |word| match number(word)? {
                    length if length <= SIZE_LIMIT as u64 => Ok(length as usize),
                    _ => Err(Malformed),
                };
                let (hub, seat, out) = (length(hub)?, length(seat)?, length(out)?);
                self.hub_frame = vec![0; hub];
                self.seat_frame = vec![0; seat];
                self.out = vec![0; out];
                granted(Ok(()))
            }
            (b"setup", []) => self.set_up(),
            _ => Err(Malformed),
        }
    }

    fn set_up(&mut self) -> Answer {
        let (Some(hub_log), Some(seat_log), Some(fields)) =
            (&mut self.hub_log, &self.seat_log, &self.seat)
        else {
            return Err(Malformed);
        };
        if self.up.is_none() || self.down.is_none() {
            return Err(Malformed);
        }
        let fields = Fields {
            user: &fields.user,
            computer: &fields.computer,
            protocol: &fields.protocol,
        };
        let accounts = std::mem::take(&mut self.accounts);
        let (hub_frame, seat_frame, out) = (&self.hub_frame, &self.seat_frame, &self.out);
        match Pair::set_up(
            accounts, fields, hub_log, seat_log, hub_frame, seat_frame, out,
        ) {
            Ok(pair) => {
                self.pair = Some(pair);
                granted(Ok(()))
            }
            Err(unmade) => {
                self.accounts = unmade.given;
                Ok(refused(unmade.refusal))
            }
        }
    }

    fn stage(&mut self) -> Result<Stage<'_>, Malformed> {
        match (
            &mut self.pair,
            &mut self.hub_log,
            &mut self.seat_log,
            &mut self.up,
            &mut self.down,
        ) {
            (Some(pair), Some(hub_log), Some(seat_log), Some(up), Some(down)) => Ok(Stage {
                pair,
                hub_log,
                seat_log,
                up,
                down,
                hub_frame: &mut self.hub_frame,
                seat_frame: &mut self.seat_frame,
                out: &mut self.out,
            }),
            _ => Err(Malformed),
        }
    }

    fn call(&mut self, name: &[u8], rest: &[&[u8]]) -> Answer {
        let mut s = self.stage()?;
        match (name, rest) {
            (b"connect", way) => {
                let how = match *way {
                    [b"join"] => How::Join,
                    [b"anew"] => How::Anew,
                    [b"fetch", end] => How::Fetch(number(end)?),
                    _ => return Err(Malformed),
                };
                granted(s.pair.connect(how, s.seat_log, s.up, s.down, s.out))
            }
            (b"cut", []) => {
                s.pair.cut(s.up, s.down);
                granted(Ok(()))
            }
            (b"publish", [message]) => granted(s.pair.publish(s.hub_log, &bytes(message)?)),
            (b"finish", []) => granted(s.pair.finish()),
            (b"roll", []) => granted(s.pair.roll(s.hub_log)),
            (b"tell", [message]) => granted(s.pair.tell(&bytes(message)?, s.down, s.out)),
            (b"say", [message]) => granted(s.pair.say(&bytes(message)?, s.up, s.out)),
            (b"leave", []) => granted(s.pair.leave(s.up, s.out)),
            (b"hub-receive", []) => Ok(received(s.pair.hub_receive(
                s.hub_log,
                s.up,
                s.down,
                s.hub_frame,
                s.out,
            ))),
            (b"seat-receive", []) => Ok(received(s.pair.seat_receive(
                s.seat_log,
                s.up,
                s.down,
                s.seat_frame,
                s.out,
            ))),
            (b"hub-send", []) => Ok(sent(s.pair.hub_send(s.hub_log, s.down, s.out))),
            (b"seat-send", []) => Ok(sent(s.pair.seat_send(s.seat_log, s.up, s.out))),
            (b"tick", [] | [_]) => {
                let ticks = match rest.first() {
                    Some(word) => number(word)?,
                    None => 1,
                };
                if ticks > 1_000_000 {
                    return Err(Malformed);
                }
                granted((0..ticks).try_for_each(|_| s.pair.tick(s.down, s.out)))
            }
            (b"round", []) => Ok(match s.round() {
                Ok(round) => format!("hub {} seat {}", heard(round.hub), heard(round.seat)),
                Err(refusal) => refused(refusal),
            }),
            (b"level", [b"join"]) => granted(s.level(How::Join)),
            (b"level", [b"anew"]) => granted(s.level(How::Anew)),
            (b"put-up", [piece]) => granted(s.up.line.put(&bytes(piece)?)),
            (b"put-down", [piece]) => granted(s.down.line.put(&bytes(piece)?)),
            _ => Err(Malformed),
        }
    }

    fn question(&self, name: &[u8], rest: &[&[u8]]) -> Answer {
        match (name, rest) {
            (b"show", []) => self.show(),
            (b"wire", []) => match (&self.up, &self.down) {
                (Some(up), Some(down)) => Ok(format!("up {} down {}", waits(up), waits(down))),
                _ => Err(Malformed),
            },
            (b"log", [b"hub"]) => log_line(&self.hub_log),
            (b"log", [b"seat"]) => log_line(&self.seat_log),
            (b"out", [count]) => {
                let front = usize::try_from(number(count)?)
                    .ok()
                    .and_then(|n| self.out.get(..n));
                Ok(hex(front.ok_or(Malformed)?))
            }
            _ => Err(Malformed),
        }
    }

    fn show(&self) -> Answer {
        let (Some(pair), Some(hub_log), Some(seat_log), Some(up), Some(down)) = (
            &self.pair,
            &self.hub_log,
            &self.seat_log,
            &self.up,
            &self.down,
        ) else {
            return Err(Malformed);
        };
        Ok(format!(
            "hub {} seat {} instep {} status {} hub-log {} {} seat-log {} {} up {} {} down {} {} marked {}",
            pair.hub_phase().name(),
            pair.seat_phase().name(),
            if pair.in_step() { "yes" } else { "no" },
            pair.status().map_or('-', |status| status.byte() as char),
            hub_log.session(),
            hub_log.count(),
            seat_log.session(),
            seat_log.count(),
            up.waiting(),
            up.room(),
            down.waiting(),
            down.room(),
            pair.accounts().rows().iter().filter(|row| row.marked).count(),
        ))
    }
}

impl Stage<'_> {
    fn round(&mut self) -> Result<crate::pair::Round, Refusal> {
        self.pair.round(
            self.hub_log,
            self.seat_log,
            self.up,
            self.down,
            self.hub_frame,
            self.seat_frame,
            self.out,
        )
    }

    /// Connects, and goes the rounds that lead to the end of the hub's log.
    fn level(mut self, how: How) -> Result<(), Refusal> {
        let short = |buffer: &[u8]| buffer.len() < PACKET_LIMIT;
        if short(self.hub_frame) || short(self.seat_frame) || short(self.out) {
            return Err(Refusal::ShortBuffer);
        }
        let asked = if how == How::Anew {
            1
        } else {
            self.seat_log.count() + 1
        };
        self.pair
            .connect(how, self.seat_log, self.up, self.down, self.out)?;
        for _ in 0..(self.hub_log.count() + 2).saturating_sub(asked) {
            self.round()?;
        }
        Ok(())
    }
}

fn keep<T>(place: &mut Option<T>, made: Result<T, Refusal>) -> Answer {
    granted(made.map(|made| *place = Some(made)))
}

fn log_of(words: &[&[u8]]) -> Result<Result<AnyLog, Refusal>, Malformed> {
    match *words {
        [b"journal", size] => {
            let size = number(size)?;
            if size > SIZE_LIMIT as u64 {
                return Ok(Err(Refusal::SizeOutOfRange));
            }
            let made = Journal::new(vec![0; size as usize]);
            Ok(made.map(AnyLog::Journal).map_err(|unmade| unmade.refusal))
        }
        [b"indexed", pool, table] => {
            let (pool, table) = (number(pool)?, number(table)?);
            if pool > SIZE_LIMIT as u64 || table > TABLE_LIMIT as u64 {
                return Ok(Err(Refusal::SizeOutOfRange));
            }
            let made = Indexed::new(vec![0; pool as usize], vec![0; table as usize]);
            Ok(made.map(AnyLog::Indexed).map_err(|unmade| unmade.refusal))
        }
        _ => Err(Malformed),
    }
}

fn line_of(words: &[&[u8]]) -> Result<Result<AnyLine, Refusal>, Malformed> {
    let memory = |size| match number(size)? {
        size if size <= LINE_LIMIT as u64 => Ok(vec![0; size as usize]),
        // No line is so large: a memory of no byte is refused alike.
        _ => Ok(Vec::new()),
    };
    let pace = |word| Ok(usize::try_from(number(word)?).unwrap_or(usize::MAX));
    let made = match *words {
        [b"ring", size] => Ring::new(memory(size)?)
            .map(AnyLine::Ring)
            .map_err(|u| u.refusal),
        [b"straight", size] => Straight::new(memory(size)?)
            .map(AnyLine::Straight)
            .map_err(|u| u.refusal),
        [b"paced", n, b"ring", size] => {
            let pace = pace(n)?;
            Ring::new(memory(size)?)
                .map_err(|unmade| unmade.refusal)
                .and_then(|line| Paced::new(line, pace).map_err(|unmade| unmade.refusal))
                .map(AnyLine::PacedRing)
        }
        [b"paced", n, b"straight", size] => {
            let pace = pace(n)?;
            Straight::new(memory(size)?)
                .map_err(|unmade| unmade.refusal)
                .and_then(|line| Paced::new(line, pace).map_err(|unmade| unmade.refusal))
                .map(AnyLine::PacedStraight)
        }
        _ => return Err(Malformed),
    };
    Ok(made)
}

fn number(word: &[u8]) -> Result<u64, Malformed> {
    // A number is parsed after a plus or none, as the pages say.
    std::str::from_utf8(word)
        .ok()
        .and_then(|text| text.parse().ok())
        .ok_or(Malformed)
}

fn bytes(word: &[u8]) -> Result<Vec<u8>, Malformed> {
    if word == b"-" {
        return Ok(Vec::new());
    }
    let digit = |byte: u8| char::from(byte).to_digit(16).ok_or(Malformed);
    let pairs = word.chunks_exact(2);
    if !pairs.remainder().is_empty() {
        return Err(Malformed);
    }
    pairs
        .map(|pair| Ok((digit(pair[0])? << 4 | digit(pair[1])?) as u8))
        .collect()
}

fn push_hex(text: &mut String, bytes: &[u8]) {
    for byte in bytes {
        let _ = write!(text, "{byte:02x}");
    }
}

fn hex(bytes: &[u8]) -> String {
    let mut text = String::with_capacity(2 * bytes.len());
    push_hex(&mut text, bytes);
    if text.is_empty() {
        text.push('-');
    }
    text
}

fn waits(line: &Watched) -> String {
    let (first, second) = line.slices();
    hex(&[first, second].concat())
}

fn log_line(log: &Option<AnyLog>) -> Answer {
    let log = log.as_ref().ok_or(Malformed)?;
    let mut text = format!("{}:", log.session());
    for message in (1..=log.count()).filter_map(|n| log.message(n)) {
        text.push(' ');
        text.push_str(&hex(message));
    }
    Ok(text)
}

fn granted<T>(answer: Result<T, Refusal>) -> Answer {
    Ok(match answer {
        Ok(_) => "ok".to_string(),
        Err(refusal) => refused(refusal),
    })
}

fn refused(refusal: Refusal) -> String {
    match refusal {
        Refusal::BadPacket(fault) => {
            format!("refused 18 packet {} {}", fault.cause(), fault.place())
        }
        Refusal::BrokenLog(place) => format!("refused 17 {place}"),
        refusal => format!("refused {}", refusal.number()),
    }
}

fn received(answer: Result<Received, Refusal>) -> String {
    match answer {
        Ok(Received::Nothing) => "nothing".to_string(),
        Ok(Received::Part) => "part".to_string(),
        Ok(Received::Acted(letter)) => format!("acted {}", letter.byte() as char),
        Ok(Received::Message { place, length }) => format!("message {place} {length}"),
        Err(Refusal::LogFull) => "refused 21 log 21 0".to_string(),
        Err(refusal) => refused(refusal),
    }
}

fn sent(answer: Result<Option<Letter>, Refusal>) -> String {
    match answer {
        Ok(Some(letter)) => format!("wrote {}", letter.byte() as char),
        Ok(None) => "idle".to_string(),
        Err(refusal) => refused(refusal),
    }
}

fn heard(heard: Heard) -> String {
    match heard.fault {
        Some(fault) => {
            format!(
                "{} fault {} {} {}",
                heard.acted,
                fault.layer(),
                fault.cause(),
                fault.place()
            )
        }
        None => heard.acted.to_string(),
    }
}
