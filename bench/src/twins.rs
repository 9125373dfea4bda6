//! The scenarios of `crates/export`, over this crate: the same work, and so the same sums.

use crate::account::Accounts;
use crate::fault::{Refusal, Unmade};
use crate::line::{Line, Paced, Ring};
use crate::log::{Journal, Log, SIZE_LIMIT};
use crate::packet::{self, Packet, MESSAGE_LIMIT, PACKET_LIMIT};
use crate::pair::{Fields, Pair, Round};
use crate::seat::How;

type Sum = Result<u64, Refusal>;

const SEED: u64 = 0x4e69_7468_7261_656c;
const FACTOR: u64 = 0x0000_0100_0000_01b3;
const LINE_SIZE: usize = 65_536;

#[inline]
fn mix(sum: u64, number: u64) -> u64 {
    sum.wrapping_mul(FACTOR).wrapping_add(number)
}

fn mix_bytes(sum: u64, bytes: &[u8]) -> u64 {
    bytes.iter().fold(sum, |sum, &byte| mix(sum, byte.into()))
}

/// The number in the first eight bytes, the least byte first; of fewer bytes, how many there are.
#[inline]
fn word(bytes: &[u8]) -> u64 {
    match bytes.first_chunk::<8>() {
        Some(word) => u64::from_le_bytes(*word),
        None => bytes.len() as u64,
    }
}

fn last_word(bytes: &[u8]) -> u64 {
    match bytes.last_chunk::<8>() {
        Some(last) => word(last),
        None => word(bytes),
    }
}

/// Writes a number in the first eight bytes of a message. A shorter one stays.
#[inline]
fn stamp(message: &mut [u8], number: u64) {
    if let Some(front) = message.first_chunk_mut::<8>() {
        *front = number.to_le_bytes();
    }
}

fn made<T, G>(made: Result<T, Unmade<G>>) -> Result<T, Refusal> {
    made.map_err(|unmade| unmade.refusal)
}

/// Writes a sequenced packet with a message of this length, and reads it, so many times.
pub fn packets(length: usize, times: u64) -> Sum {
    let mut message = vec![0; length];
    let mut out = vec![0; PACKET_LIMIT];
    let mut sum = SEED;
    for number in 0..times {
        stamp(&mut message, number);
        sum = written_and_read(sum, number, &message, &mut out)?;
    }
    Ok(mix_bytes(sum, &out))
}

fn written_and_read(sum: u64, number: u64, message: &[u8], out: &mut [u8]) -> Sum {
    let length = Packet::Sequenced { number, message }.write(out)?;
    let sum = mix(sum, length as u64);
    match packet::read(out)? {
        Some(Packet::Sequenced { number, message }) => Ok(mix(mix(sum, number), word(message))),
        _ => Ok(sum),
    }
}

/// Puts a piece of this length on a ring of this size, and takes what waits, so many times.
pub fn through_ring(size: usize, length: usize, times: u64) -> Sum {
    let mut ring = made(Ring::new(vec![0; size]))?;
    let mut piece = vec![0; length];
    let mut buffer = vec![0; length];
    let mut sum = SEED;
    for number in 0..times {
        stamp(&mut piece, number);
        ring.put(&piece)?;
        let taken = ring.take(&mut buffer);
        sum = mix(mix(sum, taken as u64), word(&buffer));
    }
    Ok(mix_bytes(sum, &buffer))
}

fn fill(log: &mut Journal, message: &mut [u8]) -> Result<(), Refusal> {
    log.begin(1)?;
    for number in 1..=SIZE_LIMIT {
        stamp(message, number as u64);
        if log.append(message).is_err() {
            return Ok(());
        }
    }
    Ok(())
}

fn full(size: usize, length: usize) -> Result<Journal, Refusal> {
    let mut log = made(Journal::new(vec![0; size]))?;
    fill(&mut log, &mut vec![0; length])?;
    Ok(log)
}

/// Begins a session in a journal of so many bytes, and appends messages of this length until it is full, so many
/// times.
pub fn appends(size: usize, length: usize, times: u64) -> Sum {
    let mut log = made(Journal::new(vec![0; size]))?;
    let mut message = vec![0; length];
    let mut sum = SEED;
    for _ in 0..times {
        fill(&mut log, &mut message)?;
        sum = mix(sum, log.count());
    }
    Ok(mix_bytes(sum, log.bytes()))
}

/// Reads every message of a full journal, so many times.
pub fn reads(size: usize, length: usize, times: u64) -> Sum {
    let log = full(size, length)?;
    let mut buffer = vec![0; MESSAGE_LIMIT];
    let mut sum = SEED;
    for _ in 0..times {
        for n in 1..=log.count() {
            let length = log.read(n, &mut buffer)?;
            sum = mix(mix(sum, length as u64), word(&buffer));
        }
    }
    Ok(mix_bytes(sum, &buffer))
}

/// Copies the saved form of a full journal, and opens the copy, so many times.
pub fn opens(size: usize, length: usize, times: u64) -> Sum {
    let log = full(size, length)?;
    let mut sum = SEED;
    for _ in 0..times {
        let memory = log.bytes().to_vec();
        let used = memory.len();
        let opened = made(Journal::open(memory, used))?;
        sum = mix(mix(sum, opened.count()), last_word(opened.bytes()));
    }
    Ok(mix_bytes(sum, log.bytes()))
}

/// Copies the saved form of a full journal, as `opens` does, and opens nothing.
pub fn copies(size: usize, length: usize, times: u64) -> Sum {
    let log = full(size, length)?;
    let mut sum = SEED;
    for _ in 0..times {
        let memory = log.bytes().to_vec();
        sum = mix(mix(sum, log.count()), last_word(&memory));
    }
    Ok(mix_bytes(sum, log.bytes()))
}

/// A pair, and all that its calls are lent.
struct Stage<L> {
    pair: Pair,
    hub_log: Journal,
    seat_log: Journal,
    up: L,
    down: L,
    hub_frame: Vec<u8>,
    seat_frame: Vec<u8>,
    out: Vec<u8>,
}

impl<L: Line> Stage<L> {
    fn new(size: usize, up: L, down: L) -> Result<Stage<L>, Refusal> {
        let mut hub_log = made(Journal::new(vec![0; size]))?;
        let seat_log = made(Journal::new(vec![0; size]))?;
        let hub_frame = vec![0; PACKET_LIMIT];
        let seat_frame = vec![0; PACKET_LIMIT];
        let out = vec![0; PACKET_LIMIT];
        let mut accounts = Accounts::new();
        accounts.add(b"mm01", b"desk1", b"fill1.0")?;
        let fields = Fields {
            user: b"mm01",
            computer: b"desk1",
            protocol: b"fill1.0",
        };
        let pair = made(Pair::set_up(
            accounts,
            fields,
            &mut hub_log,
            &seat_log,
            &hub_frame,
            &seat_frame,
            &out,
        ))?;
        Ok(Stage {
            pair,
            hub_log,
            seat_log,
            up,
            down,
            hub_frame,
            seat_frame,
            out,
        })
    }

    fn publish(&mut self, message: &mut [u8], count: usize) {
        for number in 0..count {
            stamp(message, number as u64);
            if self.pair.publish(&mut self.hub_log, message).is_err() {
                return;
            }
        }
    }

    /// Connects anew, and goes the rounds after which the seat has all that the hub has.
    fn level(&mut self) -> Result<(), Refusal> {
        let rounds = self.hub_log.count() + 1;
        self.pair.connect(
            How::Anew,
            &self.seat_log,
            &mut self.up,
            &mut self.down,
            &mut self.out,
        )?;
        for _ in 0..rounds {
            self.round()?;
        }
        Ok(())
    }

    #[inline]
    fn round(&mut self) -> Result<Round, Refusal> {
        self.pair.round(
            &self.hub_log,
            &mut self.seat_log,
            &mut self.up,
            &mut self.down,
            &mut self.hub_frame,
            &mut self.seat_frame,
            &mut self.out,
        )
    }
}

fn ring() -> Result<Ring, Refusal> {
    made(Ring::new(vec![0; LINE_SIZE]))
}

fn leveled<L: Line>(mut stage: Stage<L>, length: usize, times: u64) -> Sum {
    stage.publish(&mut vec![0; length], SIZE_LIMIT);
    let mut sum = SEED;
    for _ in 0..times {
        stage.level()?;
        sum = mix(
            mix(sum, stage.seat_log.count()),
            stage.pair.in_step().into(),
        );
    }
    Ok(mix_bytes(sum, stage.seat_log.bytes()))
}

/// Brings a seat level, from the first message on, with a hub whose journal of so many bytes is full of messages of
/// this length, so many times. The lines are rings.
pub fn levels(size: usize, length: usize, times: u64) -> Sum {
    leveled(Stage::new(size, ring()?, ring()?)?, length, times)
}

/// The same over lines that hand over so many bytes at once, at most.
pub fn levels_paced(pace: usize, size: usize, length: usize, times: u64) -> Sum {
    let up = made(Paced::new(ring()?, pace))?;
    let down = made(Paced::new(ring()?, pace))?;
    leveled(Stage::new(size, up, down)?, length, times)
}

/// Publishes a message of this length and goes a round, so many times, where hub and seat hold so many messages
/// before. The journals have so many bytes, the lines are rings.
pub fn lives(size: usize, length: usize, held: usize, times: u64) -> Sum {
    let mut stage = Stage::new(size, ring()?, ring()?)?;
    let mut message = vec![0; length];
    stage.publish(&mut message, held);
    stage.level()?;
    let mut sum = SEED;
    for number in 0..times {
        stamp(&mut message, number);
        stage.pair.publish(&mut stage.hub_log, &message)?;
        let round = stage.round()?;
        sum = mix(mix(sum, round.seat.acted), round.hub.acted);
    }
    Ok(mix_bytes(sum, stage.seat_log.bytes()))
}
