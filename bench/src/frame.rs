//! What both ends share: a frame that is filled from a line, counts of ticks, and the writing of a packet to a line.

use crate::fault::{PacketFault, Refusal};
use crate::line::Line;
use crate::packet::{packet_len, Letter, Packet, PACKET_LIMIT};

/// Bytes of the length number.
const NUMBER: usize = 2;

/// How far a lent buffer is filled with the packet that is coming in.
#[derive(Clone, Copy, Debug)]
pub struct Frame {
    held: usize,
    /// Up to where it is filled next: the length number first, then the whole packet.
    wanted: usize,
}

/// What a take led to.
#[derive(Clone, Copy, PartialEq, Eq, Debug)]
pub enum Taken {
    Nothing,
    Part,
    /// A whole packet stands at the buffer's front, and the frame is empty again.
    Whole(usize),
}

impl Frame {
    pub const EMPTY: Frame = Frame {
        held: 0,
        wanted: NUMBER,
    };

    /// Takes once, at most what is lacking.
    #[inline]
    pub fn take<L: Line>(&mut self, line: &mut L, buffer: &mut [u8]) -> Result<Taken, PacketFault> {
        let taken = line.take(&mut buffer[self.held..self.wanted]);
        if taken == 0 {
            return Ok(Taken::Nothing);
        }
        self.held += taken;
        if self.held < self.wanted {
            return Ok(Taken::Part);
        }
        if self.held > NUMBER {
            let len = self.held;
            *self = Frame::EMPTY;
            return Ok(Taken::Whole(len));
        }
        match packet_len(&buffer[..NUMBER])? {
            Some(len) => self.wanted = len,
            None => unreachable!("both bytes of the length number are in"),
        }
        Ok(Taken::Part)
    }
}

/// A count of ticks, up to 1,000.
#[derive(Clone, Copy, Default, Debug)]
pub struct Ticks(u16);

impl Ticks {
    #[inline]
    pub fn raise(&mut self) {
        self.0 = (self.0 + 1).min(1000);
    }

    #[inline]
    pub fn clear(&mut self) {
        self.0 = 0;
    }

    #[inline]
    pub fn above(self, limit: u16) -> bool {
        self.0 > limit
    }
}

/// Above so many ticks in which nothing was written a heartbeat is due.
pub const HEARTBEAT_TICKS: u16 = 10;
/// Above so many ticks in which nothing was heard the other end is given up.
pub const SILENCE_TICKS: u16 = 30;
/// Above so many ticks a hub waits no longer for a login request.
pub const LOGIN_TICKS: u16 = 300;

/// What a receive answers.
#[derive(Clone, Copy, PartialEq, Eq, Debug)]
pub enum Received {
    Nothing,
    Part,
    Acted(Letter),
    /// An unsequenced message, and where it stands in the frame's buffer.
    Message {
        place: usize,
        length: usize,
    },
}

/// Whether a lent buffer is long enough.
#[inline]
pub fn long_enough(buffer: &[u8]) -> Result<(), Refusal> {
    if buffer.len() < PACKET_LIMIT {
        Err(Refusal::ShortBuffer)
    } else {
        Ok(())
    }
}

/// Writes a packet to a line by way of the outgoing buffer; both are untouched where the line lacks room.
#[inline]
pub fn post<L: Line>(packet: &Packet, line: &mut L, out: &mut [u8]) -> Result<(), Refusal> {
    if packet.len() > line.room() {
        return Err(Refusal::LineFull);
    }
    let len = packet.write(out)?;
    line.put(&out[..len])
}
