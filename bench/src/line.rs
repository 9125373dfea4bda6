//! Lines: queues of bytes between two ends.

use crate::fault::{Refusal, Unmade};
use crate::packet::PACKET_LIMIT;

/// The largest full size of a line; the smallest is the longest packet.
pub const LINE_LIMIT: usize = 1_048_576;

/// A queue of bytes. What is put comes out once, in order, unless the line is cleared.
pub trait Line {
    /// How many bytes wait.
    fn waiting(&self) -> usize;

    /// How many bytes can be put now.
    fn room(&self) -> usize;

    /// The room when nothing waits.
    fn full_size(&self) -> usize;

    /// The most that one take hands over.
    fn limit(&self) -> usize;

    /// Puts a piece behind what waits, all of it or nothing.
    fn put(&mut self, piece: &[u8]) -> Result<(), Refusal>;

    /// Hands over the first bytes that wait, and says how many.
    fn take(&mut self, buffer: &mut [u8]) -> usize;

    /// Drops what waits.
    fn clear(&mut self);

    /// What waits, in two slices.
    fn slices(&self) -> (&[u8], &[u8]);
}

fn judged(memory: Vec<u8>) -> Result<Vec<u8>, Unmade<Vec<u8>>> {
    if (PACKET_LIMIT..=LINE_LIMIT).contains(&memory.len()) {
        Ok(memory)
    } else {
        Err(Unmade {
            refusal: Refusal::SizeOutOfRange,
            given: memory,
        })
    }
}

/// A line whose memory is used round and round.
#[derive(Debug)]
pub struct Ring {
    memory: Vec<u8>,
    start: usize,
    waiting: usize,
}

impl Ring {
    pub fn new(memory: Vec<u8>) -> Result<Ring, Unmade<Vec<u8>>> {
        Ok(Ring {
            memory: judged(memory)?,
            start: 0,
            waiting: 0,
        })
    }
}

impl Line for Ring {
    #[inline]
    fn waiting(&self) -> usize {
        self.waiting
    }

    #[inline]
    fn room(&self) -> usize {
        self.memory.len() - self.waiting
    }

    #[inline]
    fn full_size(&self) -> usize {
        self.memory.len()
    }

    #[inline]
    fn limit(&self) -> usize {
        PACKET_LIMIT
    }

    #[inline]
    fn put(&mut self, piece: &[u8]) -> Result<(), Refusal> {
        if piece.len() > self.room() {
            return Err(Refusal::LineFull);
        }
        let size = self.memory.len();
        let mut end = self.start + self.waiting;
        if end >= size {
            end -= size;
        }
        let before_edge = size - end;
        if piece.len() <= before_edge {
            self.memory[end..end + piece.len()].copy_from_slice(piece);
        } else {
            let (first, second) = piece.split_at(before_edge);
            self.memory[end..].copy_from_slice(first);
            self.memory[..second.len()].copy_from_slice(second);
        }
        self.waiting += piece.len();
        Ok(())
    }

    #[inline]
    fn take(&mut self, buffer: &mut [u8]) -> usize {
        let count = buffer.len().min(self.waiting).min(PACKET_LIMIT);
        let before_edge = self.memory.len() - self.start;
        if count < before_edge {
            buffer[..count].copy_from_slice(&self.memory[self.start..self.start + count]);
            self.start += count;
        } else {
            let (first, second) = buffer[..count].split_at_mut(before_edge);
            first.copy_from_slice(&self.memory[self.start..]);
            second.copy_from_slice(&self.memory[..second.len()]);
            self.start = count - before_edge;
        }
        self.waiting -= count;
        count
    }

    #[inline]
    fn clear(&mut self) {
        self.start = 0;
        self.waiting = 0;
    }

    fn slices(&self) -> (&[u8], &[u8]) {
        let before_edge = self.memory.len() - self.start;
        if self.waiting <= before_edge {
            (&self.memory[self.start..self.start + self.waiting], &[])
        } else {
            (
                &self.memory[self.start..],
                &self.memory[..self.waiting - before_edge],
            )
        }
    }
}

/// A line that is filled from the front, and anew once nothing waits. It hands over one byte at a time.
#[derive(Debug)]
pub struct Straight {
    memory: Vec<u8>,
    start: usize,
    end: usize,
}

impl Straight {
    pub fn new(memory: Vec<u8>) -> Result<Straight, Unmade<Vec<u8>>> {
        Ok(Straight {
            memory: judged(memory)?,
            start: 0,
            end: 0,
        })
    }
}

impl Line for Straight {
    #[inline]
    fn waiting(&self) -> usize {
        self.end - self.start
    }

    #[inline]
    fn room(&self) -> usize {
        self.memory.len() - self.end
    }

    #[inline]
    fn full_size(&self) -> usize {
        self.memory.len()
    }

    #[inline]
    fn limit(&self) -> usize {
        1
    }

    #[inline]
    fn put(&mut self, piece: &[u8]) -> Result<(), Refusal> {
        let free = &mut self.memory[self.end..];
        free.get_mut(..piece.len())
            .ok_or(Refusal::LineFull)?
            .copy_from_slice(piece);
        self.end += piece.len();
        Ok(())
    }

    #[inline]
    fn take(&mut self, buffer: &mut [u8]) -> usize {
        if self.start == self.end {
            return 0;
        }
        let Some(first) = buffer.first_mut() else {
            return 0;
        };
        *first = self.memory[self.start];
        self.start += 1;
        if self.start == self.end {
            self.clear();
        }
        1
    }

    #[inline]
    fn clear(&mut self) {
        self.start = 0;
        self.end = 0;
    }

    fn slices(&self) -> (&[u8], &[u8]) {
        (&self.memory[self.start..self.end], &[])
    }
}

/// A layer over a line, which hands over a smaller number of bytes at a time.
#[derive(Debug)]
pub struct Paced<L> {
    line: L,
    number: usize,
}

impl<L: Line> Paced<L> {
    pub fn new(line: L, number: usize) -> Result<Paced<L>, Unmade<L>> {
        if (1..=PACKET_LIMIT).contains(&number) {
            Ok(Paced { line, number })
        } else {
            Err(Unmade {
                refusal: Refusal::SizeOutOfRange,
                given: line,
            })
        }
    }
}

impl<L: Line> Line for Paced<L> {
    #[inline]
    fn waiting(&self) -> usize {
        self.line.waiting()
    }

    #[inline]
    fn room(&self) -> usize {
        self.line.room()
    }

    #[inline]
    fn full_size(&self) -> usize {
        self.line.full_size()
    }

    #[inline]
    fn limit(&self) -> usize {
        self.line.limit().min(self.number)
    }

    #[inline]
    fn put(&mut self, piece: &[u8]) -> Result<(), Refusal> {
        self.line.put(piece)
    }

    #[inline]
    fn take(&mut self, buffer: &mut [u8]) -> usize {
        let count = buffer.len().min(self.number);
        self.line.take(&mut buffer[..count])
    }

    #[inline]
    fn clear(&mut self) {
        self.line.clear();
    }

    fn slices(&self) -> (&[u8], &[u8]) {
        self.line.slices()
    }
}

/// A ring or a straight line, or either with a layer over it, chosen at run time.
#[derive(Debug)]
pub enum AnyLine {
    Ring(Ring),
    Straight(Straight),
    PacedRing(Paced<Ring>),
    PacedStraight(Paced<Straight>),
}

macro_rules! any {
    ($line:expr, $inner:ident => $call:expr) => {
        match $line {
            AnyLine::Ring($inner) => $call,
            AnyLine::Straight($inner) => $call,
            AnyLine::PacedRing($inner) => $call,
            AnyLine::PacedStraight($inner) => $call,
        }
    };
}

impl Line for AnyLine {
    #[inline]
    fn waiting(&self) -> usize {
        any!(self, line => line.waiting())
    }

    #[inline]
    fn room(&self) -> usize {
        any!(self, line => line.room())
    }

    #[inline]
    fn full_size(&self) -> usize {
        any!(self, line => line.full_size())
    }

    #[inline]
    fn limit(&self) -> usize {
        any!(self, line => line.limit())
    }

    #[inline]
    fn put(&mut self, piece: &[u8]) -> Result<(), Refusal> {
        any!(self, line => line.put(piece))
    }

    #[inline]
    fn take(&mut self, buffer: &mut [u8]) -> usize {
        any!(self, line => line.take(buffer))
    }

    #[inline]
    fn clear(&mut self) {
        any!(self, line => line.clear())
    }

    fn slices(&self) -> (&[u8], &[u8]) {
        any!(self, line => line.slices())
    }
}

/// Moves what waits in one line to another, as far as there is room, and says how much.
pub fn transfer<A: Line, B: Line>(
    from: &mut A,
    to: &mut B,
    buffer: &mut [u8],
) -> Result<usize, Refusal> {
    if buffer.is_empty() {
        return Err(Refusal::ShortBuffer);
    }
    let mut moved = 0;
    loop {
        let count = buffer.len().min(to.room());
        let taken = from.take(&mut buffer[..count]);
        if taken == 0 {
            return Ok(moved);
        }
        to.put(&buffer[..taken])?;
        moved += taken;
    }
}

#[cfg(test)]
mod tests {
    use super::*;

    fn lines(size: usize) -> Vec<AnyLine> {
        let ring = || Ring::new(vec![0; size]).unwrap();
        let straight = || Straight::new(vec![0; size]).unwrap();
        vec![
            AnyLine::Ring(ring()),
            AnyLine::Straight(straight()),
            AnyLine::PacedRing(Paced::new(ring(), 3).unwrap()),
            AnyLine::PacedStraight(Paced::new(straight(), 3).unwrap()),
        ]
    }

    #[test]
    fn sizes() {
        for size in [0, 4106, LINE_LIMIT + 1] {
            assert_eq!(Ring::new(vec![0; size]).unwrap_err().given.len(), size);
            assert_eq!(Straight::new(vec![0; size]).unwrap_err().given.len(), size);
        }
        for number in [0, 4108] {
            let ring = Ring::new(vec![0; 4107]).unwrap();
            assert_eq!(
                Paced::new(ring, number).unwrap_err().refusal,
                Refusal::SizeOutOfRange
            );
        }
        let limits: Vec<_> = lines(LINE_LIMIT).iter().map(Line::limit).collect();
        assert_eq!(limits, [4107, 1, 3, 1]);
    }

    #[test]
    fn what_goes_in_comes_out() {
        for mut line in lines(4107) {
            let limit = line.limit();
            let (mut put, mut got) = (0u32, 0u32);
            let mut buffer = vec![0; 700];
            for turn in 0..4000 {
                let length = turn * 37 % 1500;
                let piece: Vec<u8> = (put..put + length as u32)
                    .map(|n| (n % 251) as u8)
                    .collect();
                let (waiting, room) = (line.waiting(), line.room());
                match line.put(&piece) {
                    Ok(()) => {
                        put += length as u32;
                        assert!(length <= room);
                        assert_eq!(
                            (line.waiting(), line.room()),
                            (waiting + length, room - length)
                        );
                    }
                    Err(refusal) => {
                        assert_eq!(refusal, Refusal::LineFull);
                        assert!(length > room);
                        assert_eq!((line.waiting(), line.room()), (waiting, room));
                    }
                }
                let (first, second) = line.slices();
                assert_eq!(first.len() + second.len(), line.waiting());
                let seen: Vec<u8> = [first, second].concat();
                let (waiting, room) = (line.waiting(), line.room());
                let taken = line.take(&mut buffer);
                assert_eq!(taken, waiting.min(limit).min(700));
                assert_eq!(&buffer[..taken], &seen[..taken]);
                for byte in &buffer[..taken] {
                    assert_eq!(*byte, (got % 251) as u8);
                    got += 1;
                }
                assert!(line.room() >= room);
                if line.waiting() == 0 {
                    assert_eq!(line.room(), 4107);
                }
            }
            line.clear();
            assert_eq!((line.waiting(), line.room()), (0, 4107));
        }
    }

    #[test]
    fn a_straight_line_gives_nothing_back_until_it_is_empty() {
        let mut line = Straight::new(vec![0; 4107]).unwrap();
        line.put(b"ab").unwrap();
        let mut buffer = [0; 9];
        assert_eq!(line.take(&mut buffer), 1);
        assert_eq!(line.room(), 4105);
        assert_eq!(line.take(&mut buffer), 1);
        assert_eq!(line.room(), 4107);
        assert_eq!(line.take(&mut buffer), 0);
    }

    #[test]
    fn transfers() {
        let mut from = Ring::new(vec![0; 5000]).unwrap();
        let mut to = Straight::new(vec![0; 4107]).unwrap();
        assert_eq!(
            transfer(&mut from, &mut to, &mut []),
            Err(Refusal::ShortBuffer)
        );
        from.put(&[7; 5000]).unwrap();
        assert_eq!(transfer(&mut from, &mut to, &mut [0; 64]), Ok(4107));
        assert_eq!((from.waiting(), to.waiting()), (893, 4107));
    }
}
