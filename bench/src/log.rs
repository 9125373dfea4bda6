//! Logs: the trait, the journal, the indexed log, and a log of either kind.

use crate::fault::{Refusal, Unmade};
use crate::packet::MESSAGE_LIMIT;

/// The largest memory of a journal and the largest pool.
pub const SIZE_LIMIT: usize = 16_777_216;
/// The largest table of an indexed log.
pub const TABLE_LIMIT: usize = 1_048_576;

/// A list of messages under a session. Messages are numbered from 1.
pub trait Log {
    /// The session, 0 for none.
    fn session(&self) -> u8;

    fn count(&self) -> u64;

    /// Message `n`, lent.
    fn message(&self, n: u64) -> Option<&[u8]>;

    /// Whether a message of this length would be taken.
    fn would_take(&self, length: usize) -> Result<(), Refusal>;

    /// Drops all messages and bears the session given.
    fn begin(&mut self, session: u8) -> Result<(), Refusal>;

    fn append(&mut self, message: &[u8]) -> Result<(), Refusal>;

    fn length_of(&self, n: u64) -> Result<usize, Refusal> {
        self.message(n)
            .map(<[u8]>::len)
            .ok_or(Refusal::NoSuchMessage)
    }

    /// Copies message `n` to the front of the buffer and gives its length.
    fn read(&self, n: u64, buffer: &mut [u8]) -> Result<usize, Refusal> {
        let message = self.message(n).ok_or(Refusal::NoSuchMessage)?;
        let front = buffer
            .get_mut(..message.len())
            .ok_or(Refusal::ShortBuffer)?;
        front.copy_from_slice(message);
        Ok(message.len())
    }
}

const SESSION_MARK: [u8; 2] = *b"BS";
const MESSAGE_MARK: [u8; 2] = *b"MG";
const HEAD: usize = 4;
/// The session record is the first and takes five bytes.
const SESSION_RECORD: usize = HEAD + 1;
const SESSION_PLACE: usize = HEAD;

/// A log whose bytes in use are its saved form.
#[derive(Debug)]
pub struct Journal {
    memory: Vec<u8>,
    used: usize,
    /// Where each message's record ends. Its capacity is got when the journal is made.
    ends: Vec<u32>,
}

impl Journal {
    /// A journal that bears no session.
    pub fn new(mut memory: Vec<u8>) -> Result<Journal, Unmade<Vec<u8>>> {
        if !(SESSION_RECORD..=SIZE_LIMIT).contains(&memory.len()) {
            return Err(Unmade {
                refusal: Refusal::SizeOutOfRange,
                given: memory,
            });
        }
        let Some(ends) = Self::index(memory.len()) else {
            return Err(Unmade {
                refusal: Refusal::OutOfMemory,
                given: memory,
            });
        };
        Self::lay_session(&mut memory, 0);
        Ok(Journal {
            memory,
            used: SESSION_RECORD,
            ends,
        })
    }

    /// A journal of the saved form at the front of the memory.
    pub fn open(memory: Vec<u8>, used: usize) -> Result<Journal, Unmade<Vec<u8>>> {
        let in_range = (SESSION_RECORD..=SIZE_LIMIT).contains(&memory.len());
        if !in_range || used > memory.len() {
            return Err(Unmade {
                refusal: Refusal::SizeOutOfRange,
                given: memory,
            });
        }
        let Some(mut ends) = Self::index(memory.len()) else {
            return Err(Unmade {
                refusal: Refusal::OutOfMemory,
                given: memory,
            });
        };
        match Self::walk(&memory[..used], &mut ends) {
            Ok(()) => Ok(Journal { memory, used, ends }),
            Err(place) => Err(Unmade {
                refusal: Refusal::BrokenLog(place),
                given: memory,
            }),
        }
    }

    /// The saved form.
    pub fn bytes(&self) -> &[u8] {
        &self.memory[..self.used]
    }

    /// The memory, once the journal is no longer wanted.
    pub fn into_memory(self) -> Vec<u8> {
        self.memory
    }

    fn index(size: usize) -> Option<Vec<u32>> {
        let mut ends = Vec::new();
        ends.try_reserve_exact((size - SESSION_RECORD) / HEAD)
            .ok()?;
        Some(ends)
    }

    fn lay_session(memory: &mut [u8], session: u8) {
        memory[..2].copy_from_slice(&SESSION_MARK);
        memory[2..SESSION_RECORD].copy_from_slice(&[1, 0, session]);
    }

    /// Notes where the records end, or gives the place of the first bad one.
    fn walk(saved: &[u8], ends: &mut Vec<u32>) -> Result<(), usize> {
        let mut place = 0;
        let mut session = None;
        while place < saved.len() || session.is_none() {
            let Some(head) = saved.get(place..place + HEAD) else {
                return Err(place);
            };
            let length = u16::from_le_bytes([head[2], head[3]]) as usize;
            let end = place + HEAD + length;
            let Some(body) = saved.get(place + HEAD..end) else {
                return Err(place);
            };
            match ([head[0], head[1]], session) {
                (SESSION_MARK, None) if length == 1 => session = Some(body[0]),
                (MESSAGE_MARK, Some(s)) if s != 0 && length <= MESSAGE_LIMIT => {
                    ends.push(end as u32);
                }
                _ => return Err(place),
            }
            place = end;
        }
        Ok(())
    }

    #[inline]
    fn room(&self) -> usize {
        self.memory.len() - self.used
    }
}

impl Log for Journal {
    #[inline]
    fn session(&self) -> u8 {
        self.memory[SESSION_PLACE]
    }

    #[inline]
    fn count(&self) -> u64 {
        self.ends.len() as u64
    }

    #[inline]
    fn message(&self, n: u64) -> Option<&[u8]> {
        let at = (n as usize).checked_sub(1)?;
        let end = *self.ends.get(at)? as usize;
        let before = if at == 0 {
            SESSION_RECORD
        } else {
            self.ends[at - 1] as usize
        };
        Some(&self.memory[before + HEAD..end])
    }

    #[inline]
    fn would_take(&self, length: usize) -> Result<(), Refusal> {
        if length > MESSAGE_LIMIT {
            Err(Refusal::MessageTooLong)
        } else if length + HEAD > self.room() {
            Err(Refusal::LogFull)
        } else if self.session() == 0 {
            Err(Refusal::NoSession)
        } else {
            Ok(())
        }
    }

    fn begin(&mut self, session: u8) -> Result<(), Refusal> {
        if session == 0 {
            return Err(Refusal::SessionZero);
        }
        Self::lay_session(&mut self.memory, session);
        self.used = SESSION_RECORD;
        self.ends.clear();
        Ok(())
    }

    #[inline]
    fn append(&mut self, message: &[u8]) -> Result<(), Refusal> {
        self.would_take(message.len())?;
        let end = self.used + HEAD + message.len();
        let record = &mut self.memory[self.used..end];
        let [low, high] = (message.len() as u16).to_le_bytes();
        record[..HEAD].copy_from_slice(&[MESSAGE_MARK[0], MESSAGE_MARK[1], low, high]);
        record[HEAD..].copy_from_slice(message);
        self.used = end;
        self.ends.push(end as u32);
        Ok(())
    }
}

/// A log over a pool of bytes and a table of ends.
#[derive(Debug)]
pub struct Indexed {
    pool: Vec<u8>,
    table: Vec<u32>,
    count: usize,
    used: usize,
    session: u8,
}

impl Indexed {
    #[allow(clippy::type_complexity)]
    pub fn new(pool: Vec<u8>, table: Vec<u32>) -> Result<Indexed, Unmade<(Vec<u8>, Vec<u32>)>> {
        if pool.len() > SIZE_LIMIT || table.len() > TABLE_LIMIT {
            return Err(Unmade {
                refusal: Refusal::SizeOutOfRange,
                given: (pool, table),
            });
        }
        Ok(Indexed {
            pool,
            table,
            count: 0,
            used: 0,
            session: 0,
        })
    }
}

impl Log for Indexed {
    #[inline]
    fn session(&self) -> u8 {
        self.session
    }

    #[inline]
    fn count(&self) -> u64 {
        self.count as u64
    }

    #[inline]
    fn message(&self, n: u64) -> Option<&[u8]> {
        let ends = &self.table[..self.count];
        let at = (n as usize).checked_sub(1)?;
        let end = *ends.get(at)? as usize;
        let start = if at == 0 { 0 } else { ends[at - 1] as usize };
        Some(&self.pool[start..end])
    }

    #[inline]
    fn would_take(&self, length: usize) -> Result<(), Refusal> {
        if length > MESSAGE_LIMIT {
            Err(Refusal::MessageTooLong)
        } else if length > self.pool.len() - self.used || self.count == self.table.len() {
            Err(Refusal::LogFull)
        } else if self.session == 0 {
            Err(Refusal::NoSession)
        } else {
            Ok(())
        }
    }

    fn begin(&mut self, session: u8) -> Result<(), Refusal> {
        if session == 0 {
            return Err(Refusal::SessionZero);
        }
        self.session = session;
        self.count = 0;
        self.used = 0;
        Ok(())
    }

    #[inline]
    fn append(&mut self, message: &[u8]) -> Result<(), Refusal> {
        self.would_take(message.len())?;
        let end = self.used + message.len();
        self.pool[self.used..end].copy_from_slice(message);
        self.table[self.count] = end as u32;
        self.used = end;
        self.count += 1;
        Ok(())
    }
}

/// A log of either kind, chosen at run time.
#[derive(Debug)]
pub enum AnyLog {
    Journal(Journal),
    Indexed(Indexed),
}

macro_rules! either {
    ($log:expr, $inner:ident => $call:expr) => {
        match $log {
            AnyLog::Journal($inner) => $call,
            AnyLog::Indexed($inner) => $call,
        }
    };
}

impl Log for AnyLog {
    #[inline]
    fn session(&self) -> u8 {
        either!(self, log => log.session())
    }

    #[inline]
    fn count(&self) -> u64 {
        either!(self, log => log.count())
    }

    #[inline]
    fn message(&self, n: u64) -> Option<&[u8]> {
        either!(self, log => log.message(n))
    }

    #[inline]
    fn would_take(&self, length: usize) -> Result<(), Refusal> {
        either!(self, log => log.would_take(length))
    }

    fn begin(&mut self, session: u8) -> Result<(), Refusal> {
        either!(self, log => log.begin(session))
    }

    #[inline]
    fn append(&mut self, message: &[u8]) -> Result<(), Refusal> {
        either!(self, log => log.append(message))
    }
}

#[cfg(test)]
mod tests {
    use super::*;

    const SAVED: [u8; 11] = [0x42, 0x53, 1, 0, 7, 0x4D, 0x47, 2, 0, 0x41, 0x42];

    fn opened(bytes: &[u8]) -> Result<Journal, Refusal> {
        let mut memory = bytes.to_vec();
        memory.resize(bytes.len().max(5) + 20, 0);
        Journal::open(memory, bytes.len()).map_err(|unmade| unmade.refusal)
    }

    #[test]
    fn the_worked_journal() {
        let journal = opened(&SAVED).unwrap();
        assert_eq!((journal.session(), journal.count()), (7, 1));
        assert_eq!(journal.message(1), Some(&b"AB"[..]));
        assert_eq!(journal.bytes(), SAVED);
        assert_eq!(opened(&SAVED[..10]).unwrap_err(), Refusal::BrokenLog(5));
        let mut made = Journal::new(vec![9; 13]).unwrap();
        assert_eq!(made.bytes(), [0x42, 0x53, 1, 0, 0]);
        made.begin(7).unwrap();
        assert_eq!(made.would_take(5), Err(Refusal::LogFull));
        assert_eq!(made.would_take(4), Ok(()));
        made.append(b"AB").unwrap();
        assert_eq!(made.bytes(), SAVED);
    }

    #[test]
    fn broken_journals() {
        let place = |bytes: &[u8]| match opened(bytes) {
            Err(Refusal::BrokenLog(place)) => Some(place),
            Ok(_) => None,
            other => panic!("{other:?}"),
        };
        assert_eq!(place(&[]), Some(0));
        assert_eq!(place(&SAVED[..5]), None);
        assert_eq!(place(&SAVED[..6]), Some(5));
        assert_eq!(place(&SAVED[5..]), Some(0));
        assert_eq!(place(&[0x42, 0x53, 2, 0, 7, 7]), Some(0));
        assert_eq!(place(&[0x42, 0x53, 1, 0, 7, 0x42, 0x53, 1, 0, 7]), Some(5));
        assert_eq!(place(&[0x42, 0x53, 1, 0, 0, 0x4D, 0x47, 0, 0]), Some(5));
        assert_eq!(place(&[0x42, 0x53, 1, 0, 0]), None);
        assert_eq!(place(&[0x42, 0x53, 1, 0, 7, 0x4D, 0x48, 0, 0]), Some(5));
        let mut long = vec![0x42, 0x53, 1, 0, 7, 0x4D, 0x47, 0x01, 0x10];
        long.resize(9 + 4097, 0);
        assert_eq!(place(&long), Some(5));
        long.pop();
        long[7] = 0;
        assert_eq!(place(&long), None);
    }

    #[test]
    fn sizes_out_of_range() {
        for size in [0, 4, SIZE_LIMIT + 1] {
            let unmade = Journal::new(vec![0; size]).unwrap_err();
            assert_eq!(
                (unmade.refusal, unmade.given.len()),
                (Refusal::SizeOutOfRange, size)
            );
        }
        assert!(Journal::open(vec![0; 5], 6).is_err());
        assert!(Indexed::new(vec![0; SIZE_LIMIT + 1], Vec::new()).is_err());
        assert!(Indexed::new(Vec::new(), vec![0; TABLE_LIMIT + 1]).is_err());
        assert!(Indexed::new(Vec::new(), Vec::new()).is_ok());
    }

    fn both() -> [AnyLog; 2] {
        [
            AnyLog::Journal(Journal::new(vec![0; 5 + 3 * 4 + 10]).unwrap()),
            AnyLog::Indexed(Indexed::new(vec![0; 10], vec![0; 3]).unwrap()),
        ]
    }

    #[test]
    fn calls_and_refusals() {
        for mut log in both() {
            let long = [0; 4097];
            assert_eq!(log.append(&long), Err(Refusal::MessageTooLong));
            assert_eq!(log.append(&long[..4096]), Err(Refusal::LogFull));
            assert_eq!(log.append(b"a"), Err(Refusal::NoSession));
            assert_eq!(log.begin(0), Err(Refusal::SessionZero));
            log.begin(3).unwrap();
            log.append(b"").unwrap();
            log.append(b"abcdef").unwrap();
            log.append(b"ghij").unwrap();
            assert_eq!(log.append(b""), Err(Refusal::LogFull));
            assert_eq!((log.session(), log.count()), (3, 3));
            assert_eq!(log.length_of(1), Ok(0));
            assert_eq!(log.length_of(4), Err(Refusal::NoSuchMessage));
            assert_eq!(log.length_of(0), Err(Refusal::NoSuchMessage));
            let mut buffer = *b"........";
            assert_eq!(log.read(2, &mut buffer[..5]), Err(Refusal::ShortBuffer));
            assert_eq!(log.read(2, &mut buffer), Ok(6));
            assert_eq!(&buffer, b"abcdef..");
            log.begin(4).unwrap();
            assert_eq!((log.session(), log.count()), (4, 0));
            assert_eq!(log.message(1), None);
        }
    }
}
