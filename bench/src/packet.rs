//! Packets: the twelve letters, reading and writing.

use crate::fault::{Field, PacketFault, Refusal};

/// The longest message, in bytes.
pub const MESSAGE_LIMIT: usize = 4096;
/// The largest length number: letter, sequence number and the longest message.
pub const LENGTH_LIMIT: usize = MESSAGE_LIMIT + 9;
/// The longest packet: both bytes of the length number more.
pub const PACKET_LIMIT: usize = LENGTH_LIMIT + 2;

/// Bytes before the letter, and before the body.
const LETTER_PLACE: usize = 2;
const BODY_PLACE: usize = 3;

pub const VERSION: [u8; 5] = *b"1.1  ";

/// Which packet it is.
#[derive(Clone, Copy, PartialEq, Eq, Debug)]
#[repr(u8)]
pub enum Letter {
    LoginRequest = b'L',
    LoginResponse = b'R',
    Sequenced = b'S',
    Unsequenced = b'U',
    SyncComplete = b'C',
    Retransmission = b'A',
    Logout = b'X',
    GoodBye = b'G',
    EndOfSession = b'E',
    ServerHeartbeat = b'0',
    ClientHeartbeat = b'1',
    Test = b'T',
}

impl Letter {
    #[inline]
    pub fn of(byte: u8) -> Option<Letter> {
        Some(match byte {
            b'L' => Letter::LoginRequest,
            b'R' => Letter::LoginResponse,
            b'S' => Letter::Sequenced,
            b'U' => Letter::Unsequenced,
            b'C' => Letter::SyncComplete,
            b'A' => Letter::Retransmission,
            b'X' => Letter::Logout,
            b'G' => Letter::GoodBye,
            b'E' => Letter::EndOfSession,
            b'0' => Letter::ServerHeartbeat,
            b'1' => Letter::ClientHeartbeat,
            b'T' => Letter::Test,
            _ => return None,
        })
    }

    #[inline]
    pub fn byte(self) -> u8 {
        self as u8
    }

    /// Whether a packet of this letter may have this length number.
    #[inline]
    fn allows(self, length: usize) -> bool {
        match self {
            Letter::LoginRequest => length == 36,
            Letter::LoginResponse => length == 11,
            Letter::Retransmission => length == 17,
            Letter::Sequenced => (9..=LENGTH_LIMIT).contains(&length),
            Letter::Unsequenced => (1..=MESSAGE_LIMIT + 1).contains(&length),
            Letter::Logout | Letter::GoodBye => (2..=LENGTH_LIMIT).contains(&length),
            Letter::Test => (1..=LENGTH_LIMIT).contains(&length),
            Letter::SyncComplete
            | Letter::EndOfSession
            | Letter::ServerHeartbeat
            | Letter::ClientHeartbeat => length == 1,
        }
    }
}

/// The status of a login response.
#[derive(Clone, Copy, PartialEq, Eq, Debug)]
#[repr(u8)]
pub enum Status {
    Accepted = b' ',
    UnknownUser = b'X',
    SessionUnavailable = b'S',
    InvalidNumber = b'N',
    WrongVersion = b'I',
    WrongProtocol = b'A',
    AlreadyLoggedIn = b'L',
}

impl Status {
    #[inline]
    pub fn of(byte: u8) -> Option<Status> {
        Some(match byte {
            b' ' => Status::Accepted,
            b'X' => Status::UnknownUser,
            b'S' => Status::SessionUnavailable,
            b'N' => Status::InvalidNumber,
            b'I' => Status::WrongVersion,
            b'A' => Status::WrongProtocol,
            b'L' => Status::AlreadyLoggedIn,
            _ => return None,
        })
    }

    #[inline]
    pub fn byte(self) -> u8 {
        self as u8
    }
}

/// The reason of a logout request.
#[derive(Clone, Copy, PartialEq, Eq, Debug)]
#[repr(u8)]
pub enum LogoutReason {
    Done = b' ',
    BadPacket = b'B',
    NoLogin = b'L',
    Terminating = b'A',
}

impl LogoutReason {
    #[inline]
    pub fn of(byte: u8) -> Option<LogoutReason> {
        Some(match byte {
            b' ' => LogoutReason::Done,
            b'B' => LogoutReason::BadPacket,
            b'L' => LogoutReason::NoLogin,
            b'A' => LogoutReason::Terminating,
            _ => return None,
        })
    }
}

/// The reason of a good-bye: as of a logout, but never that it is done for now.
#[derive(Clone, Copy, PartialEq, Eq, Debug)]
#[repr(u8)]
pub enum GoodByeReason {
    BadPacket = b'B',
    NoLogin = b'L',
    Terminating = b'A',
}

impl GoodByeReason {
    #[inline]
    pub fn of(byte: u8) -> Option<GoodByeReason> {
        Some(match byte {
            b'B' => GoodByeReason::BadPacket,
            b'L' => GoodByeReason::NoLogin,
            b'A' => GoodByeReason::Terminating,
            _ => return None,
        })
    }
}

/// What a login asks for. The texts are padded to their widths.
#[derive(Clone, Copy, PartialEq, Eq, Debug)]
pub struct Login<'a> {
    pub version: &'a [u8],
    pub user: &'a [u8],
    pub computer: &'a [u8],
    pub protocol: &'a [u8],
    pub session: u8,
    pub number: u64,
}

/// A packet; its texts and messages are lent.
#[derive(Clone, Copy, PartialEq, Eq, Debug)]
pub enum Packet<'a> {
    LoginRequest(Login<'a>),
    LoginResponse {
        status: Status,
        session: u8,
        highest: u64,
    },
    Sequenced {
        number: u64,
        message: &'a [u8],
    },
    Unsequenced {
        message: &'a [u8],
    },
    SyncComplete,
    Retransmission {
        start: u64,
        end: u64,
    },
    Logout {
        reason: LogoutReason,
        text: &'a [u8],
    },
    GoodBye {
        reason: GoodByeReason,
        text: &'a [u8],
    },
    EndOfSession,
    ServerHeartbeat,
    ClientHeartbeat,
    Test {
        text: &'a [u8],
    },
}

impl<'a> Packet<'a> {
    #[inline]
    pub fn letter(&self) -> Letter {
        match self {
            Packet::LoginRequest(_) => Letter::LoginRequest,
            Packet::LoginResponse { .. } => Letter::LoginResponse,
            Packet::Sequenced { .. } => Letter::Sequenced,
            Packet::Unsequenced { .. } => Letter::Unsequenced,
            Packet::SyncComplete => Letter::SyncComplete,
            Packet::Retransmission { .. } => Letter::Retransmission,
            Packet::Logout { .. } => Letter::Logout,
            Packet::GoodBye { .. } => Letter::GoodBye,
            Packet::EndOfSession => Letter::EndOfSession,
            Packet::ServerHeartbeat => Letter::ServerHeartbeat,
            Packet::ClientHeartbeat => Letter::ClientHeartbeat,
            Packet::Test { .. } => Letter::Test,
        }
    }

    /// The length that it has on a line, the length number included.
    #[allow(clippy::len_without_is_empty)]
    #[inline]
    pub fn len(&self) -> usize {
        BODY_PLACE
            + match self {
                Packet::LoginRequest(l) => {
                    l.version.len() + l.user.len() + l.computer.len() + l.protocol.len() + 9
                }
                Packet::LoginResponse { .. } => 10,
                Packet::Sequenced { message, .. } => 8 + message.len(),
                Packet::Unsequenced { message } => message.len(),
                Packet::Retransmission { .. } => 16,
                Packet::Logout { text, .. } | Packet::GoodBye { text, .. } => 1 + text.len(),
                Packet::Test { text } => text.len(),
                Packet::SyncComplete
                | Packet::EndOfSession
                | Packet::ServerHeartbeat
                | Packet::ClientHeartbeat => 0,
            }
    }

    /// Writes it at the front of `out` and gives its length; the rest of `out` stays.
    #[inline]
    pub fn write(&self, out: &mut [u8]) -> Result<usize, Refusal> {
        let len = self.len();
        let Some(out) = out.get_mut(..len) else {
            return Err(Refusal::ShortBuffer);
        };
        let length = len - LETTER_PLACE;
        if length > LENGTH_LIMIT {
            return Err(PacketFault::LengthOverLimit.into());
        }
        let letter = self.letter();
        if !letter.allows(length) {
            return Err(PacketFault::WrongLength.into());
        }
        if let Packet::LoginRequest(l) = self {
            let widths = (
                l.version.len(),
                l.user.len(),
                l.computer.len(),
                l.protocol.len(),
            );
            if widths != (5, 5, 8, 8) {
                return Err(PacketFault::WrongLength.into());
            }
        }
        out[..LETTER_PLACE].copy_from_slice(&(length as u16).to_le_bytes());
        out[LETTER_PLACE] = letter.byte();
        let body = &mut out[BODY_PLACE..];
        match *self {
            Packet::LoginRequest(l) => {
                body[..5].copy_from_slice(l.version);
                body[5..10].copy_from_slice(l.user);
                body[10..18].copy_from_slice(l.computer);
                body[18..26].copy_from_slice(l.protocol);
                body[26] = l.session;
                body[27..].copy_from_slice(&l.number.to_le_bytes());
            }
            Packet::LoginResponse {
                status,
                session,
                highest,
            } => {
                body[0] = status.byte();
                body[1] = session;
                body[2..].copy_from_slice(&highest.to_le_bytes());
            }
            Packet::Sequenced { number, message } => {
                body[..8].copy_from_slice(&number.to_le_bytes());
                body[8..].copy_from_slice(message);
            }
            Packet::Retransmission { start, end } => {
                body[..8].copy_from_slice(&start.to_le_bytes());
                body[8..].copy_from_slice(&end.to_le_bytes());
            }
            Packet::Logout { reason, text } => {
                body[0] = reason as u8;
                body[1..].copy_from_slice(text);
            }
            Packet::GoodBye { reason, text } => {
                body[0] = reason as u8;
                body[1..].copy_from_slice(text);
            }
            Packet::Unsequenced { message: text } | Packet::Test { text } => {
                body.copy_from_slice(text);
            }
            Packet::SyncComplete
            | Packet::EndOfSession
            | Packet::ServerHeartbeat
            | Packet::ClientHeartbeat => {}
        }
        Ok(len)
    }

    /// The packet of a letter and a body; causes 5 and 6 are told here.
    #[inline]
    fn of_parts(letter: Letter, body: &'a [u8]) -> Result<Packet<'a>, PacketFault> {
        if !letter.allows(body.len() + 1) {
            return Err(PacketFault::WrongLength);
        }
        Ok(match letter {
            Letter::LoginRequest => Packet::LoginRequest(Login {
                version: &body[..5],
                user: &body[5..10],
                computer: &body[10..18],
                protocol: &body[18..26],
                session: body[26],
                number: number(&body[27..]),
            }),
            Letter::LoginResponse => Packet::LoginResponse {
                status: Status::of(body[0]).ok_or(PacketFault::BadField(Field::Status))?,
                session: body[1],
                highest: number(&body[2..]),
            },
            Letter::Sequenced => {
                let (front, message) = body.split_at(8);
                Packet::Sequenced {
                    number: number(front),
                    message,
                }
            }
            Letter::Unsequenced => Packet::Unsequenced { message: body },
            Letter::SyncComplete => Packet::SyncComplete,
            Letter::Retransmission => {
                let (start, end) = body.split_at(8);
                Packet::Retransmission {
                    start: number(start),
                    end: number(end),
                }
            }
            Letter::Logout => Packet::Logout {
                reason: LogoutReason::of(body[0]).ok_or(PacketFault::BadField(Field::Reason))?,
                text: &body[1..],
            },
            Letter::GoodBye => Packet::GoodBye {
                reason: GoodByeReason::of(body[0]).ok_or(PacketFault::BadField(Field::Reason))?,
                text: &body[1..],
            },
            Letter::EndOfSession => Packet::EndOfSession,
            Letter::ServerHeartbeat => Packet::ServerHeartbeat,
            Letter::ClientHeartbeat => Packet::ClientHeartbeat,
            Letter::Test => Packet::Test { text: body },
        })
    }
}

/// A number of eight bytes, the least byte first.
#[inline]
fn number(bytes: &[u8]) -> u64 {
    u64::from_le_bytes(bytes.try_into().expect("eight bytes"))
}

/// The length of the packet at the front, both bytes of the length number included; or cause 1 or 2.
#[inline]
pub fn packet_len(bytes: &[u8]) -> Result<Option<usize>, PacketFault> {
    match *bytes {
        [low, high, ..] => match u16::from_le_bytes([low, high]) as usize {
            0 => Err(PacketFault::ZeroLength),
            length if length > LENGTH_LIMIT => Err(PacketFault::LengthOverLimit),
            length => Ok(Some(length + LETTER_PLACE)),
        },
        _ => Ok(None),
    }
}

/// The first packet; none where there is a part of one only. It knows of no phase.
pub fn read(bytes: &[u8]) -> Result<Option<Packet<'_>>, PacketFault> {
    match packet_len(bytes)? {
        Some(len) if bytes.len() >= len => judge(&bytes[..len], |_| true).map(Some),
        _ => Ok(None),
    }
}

/// Reads a whole packet at an end that takes these letters.
#[inline]
pub fn judge(packet: &[u8], takes: impl FnOnce(Letter) -> bool) -> Result<Packet<'_>, PacketFault> {
    let letter = Letter::of(packet[LETTER_PLACE]).ok_or(PacketFault::UnknownLetter)?;
    if !takes(letter) {
        return Err(PacketFault::LetterOutOfPlace);
    }
    Packet::of_parts(letter, &packet[BODY_PLACE..])
}

/// Where the message of an unsequenced packet stands.
pub const MESSAGE_PLACE: usize = BODY_PLACE;

#[cfg(test)]
mod tests {
    use super::*;

    fn samples() -> Vec<Packet<'static>> {
        vec![
            Packet::LoginRequest(Login {
                version: &VERSION,
                user: b"MM01 ",
                computer: b"DESK-1  ",
                protocol: b"FILL    ",
                session: 7,
                number: 0x0102_0304_0506_0708,
            }),
            Packet::LoginResponse {
                status: Status::Accepted,
                session: 7,
                highest: 2,
            },
            Packet::Sequenced {
                number: 1,
                message: b"AB",
            },
            Packet::Sequenced {
                number: u64::MAX,
                message: &[9; MESSAGE_LIMIT],
            },
            Packet::Unsequenced { message: b"" },
            Packet::Unsequenced {
                message: &[1; MESSAGE_LIMIT],
            },
            Packet::SyncComplete,
            Packet::Retransmission { start: 3, end: 1 },
            Packet::Logout {
                reason: LogoutReason::Done,
                text: b"bye",
            },
            Packet::GoodBye {
                reason: GoodByeReason::Terminating,
                text: &[0; 4103],
            },
            Packet::EndOfSession,
            Packet::ServerHeartbeat,
            Packet::ClientHeartbeat,
            Packet::Test {
                text: &[b' '; 4104],
            },
        ]
    }

    #[test]
    fn limits() {
        assert_eq!(
            (MESSAGE_LIMIT, LENGTH_LIMIT, PACKET_LIMIT),
            (4096, 4105, 4107)
        );
    }

    #[test]
    fn what_is_written_reads_back() {
        for packet in samples() {
            let mut out = vec![0xAA; PACKET_LIMIT + 5];
            let len = packet.write(&mut out).unwrap();
            assert_eq!(len, packet.len());
            assert!(out[len..].iter().all(|&b| b == 0xAA));
            assert_eq!(read(&out), Ok(Some(packet)));
            for part in 0..len {
                assert_eq!(read(&out[..part]), Ok(None));
            }
            assert_eq!(packet.write(&mut out[..len - 1]), Err(Refusal::ShortBuffer));
        }
    }

    #[test]
    fn places_of_fields() {
        let mut out = [0; 64];
        let login = Packet::LoginRequest(Login {
            version: &VERSION,
            user: b"abcde",
            computer: b"computer",
            protocol: b"protocol",
            session: 5,
            number: 0x0807_0605_0403_0201,
        });
        assert_eq!(login.write(&mut out), Ok(38));
        assert_eq!(&out[..3], [36, 0, b'L']);
        assert_eq!(&out[3..8], b"1.1  ");
        assert_eq!(&out[8..13], b"abcde");
        assert_eq!(&out[13..21], b"computer");
        assert_eq!(&out[21..29], b"protocol");
        assert_eq!(out[29], 5);
        assert_eq!(&out[30..38], [1, 2, 3, 4, 5, 6, 7, 8]);
        let response = Packet::LoginResponse {
            status: Status::Accepted,
            session: 7,
            highest: 2,
        };
        assert_eq!(response.write(&mut out), Ok(13));
        assert_eq!(&out[..13], [11, 0, b'R', b' ', 7, 2, 0, 0, 0, 0, 0, 0, 0]);
        assert_eq!(
            Packet::Sequenced {
                number: 1,
                message: b"AB"
            }
            .write(&mut out),
            Ok(13)
        );
        assert_eq!(
            &out[..13],
            [11, 0, b'S', 1, 0, 0, 0, 0, 0, 0, 0, b'A', b'B']
        );
    }

    #[test]
    fn what_could_not_be_read_back_is_refused() {
        let mut out = vec![0; 9000];
        let bad = |fault: PacketFault| Err(Refusal::BadPacket(fault));
        let long = vec![0; 8000];
        let over = PacketFault::LengthOverLimit;
        let wrong = PacketFault::WrongLength;
        let u = |n: usize| Packet::Unsequenced {
            message: &long[..n],
        };
        assert_eq!(u(4097).write(&mut out), bad(wrong));
        assert_eq!(u(4104).write(&mut out), bad(wrong));
        assert_eq!(u(4105).write(&mut out), bad(over));
        assert_eq!(u(8000).write(&mut out[..100]), Err(Refusal::ShortBuffer));
        let s = Packet::Sequenced {
            number: 1,
            message: &long[..4097],
        };
        assert_eq!(s.write(&mut out), bad(over));
        assert_eq!(
            Packet::Test {
                text: &long[..4105]
            }
            .write(&mut out),
            bad(over)
        );
        let login = |user: &'static [u8], computer: &'static [u8]| {
            Packet::LoginRequest(Login {
                version: &VERSION,
                user,
                computer,
                protocol: b"FILL    ",
                session: 0,
                number: 1,
            })
        };
        assert_eq!(login(b"MM01", b"DESK-1   ").write(&mut out), bad(wrong));
        assert_eq!(login(b"MM01 ", b"D").write(&mut out), bad(wrong));
        assert!(out.iter().all(|&b| b == 0));
    }

    #[test]
    fn faults_in_their_order() {
        let fault = |bytes: &[u8]| read(bytes).map(|_| ()).map_err(|f| (f.cause(), f.place()));
        assert_eq!(fault(&[0, 0]), Err((1, 0)));
        assert_eq!(fault(&[0x0A, 0x10]), Err((2, 0)));
        assert_eq!(fault(&[0x09, 0x10]), Ok(()));
        assert_eq!(fault(&[1, 0, b'Z']), Err((3, 2)));
        assert_eq!(fault(&[2, 0, b'Z']), Ok(()));
        assert_eq!(fault(&[2, 0, b'E', 0]), Err((5, 0)));
        assert_eq!(fault(&[1, 0, b'X']), Err((5, 0)));
        assert_eq!(fault(&[2, 0, b'X', b'?']), Err((6, 3)));
        assert_eq!(fault(&[2, 0, b'G', b' ']), Err((6, 3)));
        assert_eq!(fault(&[2, 0, b'X', b' ']), Ok(()));
        let mut r = [11, 0, b'R', b'?', 0, 0, 0, 0, 0, 0, 0, 0, 0];
        assert_eq!(fault(&r), Err((6, 3)));
        r[3] = b' ';
        assert_eq!(fault(&r), Ok(()));
        let f = judge(&[1, 0, b'A'], |_| false).unwrap_err();
        assert_eq!((f.cause(), f.place()), (4, 2));
    }

    #[test]
    fn rest_changes_nothing() {
        assert_eq!(read(&[1, 0, b'C', 9, 9]), Ok(Some(Packet::SyncComplete)));
        assert_eq!(packet_len(&[5]), Ok(None));
        assert_eq!(packet_len(&[5, 0]), Ok(Some(7)));
    }
}
