//! The seat's end.

use crate::account::Account;
use crate::fault::{Fault, Field, LogFault, PacketFault, Refusal};
use crate::frame::{
    long_enough, post, Frame, Received, Taken, Ticks, HEARTBEAT_TICKS, SILENCE_TICKS,
};
use crate::line::Line;
use crate::log::Log;
use crate::packet::{
    judge, Letter, Login, LogoutReason, Packet, Status, MESSAGE_LIMIT, MESSAGE_PLACE, VERSION,
};

/// How a seat connects.
#[derive(Clone, Copy, PartialEq, Eq, Debug)]
pub enum How {
    /// From where its log ends.
    Join,
    /// The running session from its start.
    Anew,
    /// What its log lacks, up to this number.
    Fetch(u64),
}

#[derive(Clone, Copy, PartialEq, Eq, Debug)]
pub enum Phase {
    /// No connection.
    Apart,
    /// The login request is written, its answer awaited.
    Asking(Asked),
    /// The login was accepted.
    Live(Wish),
}

#[derive(Clone, Copy, PartialEq, Eq, Debug)]
pub struct Asked {
    session: u8,
    number: u64,
    wish: Wish,
}

/// What a connection is for.
#[derive(Clone, Copy, PartialEq, Eq, Debug)]
pub enum Wish {
    Follow,
    Fetch { end: u64, requested: bool },
}

impl Phase {
    pub fn name(self) -> &'static str {
        match self {
            Phase::Apart => "Apart",
            Phase::Asking(_) => "Asking",
            Phase::Live(_) => "Live",
        }
    }

    fn takes(self, letter: Letter) -> bool {
        use Letter::*;
        match self {
            Phase::Apart => false,
            Phase::Asking(_) => matches!(letter, LoginResponse | GoodBye),
            Phase::Live(wish) => match letter {
                Sequenced | Unsequenced | GoodBye | EndOfSession | ServerHeartbeat | Test => true,
                SyncComplete => wish == Wish::Follow,
                _ => false,
            },
        }
    }
}

#[derive(Clone, Debug)]
pub struct Seat {
    phase: Phase,
    frame: Frame,
    /// Ticks since a packet was written, and since a byte was heard.
    unsent: Ticks,
    silent: Ticks,
    in_step: bool,
    status: Option<Status>,
    account: Account,
}

impl Seat {
    pub fn new(account: Account) -> Seat {
        Seat {
            phase: Phase::Apart,
            frame: Frame::EMPTY,
            unsent: Ticks::default(),
            silent: Ticks::default(),
            in_step: false,
            status: None,
            account,
        }
    }

    pub fn phase(&self) -> Phase {
        self.phase
    }

    /// Whether it was told on this connection, or the last one, that it holds all messages.
    pub fn in_step(&self) -> bool {
        self.in_step
    }

    /// The status that refused its login.
    pub fn status(&self) -> Option<Status> {
        self.status
    }

    pub fn account(&self) -> &Account {
        &self.account
    }

    /// Clears the up line and writes the login request.
    pub fn connect<S: Log, U: Line>(
        &mut self,
        how: How,
        log: &S,
        up: &mut U,
        out: &mut [u8],
    ) -> Result<(), Refusal> {
        long_enough(out)?;
        let asked = match how {
            How::Join => Asked {
                session: log.session(),
                number: log.count() + 1,
                wish: Wish::Follow,
            },
            How::Anew => Asked {
                session: 0,
                number: 1,
                wish: Wish::Follow,
            },
            How::Fetch(_) if log.session() == 0 => return Err(Refusal::NoSession),
            How::Fetch(end) if end <= log.count() => return Err(Refusal::NothingToFetch),
            How::Fetch(end) => {
                let wish = Wish::Fetch {
                    end,
                    requested: false,
                };
                Asked {
                    session: log.session(),
                    number: 0,
                    wish,
                }
            }
        };
        up.clear();
        self.cut();
        self.phase = Phase::Asking(asked);
        self.in_step = false;
        self.status = None;
        let account = self.account;
        let login = Login {
            version: &VERSION,
            user: account.user(),
            computer: account.computer(),
            protocol: account.protocol(),
            session: asked.session,
            number: asked.number,
        };
        self.write(&Packet::LoginRequest(login), up, out)
    }

    pub fn cut(&mut self) {
        self.phase = Phase::Apart;
        self.frame = Frame::EMPTY;
        self.unsent.clear();
        self.silent.clear();
    }

    /// Writes an unsequenced message at once.
    pub fn say<U: Line>(
        &mut self,
        message: &[u8],
        up: &mut U,
        out: &mut [u8],
    ) -> Result<(), Refusal> {
        if message.len() > MESSAGE_LIMIT {
            return Err(Refusal::MessageTooLong);
        }
        long_enough(out)?;
        let packet = Packet::Unsequenced { message };
        if packet.len() > up.room() {
            return Err(Refusal::LineFull);
        }
        if !matches!(self.phase, Phase::Live(_)) {
            return Err(Refusal::WrongPhase);
        }
        self.write(&packet, up, out)
    }

    pub fn leave<U: Line>(&mut self, up: &mut U, out: &mut [u8]) -> Result<(), Refusal> {
        long_enough(out)?;
        let packet = Packet::Logout {
            reason: LogoutReason::Done,
            text: &[],
        };
        if packet.len() > up.room() {
            return Err(Refusal::LineFull);
        }
        if self.phase == Phase::Apart {
            return Err(Refusal::WrongPhase);
        }
        self.part(&packet, up, out);
        Ok(())
    }

    pub fn receive<S: Log, U: Line, D: Line>(
        &mut self,
        log: &mut S,
        up: &mut U,
        down: &mut D,
        frame: &mut [u8],
        out: &mut [u8],
    ) -> Result<Received, Refusal> {
        long_enough(frame)?;
        long_enough(out)?;
        if self.phase == Phase::Apart {
            return Err(Refusal::WrongPhase);
        }
        let answer = match self.frame.take(down, frame) {
            Ok(Taken::Nothing) => return Ok(Received::Nothing),
            Ok(Taken::Part) => Ok(Received::Part),
            Ok(Taken::Whole(len)) => judge(&frame[..len], |letter| self.phase.takes(letter))
                .map_err(Fault::Packet)
                .and_then(|packet| self.act(&packet, log)),
            Err(fault) => Err(Fault::Packet(fault)),
        };
        self.silent.clear();
        answer.map_err(|fault| {
            let (reason, refusal) = match fault {
                Fault::Packet(fault) => (LogoutReason::BadPacket, Refusal::BadPacket(fault)),
                Fault::Log(LogFault::Full) => (LogoutReason::Terminating, Refusal::LogFull),
            };
            self.part(&Packet::Logout { reason, text: &[] }, up, out);
            refusal
        })
    }

    /// Receives until nothing waits or it is refused: how many packets were acted on, and the fault.
    pub fn receive_all<S: Log, U: Line, D: Line>(
        &mut self,
        log: &mut S,
        up: &mut U,
        down: &mut D,
        frame: &mut [u8],
        out: &mut [u8],
    ) -> (u64, Option<Fault>) {
        let mut acted = 0;
        while down.waiting() > 0 {
            match self.receive(log, up, down, frame, out) {
                Ok(Received::Part) => {}
                Ok(Received::Acted(_) | Received::Message { .. }) => acted += 1,
                Err(Refusal::BadPacket(fault)) => return (acted, Some(fault.into())),
                Err(Refusal::LogFull) => return (acted, Some(LogFault::Full.into())),
                Ok(Received::Nothing) | Err(_) => break,
            }
        }
        (acted, None)
    }

    fn act<S: Log>(&mut self, packet: &Packet, log: &mut S) -> Result<Received, Fault> {
        match (self.phase, packet) {
            (
                Phase::Asking(asked),
                &Packet::LoginResponse {
                    status,
                    session,
                    highest,
                },
            ) => {
                if status != Status::Accepted {
                    self.status = Some(status);
                    self.phase = Phase::Apart;
                } else {
                    let expected = if asked.session == 0 {
                        session != 0
                    } else {
                        session == asked.session
                    };
                    if !expected {
                        return Err(PacketFault::BadField(Field::Session).into());
                    }
                    if log.session() != session && log.begin(session).is_err() {
                        return Err(LogFault::Full.into());
                    }
                    self.phase = Phase::Live(asked.wish);
                    self.in_step = highest.checked_add(1) == Some(asked.number);
                }
            }
            (Phase::Live(wish), &Packet::Sequenced { number, message }) => {
                let next = log.count() + 1;
                if number == next {
                    log.append(message).map_err(|_| LogFault::Full)?;
                } else if number > next && wish == Wish::Follow {
                    return Err(PacketFault::BadField(Field::Number).into());
                }
            }
            (_, Packet::Unsequenced { message }) => {
                return Ok(Received::Message {
                    place: MESSAGE_PLACE,
                    length: message.len(),
                });
            }
            (_, Packet::SyncComplete) => self.in_step = true,
            (_, Packet::GoodBye { .. } | Packet::EndOfSession) => self.phase = Phase::Apart,
            _ => {}
        }
        Ok(Received::Acted(packet.letter()))
    }

    /// Writes one packet at most, and says which.
    pub fn send<S: Log, U: Line>(
        &mut self,
        log: &S,
        up: &mut U,
        out: &mut [u8],
    ) -> Result<Option<Letter>, Refusal> {
        long_enough(out)?;
        match self.phase {
            Phase::Apart => Err(Refusal::WrongPhase),
            Phase::Live(Wish::Follow) if self.unsent.above(HEARTBEAT_TICKS) => {
                self.write(&Packet::ClientHeartbeat, up, out)?;
                Ok(Some(Letter::ClientHeartbeat))
            }
            Phase::Live(Wish::Fetch {
                end,
                requested: false,
            }) if log.count() < end => {
                let start = log.count() + 1;
                self.write(&Packet::Retransmission { start, end }, up, out)?;
                self.phase = Phase::Live(Wish::Fetch {
                    end,
                    requested: true,
                });
                Ok(Some(Letter::Retransmission))
            }
            Phase::Asking(_) | Phase::Live(_) => Ok(None),
        }
    }

    pub fn tick(&mut self) {
        self.unsent.raise();
        self.silent.raise();
        if self.silent.above(SILENCE_TICKS) {
            self.phase = Phase::Apart;
        }
    }

    fn write<U: Line>(
        &mut self,
        packet: &Packet,
        up: &mut U,
        out: &mut [u8],
    ) -> Result<(), Refusal> {
        post(packet, up, out)?;
        self.unsent.clear();
        Ok(())
    }

    /// Leaves with a last packet, if the line has room for it.
    fn part<U: Line>(&mut self, packet: &Packet, up: &mut U, out: &mut [u8]) {
        let _ = self.write(packet, up, out);
        self.frame = Frame::EMPTY;
        self.phase = Phase::Apart;
    }
}
