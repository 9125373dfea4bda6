//! The hub's end.

use crate::account::Accounts;
use crate::fault::{Fault, Field, PacketFault, Refusal};
use crate::frame::{
    long_enough, post, Frame, Received, Taken, Ticks, HEARTBEAT_TICKS, LOGIN_TICKS, SILENCE_TICKS,
};
use crate::line::Line;
use crate::log::Log;
use crate::packet::{judge, GoodByeReason, Letter, Packet, Status, MESSAGE_LIMIT, MESSAGE_PLACE};

#[derive(Clone, Copy, PartialEq, Eq, Debug)]
pub enum Phase {
    /// No connection.
    Shut,
    /// A seat has connected; its login request is awaited.
    Waiting,
    /// A login was accepted and is to be answered.
    Answering {
        row: usize,
        number: u64,
    },
    /// A login was rejected and is to be answered.
    Rejecting(Status),
    Serving(Serving),
    Filling(Filling),
}

/// Messages go out from the number asked for.
#[derive(Clone, Copy, PartialEq, Eq, Debug)]
pub struct Serving {
    row: usize,
    /// The number of the next message.
    next: u64,
    /// Whether new messages only were asked for: then others may be asked for again.
    only_new: bool,
    /// Whether it is still to be said that the seat has caught up.
    sync_due: bool,
}

impl Serving {
    /// Whether the login asked for new messages only.
    pub fn only_new(self) -> bool {
        self.only_new
    }
}

/// A retransmission goes out.
#[derive(Clone, Copy, PartialEq, Eq, Debug)]
pub struct Filling {
    row: usize,
    next: u64,
    end: u64,
}

impl Phase {
    pub fn name(self) -> &'static str {
        match self {
            Phase::Shut => "Shut",
            Phase::Waiting => "Waiting",
            Phase::Answering { .. } => "Answering",
            Phase::Rejecting(_) => "Rejecting",
            Phase::Serving(_) => "Serving",
            Phase::Filling(_) => "Filling",
        }
    }

    /// The row of the login that is being answered or served.
    fn row(self) -> Option<usize> {
        match self {
            Phase::Answering { row, .. }
            | Phase::Serving(Serving { row, .. })
            | Phase::Filling(Filling { row, .. }) => Some(row),
            Phase::Shut | Phase::Waiting | Phase::Rejecting(_) => None,
        }
    }

    fn listens(self) -> bool {
        matches!(self, Phase::Waiting | Phase::Serving(_) | Phase::Filling(_))
    }

    fn takes(self, letter: Letter) -> bool {
        use Letter::*;
        match self {
            Phase::Waiting => letter == LoginRequest,
            Phase::Serving(serving) => match letter {
                Unsequenced | Logout | ClientHeartbeat | Test => true,
                Retransmission => serving.only_new,
                _ => false,
            },
            Phase::Filling(_) => matches!(letter, Unsequenced | Logout | ClientHeartbeat | Test),
            Phase::Shut | Phase::Answering { .. } | Phase::Rejecting(_) => false,
        }
    }
}

#[derive(Clone, Debug)]
pub struct Hub {
    phase: Phase,
    finished: bool,
    frame: Frame,
    /// Ticks since a packet was written, since a byte was heard, and since the connect.
    unsent: Ticks,
    silent: Ticks,
    connected: Ticks,
    accounts: Accounts,
}

impl Hub {
    pub fn new(accounts: Accounts) -> Hub {
        Hub {
            phase: Phase::Shut,
            finished: false,
            frame: Frame::EMPTY,
            unsent: Ticks::default(),
            silent: Ticks::default(),
            connected: Ticks::default(),
            accounts,
        }
    }

    pub fn phase(&self) -> Phase {
        self.phase
    }

    pub fn finished(&self) -> bool {
        self.finished
    }

    pub fn accounts(&self) -> &Accounts {
        &self.accounts
    }

    /// A seat has connected. Nothing of an older connection is left.
    pub fn connect<D: Line>(&mut self, down: &mut D) {
        down.clear();
        self.cut();
        self.phase = Phase::Waiting;
    }

    pub fn cut(&mut self) {
        self.shut();
        self.frame = Frame::EMPTY;
        self.unsent.clear();
        self.silent.clear();
        self.connected.clear();
    }

    pub fn publish<H: Log>(&mut self, log: &mut H, message: &[u8]) -> Result<(), Refusal> {
        if self.finished {
            log.would_take(message.len())?;
            return Err(Refusal::SessionFinished);
        }
        log.append(message)
    }

    pub fn finish(&mut self) -> Result<(), Refusal> {
        if self.finished {
            return Err(Refusal::SessionFinished);
        }
        self.finished = true;
        Ok(())
    }

    /// Begins the next session.
    pub fn roll<H: Log>(&mut self, log: &mut H) -> Result<(), Refusal> {
        if self.phase.row().is_some() {
            return Err(Refusal::HubBusy);
        }
        let next = log.session().checked_add(1).ok_or(Refusal::LastSession)?;
        log.begin(next)?;
        self.finished = false;
        Ok(())
    }

    /// Writes an unsequenced message at once.
    pub fn tell<D: Line>(
        &mut self,
        message: &[u8],
        down: &mut D,
        out: &mut [u8],
    ) -> Result<(), Refusal> {
        if message.len() > MESSAGE_LIMIT {
            return Err(Refusal::MessageTooLong);
        }
        long_enough(out)?;
        let packet = Packet::Unsequenced { message };
        if packet.len() > down.room() {
            return Err(Refusal::LineFull);
        }
        if !matches!(self.phase, Phase::Serving(_)) {
            return Err(Refusal::WrongPhase);
        }
        self.write(&packet, down, out)
    }

    pub fn receive<H: Log, U: Line, D: Line>(
        &mut self,
        log: &H,
        up: &mut U,
        down: &mut D,
        frame: &mut [u8],
        out: &mut [u8],
    ) -> Result<Received, Refusal> {
        long_enough(frame)?;
        long_enough(out)?;
        if !self.phase.listens() {
            return Err(Refusal::WrongPhase);
        }
        let answer = match self.frame.take(up, frame) {
            Ok(Taken::Nothing) => return Ok(Received::Nothing),
            Ok(Taken::Part) => Ok(Received::Part),
            Ok(Taken::Whole(len)) => judge(&frame[..len], |letter| self.phase.takes(letter))
                .and_then(|packet| self.act(&packet, log)),
            Err(fault) => Err(fault),
        };
        self.silent.clear();
        answer.map_err(|fault| {
            let parting = Packet::GoodBye {
                reason: GoodByeReason::BadPacket,
                text: &[],
            };
            self.part(&parting, down, out);
            Refusal::BadPacket(fault)
        })
    }

    /// Receives until nothing waits or it is refused: how many packets were acted on, and the fault.
    pub fn receive_all<H: Log, U: Line, D: Line>(
        &mut self,
        log: &H,
        up: &mut U,
        down: &mut D,
        frame: &mut [u8],
        out: &mut [u8],
    ) -> (u64, Option<Fault>) {
        let mut acted = 0;
        while up.waiting() > 0 {
            match self.receive(log, up, down, frame, out) {
                Ok(Received::Part) => {}
                Ok(Received::Acted(_) | Received::Message { .. }) => acted += 1,
                Err(Refusal::BadPacket(fault)) => return (acted, Some(fault.into())),
                Ok(Received::Nothing) | Err(_) => break,
            }
        }
        (acted, None)
    }

    fn act<H: Log>(&mut self, packet: &Packet, log: &H) -> Result<Received, PacketFault> {
        match (self.phase, packet) {
            (Phase::Waiting, Packet::LoginRequest(login)) => {
                self.phase = match self.accounts.admit(login, log.session(), log.count()) {
                    Ok(row) => Phase::Answering {
                        row,
                        number: login.number,
                    },
                    Err(status) => Phase::Rejecting(status),
                };
            }
            (Phase::Serving(Serving { row, .. }), &Packet::Retransmission { start, end }) => {
                if start == 0 {
                    return Err(PacketFault::BadField(Field::Start));
                }
                if end < start {
                    return Err(PacketFault::BadField(Field::End));
                }
                self.phase = Phase::Filling(Filling {
                    row,
                    next: start,
                    end: end.min(log.count()),
                });
            }
            (_, Packet::Unsequenced { message }) => {
                return Ok(Received::Message {
                    place: MESSAGE_PLACE,
                    length: message.len(),
                });
            }
            (_, Packet::Logout { .. }) => self.shut(),
            (Phase::Filling(fill), Packet::ClientHeartbeat) if fill.next > fill.end => self.shut(),
            _ => {}
        }
        Ok(Received::Acted(packet.letter()))
    }

    /// Writes one packet at most, and says which.
    pub fn send<H: Log, D: Line>(
        &mut self,
        log: &H,
        down: &mut D,
        out: &mut [u8],
    ) -> Result<Option<Letter>, Refusal> {
        long_enough(out)?;
        match self.phase {
            Phase::Shut => Err(Refusal::WrongPhase),
            Phase::Waiting => Ok(None),
            Phase::Answering { row, number } => {
                let (session, highest) = (log.session(), log.count());
                let status = Status::Accepted;
                self.write(
                    &Packet::LoginResponse {
                        status,
                        session,
                        highest,
                    },
                    down,
                    out,
                )?;
                let only_new = number == 0;
                self.phase = Phase::Serving(Serving {
                    row,
                    next: if only_new { highest + 1 } else { number },
                    only_new,
                    sync_due: !only_new && number <= highest,
                });
                Ok(Some(Letter::LoginResponse))
            }
            Phase::Rejecting(status) => {
                let packet = Packet::LoginResponse {
                    status,
                    session: 0,
                    highest: 0,
                };
                self.write(&packet, down, out)?;
                self.shut();
                Ok(Some(Letter::LoginResponse))
            }
            Phase::Serving(mut serving) => {
                if let Some(message) = log.message(serving.next) {
                    let number = serving.next;
                    self.write(&Packet::Sequenced { number, message }, down, out)?;
                    serving.next += 1;
                    self.phase = Phase::Serving(serving);
                    Ok(Some(Letter::Sequenced))
                } else if serving.sync_due {
                    self.write(&Packet::SyncComplete, down, out)?;
                    serving.sync_due = false;
                    self.phase = Phase::Serving(serving);
                    Ok(Some(Letter::SyncComplete))
                } else if self.finished {
                    self.write(&Packet::EndOfSession, down, out)?;
                    self.shut();
                    Ok(Some(Letter::EndOfSession))
                } else if self.unsent.above(HEARTBEAT_TICKS) {
                    self.write(&Packet::ServerHeartbeat, down, out)?;
                    Ok(Some(Letter::ServerHeartbeat))
                } else {
                    Ok(None)
                }
            }
            Phase::Filling(mut fill) => {
                let number = fill.next;
                match log.message(number) {
                    Some(message) if number <= fill.end => {
                        self.write(&Packet::Sequenced { number, message }, down, out)?;
                        fill.next += 1;
                        self.phase = Phase::Filling(fill);
                        Ok(Some(Letter::Sequenced))
                    }
                    _ => {
                        self.shut();
                        Ok(None)
                    }
                }
            }
        }
    }

    pub fn tick<D: Line>(&mut self, down: &mut D, out: &mut [u8]) -> Result<(), Refusal> {
        long_enough(out)?;
        self.unsent.raise();
        self.silent.raise();
        self.connected.raise();
        match self.phase {
            Phase::Waiting if self.connected.above(LOGIN_TICKS) => {
                let parting = Packet::GoodBye {
                    reason: GoodByeReason::NoLogin,
                    text: &[],
                };
                self.part(&parting, down, out);
            }
            Phase::Serving(_) if self.silent.above(SILENCE_TICKS) => self.shut(),
            _ => {}
        }
        Ok(())
    }

    fn write<D: Line>(
        &mut self,
        packet: &Packet,
        down: &mut D,
        out: &mut [u8],
    ) -> Result<(), Refusal> {
        post(packet, down, out)?;
        self.unsent.clear();
        Ok(())
    }

    /// Leaves with a last packet, if the line has room for it.
    fn part<D: Line>(&mut self, packet: &Packet, down: &mut D, out: &mut [u8]) {
        let _ = self.write(packet, down, out);
        self.frame = Frame::EMPTY;
        self.shut();
    }

    fn shut(&mut self) {
        if let Some(row) = self.phase.row() {
            self.accounts.unmark(row);
        }
        self.phase = Phase::Shut;
    }
}
