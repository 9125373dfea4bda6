//! The pair: a hub and a seat. Logs, lines and buffers are lent to each call.

use crate::account::{Account, Accounts};
use crate::fault::{Fault, Refusal, Unmade};
use crate::frame::{long_enough, Received};
use crate::hub::{self, Hub};
use crate::line::Line;
use crate::log::Log;
use crate::packet::{Letter, Status};
use crate::seat::{self, How, Seat};

#[derive(Clone, Debug)]
pub struct Pair {
    hub: Hub,
    seat: Seat,
}

/// What an end did in a round: how many packets it acted on, and a fault if it met one.
#[derive(Clone, Copy, PartialEq, Eq, Debug)]
pub struct Heard {
    pub acted: u64,
    pub fault: Option<Fault>,
}

#[derive(Clone, Copy, PartialEq, Eq, Debug)]
pub struct Round {
    pub hub: Heard,
    pub seat: Heard,
}

/// What the seat logs in with.
#[derive(Clone, Copy, Debug)]
pub struct Fields<'a> {
    pub user: &'a [u8],
    pub computer: &'a [u8],
    pub protocol: &'a [u8],
}

impl Pair {
    /// Begins session 1 on a hub's log that bears none. A refusal hands the table back.
    #[allow(clippy::result_large_err)]
    pub fn set_up<H: Log, S: Log>(
        accounts: Accounts,
        fields: Fields,
        hub_log: &mut H,
        seat_log: &S,
        hub_frame: &[u8],
        seat_frame: &[u8],
        out: &[u8],
    ) -> Result<Pair, Unmade<Accounts>> {
        let judged = long_enough(hub_frame)
            .and_then(|()| long_enough(seat_frame))
            .and_then(|()| long_enough(out))
            .and_then(|()| {
                if is_beginning(seat_log, hub_log) {
                    Account::new(fields.user, fields.computer, fields.protocol)
                } else {
                    Err(Refusal::SizeOutOfRange)
                }
            })
            .and_then(|account| {
                if hub_log.session() == 0 {
                    hub_log.begin(1)?;
                }
                Ok(account)
            });
        match judged {
            Ok(account) => Ok(Pair {
                hub: Hub::new(accounts),
                seat: Seat::new(account),
            }),
            Err(refusal) => Err(Unmade {
                refusal,
                given: accounts,
            }),
        }
    }

    pub fn connect<S: Log, U: Line, D: Line>(
        &mut self,
        how: How,
        seat_log: &S,
        up: &mut U,
        down: &mut D,
        out: &mut [u8],
    ) -> Result<(), Refusal> {
        self.seat.connect(how, seat_log, up, out)?;
        self.hub.connect(down);
        Ok(())
    }

    pub fn cut<U: Line, D: Line>(&mut self, up: &mut U, down: &mut D) {
        up.clear();
        down.clear();
        self.hub.cut();
        self.seat.cut();
    }

    pub fn publish<H: Log>(&mut self, hub_log: &mut H, message: &[u8]) -> Result<(), Refusal> {
        self.hub.publish(hub_log, message)
    }

    pub fn finish(&mut self) -> Result<(), Refusal> {
        self.hub.finish()
    }

    pub fn roll<H: Log>(&mut self, hub_log: &mut H) -> Result<(), Refusal> {
        self.hub.roll(hub_log)
    }

    pub fn tell<D: Line>(
        &mut self,
        message: &[u8],
        down: &mut D,
        out: &mut [u8],
    ) -> Result<(), Refusal> {
        self.hub.tell(message, down, out)
    }

    pub fn say<U: Line>(
        &mut self,
        message: &[u8],
        up: &mut U,
        out: &mut [u8],
    ) -> Result<(), Refusal> {
        self.seat.say(message, up, out)
    }

    pub fn leave<U: Line>(&mut self, up: &mut U, out: &mut [u8]) -> Result<(), Refusal> {
        self.seat.leave(up, out)
    }

    pub fn hub_receive<H: Log, U: Line, D: Line>(
        &mut self,
        hub_log: &H,
        up: &mut U,
        down: &mut D,
        hub_frame: &mut [u8],
        out: &mut [u8],
    ) -> Result<Received, Refusal> {
        self.hub.receive(hub_log, up, down, hub_frame, out)
    }

    pub fn seat_receive<S: Log, U: Line, D: Line>(
        &mut self,
        seat_log: &mut S,
        up: &mut U,
        down: &mut D,
        seat_frame: &mut [u8],
        out: &mut [u8],
    ) -> Result<Received, Refusal> {
        self.seat.receive(seat_log, up, down, seat_frame, out)
    }

    pub fn hub_send<H: Log, D: Line>(
        &mut self,
        hub_log: &H,
        down: &mut D,
        out: &mut [u8],
    ) -> Result<Option<Letter>, Refusal> {
        self.hub.send(hub_log, down, out)
    }

    pub fn seat_send<S: Log, U: Line>(
        &mut self,
        seat_log: &S,
        up: &mut U,
        out: &mut [u8],
    ) -> Result<Option<Letter>, Refusal> {
        self.seat.send(seat_log, up, out)
    }

    /// A tenth of a second goes by for both ends.
    pub fn tick<D: Line>(&mut self, down: &mut D, out: &mut [u8]) -> Result<(), Refusal> {
        self.hub.tick(down, out)?;
        self.seat.tick();
        Ok(())
    }

    #[allow(clippy::too_many_arguments)]
    pub fn round<H: Log, S: Log, U: Line, D: Line>(
        &mut self,
        hub_log: &H,
        seat_log: &mut S,
        up: &mut U,
        down: &mut D,
        hub_frame: &mut [u8],
        seat_frame: &mut [u8],
        out: &mut [u8],
    ) -> Result<Round, Refusal> {
        long_enough(hub_frame)?;
        long_enough(seat_frame)?;
        long_enough(out)?;
        let (acted, fault) = self.hub.receive_all(hub_log, up, down, hub_frame, out);
        let hub = Heard { acted, fault };
        let _ = self.hub.send(hub_log, down, out);
        let (acted, fault) = self.seat.receive_all(seat_log, up, down, seat_frame, out);
        let seat = Heard { acted, fault };
        let _ = self.seat.send(seat_log, up, out);
        Ok(Round { hub, seat })
    }

    /// The part of a frame's buffer that a receive named.
    pub fn message_in(received: Received, frame: &[u8]) -> Option<&[u8]> {
        match received {
            Received::Message { place, length } => frame.get(place..)?.get(..length),
            _ => None,
        }
    }

    pub fn in_step(&self) -> bool {
        self.seat.in_step()
    }

    pub fn status(&self) -> Option<Status> {
        self.seat.status()
    }

    pub fn accounts(&self) -> &Accounts {
        self.hub.accounts()
    }

    pub fn hub_phase(&self) -> hub::Phase {
        self.hub.phase()
    }

    pub fn seat_phase(&self) -> seat::Phase {
        self.seat.phase()
    }

    pub fn finished(&self) -> bool {
        self.hub.finished()
    }
}

/// Whether the seat's log bears nothing, or is a beginning of the hub's as it is once it bears a session.
fn is_beginning<H: Log, S: Log>(seat_log: &S, hub_log: &H) -> bool {
    let session = hub_log.session().max(1);
    seat_log.session() == 0
        || seat_log.session() == session
            && (1..=seat_log.count()).all(|n| {
                hub_log
                    .message(n)
                    .is_some_and(|held| seat_log.message(n) == Some(held))
            })
}
