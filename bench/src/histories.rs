//! Random scripts in the language of rehearsals, and a count of what they lead to.
//!
//! A script is decided by its seed. As it is written it is rehearsed, so that what comes next can fit what is there: a
//! packet that is due is sent more often than one that is not, and a stranger's packet bears the next number or one that
//! is near.

use std::collections::BTreeMap;

use crate::line::Line;
use crate::log::Log;
use crate::packet::{
    GoodByeReason, Letter, Login, LogoutReason, Packet, Status, MESSAGE_LIMIT, PACKET_LIMIT,
    VERSION,
};
use crate::rehearsal::Rehearsal;
use crate::{hub, seat};

/// The script of a seed: a set-up, and then 20 to about 200 commands. (One in fifty has 254 rolls more, so that it comes to the
/// last session.)
pub fn script(seed: u64) -> Vec<u8> {
    Author::new(seed).script()
}

/// A generator of random numbers (splitmix64).
struct Random(u64);

impl Random {
    fn next(&mut self) -> u64 {
        self.0 = self.0.wrapping_add(0x9E37_79B9_7F4A_7C15);
        let mut z = self.0;
        z = (z ^ (z >> 30)).wrapping_mul(0xBF58_476D_1CE4_E5B9);
        z = (z ^ (z >> 27)).wrapping_mul(0x94D0_49BB_1331_11EB);
        z ^ (z >> 31)
    }

    fn below(&mut self, n: usize) -> usize {
        (self.next() % n as u64) as usize
    }

    /// From `low` to `high`, both included.
    fn within(&mut self, low: usize, high: usize) -> usize {
        low + self.below(high - low + 1)
    }

    fn chance(&mut self, percent: usize) -> bool {
        self.below(100) < percent
    }

    fn pick<T: Copy>(&mut self, from: &[T]) -> T {
        from[self.below(from.len())]
    }

    fn bytes(&mut self, count: usize) -> Vec<u8> {
        (0..count).map(|_| self.next() as u8).collect()
    }

    fn weighted<T: Copy>(&mut self, from: &[(T, usize)]) -> T {
        let total = from.iter().map(|&(_, weight)| weight).sum();
        let mut at = self.below(total);
        for &(choice, weight) in from {
            if at < weight {
                return choice;
            }
            at -= weight;
        }
        from[0].0
    }
}

#[derive(Clone, Copy, PartialEq, Eq)]
enum Activity {
    Publish,
    Connect,
    Rounds,
    Steps,
    Tick,
    Unsequenced,
    Stranger,
    Leave,
    FinishOrRoll,
    Level,
    Question,
    Break,
    Fill,
    Mistake,
}

/// What a script is mostly about: weights of its activities.
type Profile = [(Activity, usize); 14];

const fn profile(w: [usize; 14]) -> Profile {
    [
        (Activity::Publish, w[0]),
        (Activity::Connect, w[1]),
        (Activity::Rounds, w[2]),
        (Activity::Steps, w[3]),
        (Activity::Tick, w[4]),
        (Activity::Unsequenced, w[5]),
        (Activity::Stranger, w[6]),
        (Activity::Leave, w[7]),
        (Activity::FinishOrRoll, w[8]),
        (Activity::Level, w[9]),
        (Activity::Question, w[10]),
        (Activity::Break, w[11]),
        (Activity::Fill, w[12]),
        (Activity::Mistake, w[13]),
    ]
}

const PROFILES: [(Profile, usize); 7] = [
    //        pub con rnd stp tic uns str lea fin lev que brk fil mis
    (profile([24, 10, 20, 36, 6, 8, 0, 2, 2, 2, 6, 3, 0, 1]), 18), // calm
    (profile([14, 10, 8, 26, 4, 4, 30, 1, 2, 2, 5, 3, 1, 1]), 28), // strangers
    (profile([12, 10, 10, 24, 28, 4, 4, 1, 2, 2, 5, 3, 2, 1]), 14), // time
    (profile([16, 10, 8, 26, 6, 10, 8, 4, 2, 2, 5, 4, 24, 1]), 14), // crowded lines
    (profile([20, 14, 16, 18, 3, 2, 2, 5, 16, 8, 6, 3, 0, 1]), 12), // sessions
    (
        profile([22, 26, 14, 28, 5, 3, 12, 10, 1, 4, 5, 6, 0, 1]),
        20,
    ), // fetches
    (
        profile([10, 10, 8, 12, 10, 10, 10, 5, 5, 5, 10, 10, 5, 2]),
        12,
    ), // everything
];

/// Which of the profiles is for fetches.
const FETCHES: usize = 5;

#[derive(Clone, Copy, PartialEq, Eq)]
enum End {
    Hub,
    Seat,
}

struct Author {
    random: Random,
    rehearsal: Rehearsal,
    text: Vec<u8>,
    written: usize,
    budget: usize,
    profile: usize,
    /// How many messages were made: their contents differ.
    messages: u32,
    /// What is still to come of half packets.
    up_rest: Vec<u8>,
    down_rest: Vec<u8>,
}

impl Author {
    fn new(seed: u64) -> Author {
        Author {
            random: Random(seed ^ 0x5851_F42D_4C95_7F2D),
            rehearsal: Rehearsal::new(),
            text: Vec::new(),
            written: 0,
            budget: 0,
            profile: 0,
            messages: 0,
            up_rest: Vec::new(),
            down_rest: Vec::new(),
        }
    }

    /// Writes a command and rehearses it.
    fn put(&mut self, command: &str) -> String {
        self.text.extend_from_slice(command.as_bytes());
        self.text.push(b'\n');
        self.written += 1;
        self.rehearsal.command(command)
    }

    fn script(mut self) -> Vec<u8> {
        let weights: Vec<_> = PROFILES.iter().enumerate().map(|(n, p)| (n, p.1)).collect();
        self.profile = self.random.weighted(&weights);
        self.set_up();
        if self.random.below(50) == 0 {
            self.last_session();
        }
        self.written = 0;
        self.budget = self.random.within(20, 190);
        while self.written < self.budget {
            self.act();
        }
        for command in ["show", "wire", "log hub", "log seat"] {
            self.put(command);
        }
        let count = self.random.pick(&[0, 4, 13, 38, 64, PACKET_LIMIT]);
        self.put(&format!("out {count}"));
        self.text
    }

    // The parts.

    fn log_words(&mut self) -> String {
        let r = &mut self.random;
        match r.below(100) {
            0..=34 => format!("journal {}", r.pick(&[20_000, 65_536, 200_000])),
            35..=64 => format!(
                "indexed {} {}",
                r.pick(&[20_000, 60_000]),
                r.pick(&[100, 1000])
            ),
            65..=84 => format!("journal {}", r.within(5, 160)),
            _ => format!("indexed {} {}", r.within(0, 120), r.within(0, 10)),
        }
    }

    fn line_words(&mut self) -> String {
        let r = &mut self.random;
        let size = match r.below(100) {
            0..=54 => 4107,
            55..=84 => r.within(4108, 9000),
            85..=97 => r.pick(&[16_384, 65_536]),
            _ => 1_048_576,
        };
        match r.below(100) {
            0..=44 => format!("ring {size}"),
            45..=59 => format!("straight {size}"),
            60..=89 => {
                format!(
                    "paced {} ring {size}",
                    r.pick(&[1, 2, 3, 5, 7, 11, 64, 1000, 4107])
                )
            }
            _ => format!("paced {} straight {size}", r.pick(&[1, 2, 9, 4107])),
        }
    }

    fn set_up(&mut self) {
        if self.random.chance(3) {
            self.put("setup");
            self.put("connect join");
            self.put("log hub");
        }
        for name in ["hub-log", "seat-log"] {
            if self.random.chance(4) {
                let bad = [
                    "journal 4",
                    "journal 16777217",
                    "indexed 16777217 1",
                    "indexed 1 1048577",
                ];
                let bad = self.random.pick(&bad);
                self.put(&format!("{name} {bad}"));
            }
            let words = self.log_words();
            self.put(&format!("{name} {words}"));
        }
        for name in ["up", "down"] {
            if self.random.chance(4) {
                let bad = [
                    "ring 4106",
                    "straight 1048577",
                    "paced 0 ring 4107",
                    "paced 4108 ring 5000",
                ];
                let bad = self.random.pick(&bad);
                self.put(&format!("{name} {bad}"));
            }
            let words = self.line_words();
            self.put(&format!("{name} {words}"));
        }
        if self.random.chance(20) {
            self.put("account OTHER PLACE-9 FILL");
        }
        self.put("account MM01 DESK-1 FILL");
        if self.random.chance(10) {
            let bad = [
                "account mm01 desk-1 X",
                "account TOOLONG D F",
                "account U D NINENINE9",
            ];
            let bad = self.random.pick(&bad);
            self.put(bad);
        }
        if self.random.chance(4) {
            for n in 2..=9 {
                self.put(&format!("account MM0{n} DESK-{n} FILL"));
            }
        }
        let fields = self.random.weighted(&[
            ("MM01 DESK-1 FILL", 70),
            ("mm01 desk-1 FILL", 18),
            ("MM01 DESK-2 FILL", 3),
            ("MM77 DESK-1 FILL", 3),
            ("MM01 DESK-1 fill", 3),
            ("OTHER PLACE-9 FILL", 3),
        ]);
        if self.random.chance(4) {
            let bad = self
                .random
                .pick(&["TOOLONG DESK-1 FILL", "MM01 NINENINE9 FILL"]);
            self.put(&format!("seat {bad}"));
            self.put("setup");
        }
        self.put(&format!("seat {fields}"));
        if self.random.chance(5) {
            let mut lengths = [4107, 4107, 4107];
            lengths[self.random.below(3)] = self.random.pick(&[0, 3, 4106]);
            let [hub, seat, out] = lengths;
            self.put(&format!("buffers {hub} {seat} {out}"));
            self.put("setup");
            self.put("buffers 4107 4107 4107");
        } else if self.random.chance(25) {
            let mut length = || self.random.pick(&[4107, 4108, 5000, 9000]);
            let (hub, seat, out) = (length(), length(), length());
            self.put(&format!("buffers {hub} {seat} {out}"));
        }
        self.put("setup");
        if self.random.chance(2) {
            self.put("up ring 4107");
        }
    }

    /// Rolls up to session 255.
    fn last_session(&mut self) {
        let messages = self.random.below(3);
        for _ in 0..messages {
            self.publish();
        }
        self.put("level join");
        self.put("cut");
        for _ in 0..254 {
            self.put("roll");
        }
        if self.random.chance(70) {
            self.put("roll");
        }
    }

    // What is there.

    fn hub_phase(&self) -> hub::Phase {
        self.rehearsal
            .pair()
            .map_or(hub::Phase::Shut, |pair| pair.hub_phase())
    }

    fn seat_phase(&self) -> seat::Phase {
        self.rehearsal
            .pair()
            .map_or(seat::Phase::Apart, |pair| pair.seat_phase())
    }

    fn counts(&self) -> (u64, u64) {
        let count = |log: Option<&crate::log::AnyLog>| log.map_or(0, Log::count);
        (
            count(self.rehearsal.hub_log()),
            count(self.rehearsal.seat_log()),
        )
    }

    fn room(&self, end: End) -> usize {
        let line = match end {
            End::Hub => self.rehearsal.up(),
            End::Seat => self.rehearsal.down(),
        };
        line.map_or(0, Line::room)
    }

    /// Whether there is something to take for an end, or, rarely, though there is nothing.
    fn waits(&mut self, end: End) -> bool {
        let line = match end {
            End::Hub => self.rehearsal.up(),
            End::Seat => self.rehearsal.down(),
        };
        line.is_some_and(|line| line.waiting() > 0) || self.random.chance(10)
    }

    /// Whether the hub would take a retransmission request.
    fn fetched_from(&self) -> bool {
        matches!(self.hub_phase(), hub::Phase::Serving(serving) if serving.only_new())
    }

    fn connected(&self) -> bool {
        self.hub_phase() != hub::Phase::Shut && self.seat_phase() != seat::Phase::Apart
    }

    // Activities.

    fn act(&mut self) {
        let connected = self.connected();
        let alive = self.hub_phase() != hub::Phase::Shut || self.seat_phase() != seat::Phase::Apart;
        let mut weights = PROFILES[self.profile].0;
        for (activity, weight) in &mut weights {
            *weight *= match activity {
                Activity::Connect | Activity::Level if !connected => 12,
                Activity::Connect | Activity::Level => 1,
                Activity::Publish | Activity::Question | Activity::Mistake => 4,
                Activity::FinishOrRoll if !connected => 8,
                Activity::Leave if !alive => 1,
                Activity::Leave => 2,
                Activity::FinishOrRoll => 2,
                Activity::Rounds | Activity::Steps if !alive => 1,
                Activity::Rounds => 4,
                Activity::Steps => 6,
                _ if !alive => 1,
                _ => 4,
            };
        }
        match self.random.weighted(&weights) {
            Activity::Publish => {
                for _ in 0..self.random.pick(&[1, 1, 1, 2, 2, 3, 5]) {
                    self.publish();
                }
            }
            Activity::Connect => self.connect(),
            Activity::Rounds => {
                for _ in 0..self.random.within(1, 5) {
                    match self.random.below(20) {
                        0..=6 => self.publish(),
                        7 | 8 => {
                            let ticks = self.random.pick(&[1, 3, 8, 11, 15, 25]);
                            self.put(&format!("tick {ticks}"));
                        }
                        _ => {}
                    }
                    self.put("round");
                }
            }
            Activity::Steps => self.steps(),
            Activity::Tick => self.tick(),
            Activity::Unsequenced => self.unsequenced(),
            Activity::Stranger => self.stranger(),
            Activity::Leave => {
                let command = self.random.pick(&["leave", "leave", "cut"]);
                self.put(command);
                if command == "leave" && self.random.chance(50) {
                    self.receive(End::Hub, 60);
                }
            }
            Activity::FinishOrRoll => {
                let command = self.random.pick(&["finish", "roll", "roll"]);
                self.put(command);
                if command == "finish" && self.random.chance(40) {
                    self.put("round");
                    self.put("round");
                }
            }
            Activity::Level => {
                let command = self
                    .random
                    .pick(&["level join", "level join", "level anew"]);
                self.put(command);
            }
            Activity::Question => self.question(),
            Activity::Break => self.broken(),
            Activity::Fill => self.fill(),
            Activity::Mistake => {
                let command = self.random.pick(&[
                    "tick 1000001",
                    "tick -1",
                    "publish 4",
                    "publish",
                    "say xx",
                    "connect",
                    "connect fetch",
                    "connect fetch x",
                    "hub-log journal 100",
                    "round 2",
                    "put-up",
                    "level fetch 2",
                    "dance",
                    "out 99999999",
                    "log both",
                    "setup",
                ]);
                self.put(command);
            }
        }
    }

    /// A message in hexadecimal digits.
    fn message(&mut self) -> String {
        let length = match self.random.below(200) {
            0..=9 => 0,
            10..=149 => self.random.within(1, 12),
            150..=179 => self.random.within(13, 80),
            180..=193 => self.random.within(81, 600),
            194..=196 => MESSAGE_LIMIT - self.random.below(20),
            197 => MESSAGE_LIMIT,
            _ => MESSAGE_LIMIT + self.random.within(1, 8),
        };
        self.messages += 1;
        let mut bytes = self.messages.to_be_bytes().to_vec();
        bytes.reverse();
        while bytes.len() < length {
            let next = bytes[bytes.len() - 1]
                .wrapping_mul(5)
                .wrapping_add(bytes.len() as u8);
            bytes.push(next);
        }
        bytes.truncate(length);
        hex(&bytes)
    }

    fn publish(&mut self) {
        let message = self.message();
        self.put(&format!("publish {message}"));
    }

    fn connect(&mut self) {
        let (held, has) = self.counts();
        let lacks = held.saturating_sub(has) as usize;
        let fetches = if self.profile == FETCHES { 55 } else { 18 };
        let fetch = self.random.chance(fetches);
        let bears = self
            .rehearsal
            .seat_log()
            .is_some_and(|log| log.session() != 0);
        if fetch && (bears && lacks > 0 || self.random.chance(20)) {
            let end = match self.random.below(10) {
                0 => self.random.below(has as usize + 1) as u64,
                1 => held + self.random.within(1, 5) as u64,
                2 => self.random.pick(&[u64::MAX, 1 << 40]),
                _ => has + self.random.within(1, lacks.max(1)) as u64,
            };
            self.put(&format!("connect fetch {end}"));
        } else {
            let command = self
                .random
                .pick(&["connect join", "connect join", "connect anew"]);
            self.put(command);
        }
        if matches!(self.seat_phase(), seat::Phase::Asking(_)) && self.random.chance(1) {
            let text = vec![b't'; self.room(End::Seat).min(PACKET_LIMIT) - 3];
            self.put_to(End::Seat, &bytes_of(&Packet::Test { text: &text }));
            self.put("tick 301");
        }
        match self.random.below(10) {
            0..=2 => {
                for _ in 0..self.random.within(1, 8) {
                    self.put("round");
                }
            }
            3..=7 => {
                self.receive(End::Hub, 60);
                if self.random.chance(15) {
                    self.publish();
                }
                if self.random.chance(10) {
                    self.stranger();
                }
                self.put("hub-send");
                if self.random.chance(12) {
                    self.stranger_to(End::Seat);
                }
                self.receive(End::Seat, 40);
                if self.fetched_from() {
                    self.fetch();
                } else if self.random.chance(12) {
                    self.stranger_to(End::Hub);
                }
            }
            8 => self.stranger_to(End::Seat),
            _ => {}
        }
    }

    /// What a fetch comes to, by single calls.
    fn fetch(&mut self) {
        match self.random.below(8) {
            0 => self.stranger_to(End::Hub),
            1 | 3 | 4 => {
                let packet = self.damaged(End::Hub);
                self.put_to(End::Hub, &packet);
                self.receive(End::Hub, 45);
            }
            2 => {
                self.publish();
                self.put("hub-send");
            }
            _ => {}
        }
        self.put("seat-send");
        self.receive(End::Hub, 45);
        if self.random.chance(15) {
            self.stranger_to(End::Hub);
        }
        for _ in 0..self.random.within(0, 4) {
            self.put("hub-send");
        }
        if self.random.chance(30) {
            self.put_to(End::Hub, &bytes_of(&Packet::ClientHeartbeat));
            self.receive(End::Hub, 10);
        }
        self.receive(End::Seat, 30);
    }

    /// Receives until a packet is whole, or less.
    fn receive(&mut self, end: End, most: usize) {
        let command = match end {
            End::Hub => "hub-receive",
            End::Seat => "seat-receive",
        };
        let most = if self.random.chance(15) {
            self.random.within(1, most)
        } else {
            most
        };
        for _ in 0..most {
            if self.put(command) != "part" || self.written > self.budget + 5 {
                break;
            }
        }
    }

    fn steps(&mut self) {
        for _ in 0..self.random.within(1, 4) {
            match self.random.below(10) {
                0 | 1 if self.waits(End::Hub) => self.receive(End::Hub, 30),
                0..=4 if self.waits(End::Seat) => self.receive(End::Seat, 30),
                0 | 1 if self.random.chance(70) => self.publish(),
                0..=7 => {
                    for _ in 0..self.random.within(1, 3) {
                        self.put("hub-send");
                    }
                }
                _ => {
                    self.put("seat-send");
                }
            }
        }
    }

    fn tick(&mut self) {
        let ticks = self.random.pick(&[
            1, 1, 2, 5, 9, 10, 10, 11, 11, 11, 12, 19, 20, 29, 30, 30, 31, 31, 100, 299, 300, 301,
            999, 2000,
        ]);
        if ticks == 1 && self.random.chance(50) {
            self.put("tick");
        } else {
            self.put(&format!("tick {ticks}"));
        }
        match self.random.below(10) {
            0..=2 => {
                self.put("round");
            }
            3..=6 => {
                self.put("hub-send");
                self.put("seat-send");
            }
            7 => {
                self.put("show");
            }
            _ => {}
        }
    }

    fn unsequenced(&mut self) {
        let message = if self.random.chance(3) {
            hex(&vec![b'l'; MESSAGE_LIMIT + 1])
        } else {
            self.message()
        };
        let end = self.random.pick(&[End::Hub, End::Seat]);
        let command = if end == End::Hub { "say" } else { "tell" };
        self.put(&format!("{command} {message}"));
        match self.random.below(4) {
            0 => {
                self.put("round");
            }
            1 | 2 => self.receive(end, 30),
            _ => {}
        }
    }

    fn question(&mut self) {
        match self.random.below(10) {
            0..=4 => {
                self.put("show");
            }
            5 => {
                self.put("log hub");
            }
            6 => {
                self.put("log seat");
            }
            7 | 8 => {
                let waiting = |line: Option<&crate::line::AnyLine>| line.map_or(0, Line::waiting);
                if waiting(self.rehearsal.up()) + waiting(self.rehearsal.down()) < 2000 {
                    self.put("wire");
                }
            }
            _ => {
                let count = self.random.pick(&[0, 2, 4, 12, 13, 38, 60]);
                self.put(&format!("out {count}"));
            }
        }
    }

    /// A connection that breaks in the middle of a packet, and what follows it.
    fn broken(&mut self) {
        if self.random.chance(50) {
            self.publish();
        }
        match self.random.below(4) {
            0 => {
                self.put("hub-send");
                self.put("seat-receive");
            }
            1 => {
                self.put("hub-send");
                self.put("hub-send");
                let receives = self.random.within(1, 5);
                for _ in 0..receives {
                    self.put("seat-receive");
                }
            }
            2 => {
                let message = self.message();
                self.put(&format!("say {message}"));
                self.put("hub-receive");
            }
            _ => {
                let end = self.random.pick(&[End::Hub, End::Seat]);
                let packet = self.packet(end);
                self.half(end, &packet);
                let command = if end == End::Hub {
                    "hub-receive"
                } else {
                    "seat-receive"
                };
                self.put(command);
            }
        }
        match self.random.below(8) {
            0 | 1 => {
                self.put("cut");
            }
            2 => {
                self.put("leave");
            }
            3 => {
                self.put("tick 31");
            }
            _ => {}
        }
        match self.random.below(5) {
            0 => {
                self.put("level join");
            }
            1 => {
                self.put("level anew");
            }
            2 | 3 => self.connect(),
            _ => {}
        }
    }

    /// Takes nearly all the room of a line.
    fn fill(&mut self) {
        let end = self.random.pick(&[End::Hub, End::Seat]);
        let spare = self
            .random
            .pick(&[0, 0, 1, 2, 3, 3, 4, 5, 12, 13, 18, 19, 40]);
        if self.room(end) > 9000 {
            return;
        }
        if self.random.chance(30) {
            let length = self.room(end).saturating_sub(spare + 3).min(MESSAGE_LIMIT);
            let command = if end == End::Hub { "say" } else { "tell" };
            self.put(&format!("{command} {}", hex(&vec![b'f'; length])));
        } else {
            while self.room(end) >= spare + 3 {
                let length = (self.room(end) - spare).min(PACKET_LIMIT);
                let text = vec![b't'; length - 3];
                self.put_to(end, &bytes_of(&Packet::Test { text: &text }));
            }
        }
        for _ in 0..self.random.within(1, 4) {
            self.crowd(end);
        }
        if self.random.chance(60) {
            self.put("round");
        }
    }

    /// A call that would write on a line with little room.
    fn crowd(&mut self, end: End) {
        let up = end == End::Hub;
        match self.random.below(12) {
            0..=3 if up => {
                self.put("tick 11");
                self.put("seat-send");
            }
            0..=2 => {
                self.put("hub-send");
            }
            3 => {
                self.put("tick 11");
                self.put("hub-send");
            }
            4 | 5 => {
                let message = self.message();
                self.put(&format!("{} {message}", if up { "say" } else { "tell" }));
            }
            6 if up => {
                self.put("leave");
            }
            6 => {
                self.publish();
                self.put("hub-send");
            }
            7 | 8 => {
                let other = if up { End::Seat } else { End::Hub };
                let packet = self.damaged(other);
                self.put_to(other, &packet);
                self.receive(other, 30);
            }
            9 => {
                let length = self.random.within(1, 9);
                let bytes = self.random.bytes(length);
                self.put_to(end, &bytes);
            }
            10 => {
                self.receive(end, 10);
            }
            _ => {
                self.put("round");
            }
        }
    }

    // Strangers.

    fn put_to(&mut self, end: End, bytes: &[u8]) -> String {
        let command = if end == End::Hub {
            "put-up"
        } else {
            "put-down"
        };
        self.put(&format!("{command} {}", hex(bytes)))
    }

    fn stranger(&mut self) {
        use hub::Phase::{Filling, Serving};
        let hub = if matches!(self.hub_phase(), Serving(_) | Filling(_)) {
            90
        } else {
            5
        };
        let seat = if self.seat_phase() == seat::Phase::Apart {
            5
        } else {
            40
        };
        let end = self.random.weighted(&[(End::Hub, hub), (End::Seat, seat)]);
        self.stranger_to(end);
    }

    fn stranger_to(&mut self, end: End) {
        let rest = match end {
            End::Hub => std::mem::take(&mut self.up_rest),
            End::Seat => std::mem::take(&mut self.down_rest),
        };
        if !rest.is_empty() && self.random.chance(70) {
            self.put_to(end, &rest);
        } else {
            match self.random.below(100) {
                0..=44 => {
                    for _ in 0..self.random.pick(&[1, 1, 1, 2, 3]) {
                        let packet = self.packet(end);
                        self.put_to(end, &packet);
                    }
                }
                45..=79 => {
                    let packet = self.damaged(end);
                    self.put_to(end, &packet);
                }
                80..=90 => {
                    let packet = self.packet(end);
                    self.half(end, &packet);
                }
                _ => {
                    let count = self.random.within(1, 20);
                    let bytes = self.random.bytes(count);
                    self.put_to(end, &bytes);
                }
            }
        }
        match self.random.below(10) {
            0..=6 => self.receive(end, 45),
            7 | 8 => {
                self.put("round");
            }
            _ => {}
        }
    }

    fn half(&mut self, end: End, packet: &[u8]) {
        let at = self.random.within(1, packet.len() - 1);
        let (front, rest) = packet.split_at(at);
        self.put_to(end, front);
        match end {
            End::Hub => self.up_rest = rest.to_vec(),
            End::Seat => self.down_rest = rest.to_vec(),
        }
    }

    /// A packet that the end takes, most likely.
    fn packet(&mut self, end: End) -> Vec<u8> {
        let length = self.random.below(9);
        let text = self.random.bytes(length);
        let (held, has) = self.counts();
        let fetched = self.fetched_from();
        let r = &mut self.random;
        let session = self.rehearsal.hub_log().map_or(1, Log::session);
        let requests = if fetched { 6 } else { 1 };
        let packet = match (
            end,
            self.rehearsal
                .pair()
                .map(|p| (p.hub_phase(), p.seat_phase())),
        ) {
            (End::Hub, Some((hub::Phase::Waiting, _))) => Packet::LoginRequest(Login {
                version: &VERSION,
                user: b"MM01 ",
                computer: b"DESK-1  ",
                protocol: b"FILL    ",
                session: r.pick(&[0, session, 9]),
                number: r.pick(&[0, 1, held, held + 1, held + 2]),
            }),
            (End::Hub, _) => match r.below(10 + requests) {
                0..=2 => Packet::Unsequenced { message: &text },
                3..=5 => Packet::ClientHeartbeat,
                6..=8 => Packet::Test { text: &text },
                9 => {
                    let reason = r.pick(&[
                        LogoutReason::Done,
                        LogoutReason::BadPacket,
                        LogoutReason::NoLogin,
                        LogoutReason::Terminating,
                    ]);
                    Packet::Logout {
                        reason,
                        text: &text,
                    }
                }
                _ => {
                    let start = r.within(1, held as usize + 2) as u64;
                    Packet::Retransmission {
                        start,
                        end: start + r.below(4) as u64,
                    }
                }
            },
            (End::Seat, Some((_, seat::Phase::Asking(_)))) => match r.below(12) {
                0 => Packet::GoodBye {
                    reason: GoodByeReason::NoLogin,
                    text: &text,
                },
                1..=4 => {
                    let status = r.pick(&[
                        Status::UnknownUser,
                        Status::SessionUnavailable,
                        Status::InvalidNumber,
                        Status::WrongVersion,
                        Status::WrongProtocol,
                        Status::AlreadyLoggedIn,
                    ]);
                    Packet::LoginResponse {
                        status,
                        session: 0,
                        highest: 0,
                    }
                }
                _ => Packet::LoginResponse {
                    status: Status::Accepted,
                    session: r.pick(&[session, session, session, 0, 9, 255]),
                    highest: r.pick(&[held, has, held + 3, u64::MAX]),
                },
            },
            (End::Seat, _) => match r.below(20) {
                0 | 1 => Packet::Unsequenced { message: &text },
                2 | 3 => Packet::ServerHeartbeat,
                4 | 5 => Packet::Test { text: &text },
                6..=11 => Packet::Sequenced {
                    number: has + 1,
                    message: &text,
                },
                12 | 13 => Packet::Sequenced {
                    number: r.below(has as usize + 1) as u64,
                    message: &text,
                },
                14 => Packet::Sequenced {
                    number: r.pick(&[has + 2, has + 3, u64::MAX]),
                    message: &text,
                },
                15..=17 => Packet::SyncComplete,
                18 => {
                    let reason = r.pick(&[
                        GoodByeReason::BadPacket,
                        GoodByeReason::NoLogin,
                        GoodByeReason::Terminating,
                    ]);
                    Packet::GoodBye {
                        reason,
                        text: &text,
                    }
                }
                _ => Packet::EndOfSession,
            },
        };
        bytes_of(&packet)
    }

    /// A packet with something wrong.
    fn damaged(&mut self, end: End) -> Vec<u8> {
        let good = self.packet(end);
        let (held, has) = self.counts();
        let asking = matches!(self.seat_phase(), seat::Phase::Asking(_));
        let fetched = self.fetched_from();
        let r = &mut self.random;
        let framed = |letter: u8, body: &[u8]| {
            let mut bytes = ((body.len() + 1) as u16).to_le_bytes().to_vec();
            bytes.push(letter);
            bytes.extend_from_slice(body);
            bytes
        };
        let kind = match end {
            End::Hub if fetched => r.within(6, 19),
            End::Hub => r.pick(&[0, 0, 1, 2, 3, 4, 5, 6, 7, 8, 9, 10, 13, 14, 15]),
            End::Seat => r.below(16),
        };
        match kind {
            0 | 19 => vec![0, 0],
            1 => {
                let length = r.pick(&[4106u16, 4107, 5000, 65535]);
                length.to_le_bytes().to_vec()
            }
            2 | 3 => {
                let count = r.below(4);
                let body = r.bytes(count);
                framed(r.pick(b"Zals?2B\0"), &body)
            }
            4 | 5 => {
                let letter = match end {
                    End::Hub => r.pick(b"LRSCGE0A"),
                    End::Seat => r.pick(b"LRAX1CT"),
                };
                let count = r.pick(&[0, 0, 1, 10, 16]);
                let body = r.bytes(count);
                framed(letter, &body)
            }
            6..=8 => match (end, asking) {
                (End::Hub, _) => match r.below(4) {
                    0 => framed(b'X', &[]),
                    1 => framed(b'1', &[0]),
                    2 => framed(b'A', &[1; 15]),
                    _ => framed(b'U', &[b'u'; MESSAGE_LIMIT + 1]),
                },
                (End::Seat, true) => {
                    let count = r.pick(&[0, 1, 9, 11]);
                    framed(r.pick(b"RRG"), &vec![b' '; count])
                }
                (End::Seat, false) => match r.below(6) {
                    0 => framed(b'E', &[0]),
                    1 => framed(b'0', &[0, 0]),
                    2 => framed(b'S', &[1, 0, 0]),
                    3 => framed(b'G', &[]),
                    4 => framed(b'C', &[1]),
                    _ => framed(b'S', &[]),
                },
            },
            9..=12 | 16..=18 => match (end, asking) {
                (End::Hub, _) if !fetched || r.chance(20) => framed(b'X', &[r.pick(b"CxY\0")]),
                (End::Hub, _) => {
                    let start = if r.chance(60) { 0 } else { held + 1 };
                    bytes_of(&Packet::Retransmission {
                        start,
                        end: r.pick(&[0, 1, held]),
                    })
                }
                (End::Seat, true) => match r.below(4) {
                    0 => framed(b'G', &[r.pick(b" x")]),
                    1 | 2 => framed(b'R', &[r.pick(b"?x!\0"), 1, 0, 0, 0, 0, 0, 0, 0, 0]),
                    _ => {
                        let session = r.pick(&[0, 77]);
                        bytes_of(&Packet::LoginResponse {
                            status: Status::Accepted,
                            session,
                            highest: held,
                        })
                    }
                },
                (End::Seat, false) => {
                    if r.chance(40) {
                        framed(b'G', &[r.pick(b" x")])
                    } else {
                        let number = has + r.within(2, 9) as u64;
                        bytes_of(&Packet::Sequenced {
                            number,
                            message: b"far",
                        })
                    }
                }
            },
            _ => {
                let mut bytes = good;
                let at = r.below(bytes.len());
                bytes[at] ^= 1 << r.below(8);
                bytes
            }
        }
    }
}

fn hex(bytes: &[u8]) -> String {
    if bytes.is_empty() {
        return "-".to_string();
    }
    bytes.iter().map(|byte| format!("{byte:02x}")).collect()
}

fn bytes_of(packet: &Packet) -> Vec<u8> {
    let mut out = vec![0; PACKET_LIMIT];
    let len = packet
        .write(&mut out)
        .expect("a packet that can be written");
    out.truncate(len);
    out
}

/// How often each kind of answer came.
#[derive(Default)]
pub struct Coverage {
    pub scripts: usize,
    pub commands: u64,
    pub bytes: u64,
    /// By kind: how often in all, and in how many scripts.
    pub kinds: BTreeMap<String, (u64, u64)>,
}

impl Coverage {
    /// Rehearses a script and counts its answers.
    pub fn add(&mut self, script: &[u8]) {
        let mut rehearsal = Rehearsal::new();
        let mut kinds: BTreeMap<String, u64> = BTreeMap::new();
        let mut was_in_step = false;
        let mut phases = ("Shut", "Apart");
        let mut stretch = 0;
        self.scripts += 1;
        self.bytes += script.len() as u64;
        for line in script
            .split(|&byte| byte == b'\n')
            .filter(|line| !line.is_empty())
        {
            let command = String::from_utf8_lossy(line);
            let written = all_written(&rehearsal);
            let answer = rehearsal.command(&String::from_utf8_lossy(line));
            self.commands += 1;
            let name = command.split(' ').next().unwrap_or_default();
            for mut kind in kinds_of(name, &answer) {
                let (hub, seat) = rehearsal.frames();
                for (end, frame) in [("hub", hub), ("seat", seat)] {
                    let told =
                        |cause| kind.starts_with(&format!("fault at the {end} packet {cause}"));
                    if told(5) || told(6) {
                        kind = format!("{kind}, letter {}", char::from(frame[2]));
                        break;
                    }
                }
                *kinds.entry(kind).or_default() += 1;
            }
            let fault = answer.starts_with("refused 18") || answer.starts_with("refused 21 log");
            if fault && written == all_written(&rehearsal) {
                *kinds
                    .entry(format!("parting packet left out, {name}"))
                    .or_default() += 1;
            }
            if let Some(pair) = rehearsal.pair() {
                if pair.in_step() && !was_in_step {
                    *kinds.entry("in step, come to be yes".into()).or_default() += 1;
                }
                was_in_step = pair.in_step();
                let now = (pair.hub_phase().name(), pair.seat_phase().name());
                if name == "tick" && now.0 != phases.0 {
                    let spoke = if written == all_written(&rehearsal) {
                        ", no room"
                    } else {
                        ""
                    };
                    let spoke = if phases.0 == "Waiting" { spoke } else { "" };
                    let kind = format!("a tick ends the hub's {}{spoke}", phases.0);
                    *kinds.entry(kind).or_default() += 1;
                }
                if name == "tick" && now.1 != phases.1 {
                    let kind = format!("a tick ends the seat's {}", phases.1);
                    *kinds.entry(kind).or_default() += 1;
                }
                if now.0 != phases.0 {
                    *kinds.entry(format!("hub's phase {}", now.0)).or_default() += 1;
                }
                if now.1 != phases.1 {
                    *kinds.entry(format!("seat's phase {}", now.1)).or_default() += 1;
                    if let Some(status) = pair.status().filter(|_| now.1 == "Apart") {
                        let kind = format!("status kept {}", status.byte() as char);
                        *kinds.entry(kind).or_default() += 1;
                    }
                }
                phases = now;
                if matches!(now, ("Serving" | "Filling", "Live")) {
                    stretch += 1;
                    for long in [10, 30, 100] {
                        if stretch == long {
                            let kind = format!("both connected for {long:>3} commands");
                            *kinds.entry(kind).or_default() += 1;
                        }
                    }
                } else {
                    stretch = 0;
                }
            }
        }
        for letter in letters() {
            let (hub, seat) = rehearsal.written(letter);
            for (end, count) in [("hub", hub), ("seat", seat)] {
                if count > 0 {
                    let kind = format!("written by the {end} {}", letter.byte() as char);
                    *kinds.entry(kind).or_default() += count;
                }
            }
        }
        for (kind, count) in kinds {
            let entry = self.kinds.entry(kind).or_default();
            entry.0 += count;
            entry.1 += 1;
        }
    }
}

fn letters() -> impl Iterator<Item = Letter> {
    b"LRSUCAXGE01T".iter().filter_map(|&byte| Letter::of(byte))
}

/// How many packets both ends have written.
fn all_written(rehearsal: &Rehearsal) -> u64 {
    letters()
        .map(|letter| rehearsal.written(letter))
        .map(|(hub, seat)| hub + seat)
        .sum()
}

fn kinds_of(name: &str, answer: &str) -> Vec<String> {
    let words: Vec<&str> = answer.split(' ').collect();
    match (name, words.as_slice()) {
        (_, ["error"]) => vec!["error".into()],
        ("hub-receive", ["refused", "18", fault @ ..]) => {
            vec![
                format!("fault at the hub {}", fault.join(" ")),
                "refused 18 hub-receive".into(),
            ]
        }
        ("seat-receive", ["refused", number @ ("18" | "21"), fault @ ..]) => {
            vec![
                format!("fault at the seat {}", fault.join(" ")),
                format!("refused {number} seat-receive"),
            ]
        }
        (_, ["refused", number, ..]) => vec![format!("refused {number} {name}")],
        ("round", ["hub", ..]) => {
            let at = words.iter().position(|&word| word == "seat").unwrap_or(0);
            let (hub, seat) = words.split_at(at);
            let mut kinds = vec!["round".to_string()];
            for (end, words) in [("hub", hub), ("seat", seat)] {
                if let [_, _, "fault", fault @ ..] = words {
                    kinds.push(format!(
                        "fault at the {end} {} (in a round)",
                        fault.join(" ")
                    ));
                }
            }
            kinds
        }
        ("hub-receive" | "seat-receive", ["acted", letter]) => {
            vec![format!("{name} acted {letter}")]
        }
        ("hub-receive" | "seat-receive", [first, ..]) => vec![format!("{name} {first}")],
        ("hub-send" | "seat-send", _) => vec![format!("{name} {answer}")],
        ("show" | "wire" | "log" | "out", _) => vec![format!("question {name}")],
        (_, ["ok"]) => vec![format!("granted {name}")],
        _ => vec![format!("{name} {answer}")],
    }
}

#[cfg(test)]
mod tests {
    use super::*;

    #[test]
    fn a_seed_decides_its_script() {
        for seed in 0..40 {
            let text = script(seed);
            assert_eq!(text, script(seed));
            let trace = crate::rehearse(&text);
            assert_eq!(
                trace.iter().filter(|&&byte| byte == b'\n').count(),
                text.iter().filter(|&&byte| byte == b'\n').count()
            );
        }
    }
}
