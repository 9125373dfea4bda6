//! The promises, on random histories without a stranger's bytes: a book goes along, and after each command the seat's log
//! is compared with it.

use plain::histories::script;
use plain::log::{AnyLog, Log};
use plain::packet::Letter;
use plain::rehearsal::Rehearsal;

type Messages = Vec<Vec<u8>>;

fn messages(log: Option<&AnyLog>) -> (u8, Messages) {
    log.map_or((0, Vec::new()), |log| {
        let list = (1..=log.count())
            .filter_map(|n| log.message(n))
            .map(<[u8]>::to_vec);
        (log.session(), list.collect())
    })
}

#[test]
fn the_promises_hold() {
    let (mut levels, mut level_done, mut steps) = (0, 0, 0);
    for seed in 10_000..10_600 {
        let script = script(seed);
        let mut rehearsal = Rehearsal::new();
        let mut book: Vec<Messages> = vec![Vec::new(); 256];
        let mut before = (0, Messages::new());
        let mut was_in_step = false;
        let (mut responses, mut completions) = (0, 0);
        let (mut at_response, mut at_completion) = (0, None);
        for command in script.split(|&byte| byte == b'\n') {
            if command.is_empty() || command.starts_with(b"put-") {
                continue;
            }
            let held = messages(rehearsal.hub_log()).1.len();
            let answer = rehearsal.command(&String::from_utf8_lossy(command));
            let words: Vec<&[u8]> = command.split(|&byte| byte == b' ').collect();
            let Some(pair) = rehearsal.pair() else {
                continue;
            };
            let (session, now) = messages(rehearsal.hub_log());
            if words[0] == b"publish" && answer == "ok" {
                book[session as usize].push(now.last().unwrap().clone());
            }
            assert_eq!(book[session as usize], now, "seed {seed}");

            let seat = messages(rehearsal.seat_log());
            assert!(book[seat.0 as usize].starts_with(&seat.1), "seed {seed}");
            if seat.0 == before.0 {
                assert!(seat.1.starts_with(&before.1), "seed {seed}");
            }

            if matches!(words[0], b"connect" | b"level") && answer == "ok" {
                was_in_step = false;
                at_completion = None;
            }
            let wrote = |letter| rehearsal.written(letter).0;
            if wrote(Letter::LoginResponse) > responses {
                at_response = held;
            }
            if wrote(Letter::SyncComplete) > completions {
                at_completion = Some(held);
            }
            responses = wrote(Letter::LoginResponse);
            completions = wrote(Letter::SyncComplete);
            if pair.in_step() && !was_in_step {
                steps += 1;
                assert!(
                    seat.1.len() >= at_completion.unwrap_or(at_response),
                    "seed {seed}"
                );
            }
            was_in_step = pair.in_step();

            if words[0] == b"level" && answer == "ok" {
                // A login that is accepted leads to the hub's log, unless the seat's log was too small on the way.
                levels += 1;
                let full = seat.1.len() < now.len() && {
                    let next = now[seat.1.len()].len();
                    rehearsal.seat_log().unwrap().would_take(next).is_err()
                };
                if pair.seat_phase().name() == "Live" {
                    assert!(!full, "seed {seed}");
                    level_done += 1;
                    assert_eq!(seat, (session, now), "seed {seed}");
                }
            }
            before = seat;
        }
    }
    assert!(
        level_done > 200 && levels > level_done && steps > 500,
        "{levels} {level_done} {steps}"
    );
}
