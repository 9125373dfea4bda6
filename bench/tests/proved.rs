//! The proved library beside this one: a trace as it comes, sums, refusals.
#![cfg(feature = "proved")]

use plain::fault::Refusal;
use plain::{proved, twins};

#[test]
fn a_trace_has_words_and_a_last_line() {
    let script = b"# parts\nup ring 1\n\n  up ring 4107\nround\nwire\n";
    let trace = String::from_utf8(proved::rehearse(script).unwrap()).unwrap();
    let lines: Vec<&str> = trace.lines().collect();
    assert_eq!(lines.len(), 5);
    assert!(lines[0].starts_with("up ring 1 -> refused 15 ("));
    assert_eq!(lines[1], "up ring 4107 -> ok");
    assert!(lines[2].starts_with("round -> error ("));
    assert!(lines[3].starts_with("wire -> error ("));
    assert!(lines[4].starts_with("# calls 0, granted 0, refused 0"));
    let plain = "up ring 1 -> refused 15\nup ring 4107 -> ok\nround -> error\nwire -> error\n";
    assert_eq!(plain::rehearse(script), plain.as_bytes());
}

#[test]
fn a_trace_that_is_longer_than_the_first_buffer() {
    let trace = proved::rehearse(b"buffers 4107 4107 100000\nout 100000\n").unwrap();
    let digits = trace.iter().filter(|&&byte| byte == b'0').count();
    assert!(digits > 200_000, "{digits}");
}

#[test]
fn sums_and_refusals() {
    let number = |sum: Result<u64, Refusal>| sum.map_err(Refusal::number);
    for length in [0, 1, 7, 8, 12, 64, 4_096, 4_097] {
        assert_eq!(
            proved::packets(length, 3),
            number(twins::packets(length, 3))
        );
        for ring in [4_106, 4_107, 9_000, 1_048_576, 1_048_577] {
            assert_eq!(
                proved::through_ring(ring, length, 9),
                number(twins::through_ring(ring, length, 9))
            );
        }
        for memory in [4, 5, 8, 9, 100, 20_000, 16_777_217] {
            assert_eq!(
                proved::appends(memory, length, 2),
                number(twins::appends(memory, length, 2))
            );
            assert_eq!(
                proved::reads(memory, length, 2),
                number(twins::reads(memory, length, 2))
            );
            assert_eq!(
                proved::opens(memory, length, 2),
                number(twins::opens(memory, length, 2))
            );
            assert_eq!(
                proved::copies(memory, length, 2),
                number(twins::copies(memory, length, 2))
            );
            assert_eq!(
                proved::levels(memory, length, 2),
                number(twins::levels(memory, length, 2))
            );
            for pace in [0, 1, 5, 4_107, 4_108] {
                assert_eq!(
                    proved::levels_paced(pace, memory, length, 2),
                    number(twins::levels_paced(pace, memory, length, 2))
                );
            }
            assert_eq!(
                proved::lives(memory, length, 3, 2),
                number(twins::lives(memory, length, 3, 2))
            );
        }
    }
}
