//! What the documents say of a pair, as rehearsals. A trace is its own script: what stands before ` -> ` is performed
//! again, and the answers must be the same.

const PARTS: &str = "\
hub-log journal 65536 -> ok
seat-log indexed 60000 1000 -> ok
up ring 4107 -> ok
down ring 8192 -> ok
account MM01 DESK-1 FILL -> ok
seat mm01 desk-1 FILL -> ok
setup -> ok
";

fn holds(trace: &str) {
    holds_of(&format!("{PARTS}{trace}"));
}

fn holds_of(trace: &str) {
    let commands = trace
        .lines()
        .map(|line| line.split(" -> ").next().unwrap().trim());
    let script = commands.collect::<Vec<_>>().join("\n");
    let got = String::from_utf8(plain::rehearse(script.as_bytes())).unwrap();
    let wanted: Vec<_> = trace
        .lines()
        .map(str::trim)
        .filter(|line| !line.is_empty())
        .collect();
    for (got, wanted) in got.lines().zip(&wanted) {
        assert_eq!(got, *wanted);
    }
    assert_eq!(got.lines().count(), wanted.len());
}

#[test]
fn the_example_of_the_language() {
    holds(
        "publish 46494c4c2031 -> ok
        connect join -> ok
        round -> hub 1 seat 1
        round -> hub 0 seat 1
        round -> hub 0 seat 1
        show -> hub Serving seat Live instep yes status - hub-log 1 1 seat-log 1 1 up 0 4107 down 0 8192 marked 1
        log seat -> 1: 46494c4c2031
        publish - -> ok
        round -> hub 0 seat 1
        log seat -> 1: 46494c4c2031 -",
    );
}

#[test]
fn a_new_pair() {
    holds(
        "show -> hub Shut seat Apart instep no status - hub-log 1 0 seat-log 0 0 up 0 4107 down 0 8192 marked 0
        wire -> up - down -
        log hub -> 1:
        log seat -> 0:
        out 0 -> -
        hub-receive -> refused 23
        seat-receive -> refused 23
        hub-send -> refused 23
        seat-send -> refused 23
        say 41 -> refused 23
        tell 41 -> refused 23
        leave -> refused 23
        connect fetch 5 -> refused 27
        round -> hub 0 seat 0
        tick -> ok",
    );
}

#[test]
fn a_login_on_the_wire() {
    holds(
        "connect join -> ok
        wire -> up 24004c312e3120206d6d3031206465736b2d31202046494c4c20202020000100000000000000 down -
        out 3 -> 24004c
        hub-receive -> part
        hub-receive -> acted L
        hub-receive -> refused 23
        show -> hub Answering seat Asking instep no status - hub-log 1 0 seat-log 0 0 up 0 4107 down 0 8192 marked 1
        roll -> refused 25
        hub-send -> wrote R
        wire -> up - down 0b005220010000000000000000",
    );
}

#[test]
fn thirty_silent_ticks_are_survived() {
    let start = "connect join -> ok\nround -> hub 1 seat 1\n";
    holds(&format!(
        "{start}tick 30 -> ok\nseat-send -> wrote 1\nhub-send -> wrote 0"
    ));
    holds(&format!(
        "{start}tick 31 -> ok\nseat-send -> refused 23\nhub-send -> refused 23"
    ));
    holds(&format!(
        "{start}tick 10 -> ok\nseat-send -> idle\nhub-send -> idle"
    ));
    holds(&format!(
        "{start}tick 11 -> ok\nseat-send -> wrote 1\nhub-send -> wrote 0"
    ));
}

#[test]
fn three_hundred_ticks_without_a_login() {
    let start = "connect join -> ok\n";
    holds(&format!(
        "{start}tick 300 -> ok\nhub-send -> idle\nhub-receive -> part"
    ));
    holds(&format!(
        "{start}tick 301 -> ok\nhub-send -> refused 23\nout 4 -> 0200474c"
    ));
    holds(&format!(
        "{start}tick 30 -> ok\nseat-send -> idle\ntick -> ok\nseat-send -> refused 23"
    ));
}

#[test]
fn a_rejected_login() {
    let trace = PARTS.replace("desk-1", "desk-2");
    holds_of(&format!(
        "{trace}connect join -> ok
        round -> hub 1 seat 1
        show -> hub Shut seat Apart instep no status X hub-log 1 0 seat-log 0 0 up 0 4107 down 0 8192 marked 0"
    ));
}

#[test]
fn another_session() {
    holds(
        "publish 41 -> ok
        level join -> ok
        roll -> refused 25
        cut -> ok
        roll -> ok
        publish 42 -> ok
        level join -> ok
        show -> hub Shut seat Apart instep no status S hub-log 2 1 seat-log 1 1 up 0 4107 down 0 8192 marked 0
        level anew -> ok
        log seat -> 2: 42",
    );
}

#[test]
fn synchronization_comes_after_what_was_published_since() {
    holds(
        "publish 41 -> ok
        connect anew -> ok
        round -> hub 1 seat 1
        publish 42 -> ok
        hub-send -> wrote S
        hub-send -> wrote S
        hub-send -> wrote C
        hub-send -> idle
        finish -> ok
        finish -> refused 24
        publish 43 -> refused 24
        hub-send -> wrote E
        hub-send -> refused 23
        round -> hub 0 seat 4
        show -> hub Shut seat Apart instep yes status - hub-log 1 2 seat-log 1 2 up 0 4107 down 0 8192 marked 0",
    );
}

#[test]
fn a_fetch() {
    holds(
        "publish 41 -> ok
        level join -> ok
        cut -> ok
        publish 42 -> ok
        publish 43 -> ok
        connect fetch 1 -> refused 28
        connect fetch 2 -> ok
        round -> hub 1 seat 1
        wire -> up 11004102000000000000000200000000000000 down -
        round -> hub 1 seat 1
        log seat -> 1: 41 42
        round -> hub 0 seat 0
        show -> hub Shut seat Live instep no status - hub-log 1 3 seat-log 1 2 up 0 4107 down 0 8192 marked 0",
    );
}

#[test]
fn causes_at_the_seat() {
    let start = "connect join -> ok\nround -> hub 1 seat 1\nput-down";
    let case = |bytes: &str, answer: &str| {
        holds(&format!(
            "{start} {bytes} -> ok\nseat-receive -> part\nseat-receive -> {answer}\nwire -> up 02005842 down -"
        ));
    };
    case("0100ff", "refused 18 packet 3 2");
    case("010031", "refused 18 packet 4 2");
    case("02004500", "refused 18 packet 5 0");
    case("02004720", "refused 18 packet 6 3");
    case("0900530200000000000000", "refused 18 packet 6 3");
    holds(&format!(
        "{start} 0000 -> ok\nseat-receive -> refused 18 packet 1 0"
    ));
    holds(&format!(
        "{start} 0a10 -> ok\nseat-receive -> refused 18 packet 2 0"
    ));
    holds(&format!(
        "{start} 0000 -> ok\nround -> hub 0 seat 0 fault packet 1 0"
    ));
}

#[test]
fn causes_at_the_hub() {
    let start =
        "publish 41 -> ok\nlevel join -> ok\ncut -> ok\npublish 42 -> ok\nconnect fetch 2 -> ok
        hub-receive -> part\nhub-receive -> acted L\nhub-send -> wrote R\nput-up";
    let case = |bytes: &str, answer: &str| {
        holds(&format!(
            "{start} {bytes} -> ok\nhub-receive -> part\nhub-receive -> {answer}"
        ));
    };
    case("02005843", "refused 18 packet 6 3");
    case(
        "11004100000000000000000000000000000000",
        "refused 18 packet 6 3",
    );
    case(
        "11004102000000000000000100000000000000",
        "refused 18 packet 6 11",
    );
    case("11004102000000000000000900000000000000", "acted A");
    case("010041", "refused 18 packet 5 0");
    case("0300556263", "message 3 2");
}

#[test]
fn a_seat_log_that_is_full() {
    let trace = PARTS.replace("seat-log indexed 60000 1000", "seat-log indexed 1 9");
    holds_of(&format!(
        "{trace}publish 4142 -> ok
        connect join -> ok
        round -> hub 1 seat 1
        round -> hub 0 seat 0 fault log 21 0
        wire -> up 02005841 down -
        round -> hub 1 seat 0"
    ));
}

#[test]
fn parts_and_errors() {
    holds_of(
        "setup -> error
        connect join -> error
        show -> error
        hub-log journal 4 -> refused 15
        hub-log journal 5 -> ok
        seat-log indexed 0 1048577 -> refused 15
        seat-log indexed 0 0 -> ok
        up ring 4106 -> refused 15
        up straight 4107 -> ok
        down paced 0 ring 5000 -> refused 15
        down paced 4107 ring 5000 -> ok
        wire -> up - down -
        account MM01 DESK-1 FILL -> ok
        account mm01 desk-1 X -> refused 29
        account toolong d x -> refused 16
        seat toolong d x -> ok
        buffers 4107 4106 4107 -> ok
        setup -> refused 14
        buffers 4107 4107 4108 -> ok
        setup -> refused 16
        seat MM01 DESK-1 FILL -> ok
        setup -> ok
        setup -> error
        up ring 4107 -> error
        tick 1000001 -> error
        out 4109 -> error
        put-up 4 -> error
        put-up - -> ok
        publish 41 -> refused 21",
    );
}
