//! What a change request does not touch is answered as before it, byte for
//! byte: `examples/before-cr-NN.script` and its answers, which stay. A later
//! request takes out the lines that it touches.

use bench::hub::commands::{PASSWORD_CHANGE, PASSWORD_ENTER};
use bench::hub::PASSWORD;
use bench::outcome::Outcome;
use bench::replay::call::Call;
use bench::replay::{self, lines, Replay, Told};

/// Holds the model to kept answers, and tells their lines.
fn answered_as_before(script: &[u8], kept: &[u8]) -> Vec<String> {
    let mut answers = Vec::new();
    replay::run(script, &mut answers).unwrap();
    assert!(answers == kept);
    let text = String::from_utf8_lossy(kept);
    text.lines().map(String::from).collect()
}

fn calls(script: &[u8]) -> Vec<Call> {
    let calls = lines::all(script).map(|line| Call::parse(&line));
    calls.flatten().collect()
}

/// What a script starts with, enters and changes, half by half.
fn passwords(script: &[u8]) -> Vec<Vec<u8>> {
    let mut replay = Replay::new();
    let mut passwords = Vec::new();
    for text in lines::all(script) {
        let told = replay.line(&text, &mut Vec::new());
        match (Call::parse(&text), told) {
            (Ok(Call::Start { password, .. }), _) => passwords.push(password),
            (Ok(Call::Feed { line, .. }), Told::Fed(fed)) => {
                if let Some(Outcome::Frame { command, data }) = fed.outcome {
                    if [PASSWORD_ENTER, PASSWORD_CHANGE].contains(&command) {
                        let data = replay.records[usize::from(line)].data(data);
                        passwords.extend(data.chunks(PASSWORD).map(Vec::from));
                    }
                }
            }
            _ => {}
        }
    }
    passwords
}

fn count(answers: &[String], word: &str) -> usize {
    let with = answers.iter().filter(|answer| answer.contains(word));
    with.count()
}

/// Before CR 1 a room below 512 was refused. With more than that, all is as
/// it was.
#[test]
fn cr_1_touches_only_rooms_below_512() {
    let script = include_bytes!("../examples/before-cr-01.script");
    let answers = include_bytes!("../examples/before-cr-01.answers");
    answered_as_before(script, answers);
    let mut with_room = 0;
    for call in calls(script) {
        if let Call::Feed { room, .. } | Call::Finish { room, .. } = call {
            with_room += 1;
            assert!(room >= 512, "{call}");
        }
    }
    assert!(with_room > 150, "{with_room}");
}

/// Before CR 2 no place was told, and a frame longer than its length byte
/// claims was refused 5. Where no packet is told as refused and no line shown
/// as skipping, all is as it was.
#[test]
fn cr_2_touches_only_refused_packets() {
    let script = include_bytes!("../examples/before-cr-02.script");
    let answers = include_bytes!("../examples/before-cr-02.answers");
    let answers = answered_as_before(script, answers);
    assert_eq!(count(&answers, " packet "), 0);
    assert_eq!(count(&answers, " skip"), 0);
    assert!(count(&answers, " frame ") > 150);
    assert!(count(&answers, " escaped ") > 4);
    assert!(calls(script).len() > 400);
}

/// Before CR 3 all 32 bytes were compared, and stored as they came. Where
/// nothing but zeros stands behind a zero, all is as it was.
#[test]
fn cr_3_touches_only_bytes_behind_a_zero() {
    let script = include_bytes!("../examples/before-cr-03.script");
    let answers = include_bytes!("../examples/before-cr-03.answers");
    let answers = answered_as_before(script, answers);
    for password in passwords(script) {
        let behind = password.iter().skip_while(|&&byte| byte != 0);
        assert!(behind.copied().all(|byte| byte == 0), "{password:02X?}");
    }
    // Statuses 0 and 1 of enter and change.
    for (reply, least) in [
        ("C0000430010035C0", 40),
        ("C0000430010134C0", 40),
        ("C0000430030037C0", 15),
        ("C0000430030136C0", 15),
    ] {
        assert!(count(&answers, reply) > least, "{reply}");
    }
    assert!(count(&answers, " packet ") > 50);
    assert!(calls(script).len() > 800);
}
