use super::*;
use crate::hub::commands::{PASSWORD_ENTER, SET_NAME, SET_ORDER, SET_VARIATION};
use crate::hub::refusals::CallRefusal;
use crate::hub::sessions::Session;
use crate::sender::wire;

fn answers(script: &[u8]) -> Vec<u8> {
    let mut answers = Vec::new();
    run(script, &mut answers).unwrap();
    answers
}

fn text(script: &[u8]) -> String {
    String::from_utf8(answers(script)).unwrap()
}

#[test]
fn no_call_gives_no_output() {
    for script in [&b""[..], b"\n", b"\n\n", b"#", b"# remark\n\n#\r\n#"] {
        assert_eq!(text(script), "");
    }
}

#[test]
fn the_state_before_any_start() {
    let lines = "line 0 plain -\nline 1 plain -\nline 2 plain -\nline 3 plain -\n";
    assert_eq!(text(b"show"), format!("login 0000\n{lines}end\n"));
    assert_eq!(text(b"table"), "end\n");
}

#[test]
fn an_answer_for_each_call() {
    let script = b"enrol 3 258\nenrol 3 258\nfeed 1 512 \nfeed 1 512 c0DB\n# remark\n\nshow\n\
        feed 9 0 -\nfeed 1 512 DC00C000\nfinish 0001 512\nclose 1\nstart - 0\nstart -";
    let node = format!("node 3 010102{}", "00".repeat(69));
    let expected = format!(
        "done\nrefused 12\nbad line 3 word 4\nused 2 none reply -\nlogin 0000\n{node}\n\
        line 0 plain -\nline 1 escaped -\nline 2 plain -\nline 3 plain -\nend\nrefused 8\n\
        used 3 packet 3 at 3 2 reply C0000400000206C0\nrefused 13\ndone\nrefused 7\nrefused 14\n"
    );
    assert_eq!(text(script), expected);
}

/// The wire place and the decoded place stand behind a packet's refusal, and
/// behind a line that skips.
#[test]
fn places_are_told() {
    let script = b"feed 0 8 C00003000103C0\nfeed 0 8 000300DBDC02DBDDC0\nfeed 1 0 05DBDCDB\n\
        feed 1 0 DBDBDC\nfeed 2 8 DBC0\nshow\nfeed 1 8 C0\nfeed 2 0 C0\nfeed 9 8 DBC0";
    let expected = "used 7 packet 6 at 4 4 reply C0000400000206C0\n\
        used 9 packet 15 at 6 5 reply C0000400000206C0\nused 4 none reply -\n\
        used 3 none reply -\nused 2 packet 1 at 1 0 reply C0000400000206C0\n\
        login 0000\nline 0 plain -\nline 1 skip1 - at 4 2\nline 2 plain -\n\
        line 3 plain -\nend\nused 1 packet 1 at 4 2 reply C0000400000206C0\n\
        used 1 none reply -\nrefused 8\n";
    assert_eq!(text(script), expected);
    let long = format!("feed 3 0 {}\nshow\n", "DBDD".repeat(256));
    assert!(text(long.as_bytes()).ends_with("line 3 skip2 - at 510 255\nend\n"));
}

#[test]
fn a_bad_line_has_its_number_and_its_word() {
    let script = b"# remark\n\nclose\n show\nclose 0 \n\r\nShow\nclose 0\r\nstop";
    let words = [(3, 2), (4, 1), (5, 3), (6, 1), (7, 1), (8, 2), (9, 1)];
    let expected = words.map(|(line, word)| format!("bad line {line} word {word}\n"));
    assert_eq!(text(script), expected.concat());
}

#[test]
fn a_long_line_is_one_bad_line() {
    let long = vec![b'0'; 200_000];
    let remark = vec![b'#'; 40_001];
    let parts = [
        &long[..],
        b"\nclose 0\n",
        &remark[1..],
        b"\n",
        &remark,
        b"\nclose 0\n",
        &long,
    ];
    assert_eq!(
        text(&parts.concat()),
        "bad line 1 too long\ndone\nbad line 4 too long\ndone\nbad line 6 too long\n"
    );
}

#[test]
fn sessions_have_labels() {
    let mut replay = Replay::new();
    let session = |number, line, nodes: &[u8]| Session {
        number,
        line,
        nodes: nodes.to_vec(),
    };
    replay.hub.sessions.slots[0] = Some(session(0x0102, 3, &[1, 20, 199]));
    replay.hub.sessions.slots[7] = Some(session(0xC0DB, 0, &[]));
    let mut answer = Vec::new();
    replay.show(&mut answer);
    let answer = String::from_utf8(answer).unwrap();
    let expected = "login 0000\nslot 0 session 0102 line 3 nodes 1 20 199\n\
        slot 7 session C0DB line 0 nodes\nline 0 plain -\n";
    assert!(answer.starts_with(expected), "{answer}");
}

/// The page's script and its answers stand in its first two blocks.
#[test]
fn the_worked_example_is_as_the_page_has_it() {
    let page = include_str!("../../../docs/REPLAY.md");
    let blocks: Vec<_> = page.split("```\n").skip(1).step_by(2).collect();
    let [script, answers] = blocks[..] else {
        panic!("the page has a script and its answers");
    };
    assert_eq!(text(script.as_bytes()), answers);
}

/// Behind the worked example the page has tables of calls and their answers,
/// made one after the other on the hub that the example leaves.
#[test]
fn the_tables_of_calls_are_as_the_page_has_them() {
    let page = include_str!("../../../docs/REPLAY.md");
    let mut script = page.split("```\n").nth(1).unwrap().to_string();
    let mut expected = text(script.as_bytes());
    let mut calls = 0;
    for row in page.lines() {
        let cells: Vec<_> = row.split('`').collect();
        if let ["| ", call, " | ", answer, ..] = cells[..] {
            if Call::parse(call.as_bytes()).is_ok() {
                script += &format!("{call}\n");
                expected += &format!("{answer}\n");
                calls += 1;
            }
        }
    }
    assert_eq!(calls, 9);
    assert_eq!(text(script.as_bytes()), expected);
}

/// The table of a node with this name.
fn listed(name: &[u8]) -> Vec<u8> {
    let mut named = vec![7];
    named.extend(name);
    named.resize(65, 0);
    let mut script = b"enrol 7 49363\n".to_vec();
    for frame in [
        wire(PASSWORD_ENTER, &[0; 32]),
        wire(SET_NAME, &named),
        wire(SET_ORDER, &[7, 0x12, 0x34, 200]),
        wire(SET_VARIATION, &[7, 4]),
    ] {
        script.extend(b"feed 0 512 ");
        write_bytes(&frame, &mut script);
        script.push(b'\n');
    }
    let before = answers(&script).len();
    script.extend(b"table");
    answers(&script).split_off(before)
}

#[test]
fn names_are_written_for_people() {
    let names: [(&[u8], &[u8]); 6] = [
        (b"", b""),
        (b"East vent", b"East vent"),
        (b"\"a\\b\"\x00 behind", b"\\\"a\\\\b\\\""),
        (b"\x01\t\n\x1F \x7E\x7F", b"\\x01\\x09\\x0A\\x1F ~\\x7F"),
        (b"S\xC3\xBCd\x80\xFF", b"S\xC3\xBCd\x80\xFF"),
        (&[b'x'; 64], &[b'x'; 64]),
    ];
    for (name, text) in names {
        let line = b"node 7 type C0D3 order 4660 placement 200 variation 4 name \"";
        let expected = [line, text, b"\"\nend\n"].concat();
        assert!(listed(name) == expected, "{name:?}");
    }
}

#[test]
fn other_bytes_in_the_lent_room_are_told() {
    let mut replay = Replay::new();
    let refused = Told::Refused(Refusals::none_of(&[(CallRefusal::Room, true)]).unwrap_err());
    let fed = |reply| {
        Told::Fed(Fed {
            used: 0,
            outcome: None,
            reply,
            remarks: Vec::new(),
        })
    };
    let mut answer = Vec::new();
    replay.write(&refused, 3, &mut answer);
    replay.room[3] = 0;
    for (told, lent) in [
        (&refused, 3),
        (&refused, 4),
        (&fed(4), 512),
        (&fed(0), 512),
        (&fed(0), 3),
    ] {
        replay.write(told, lent, &mut answer);
    }
    replay.room[3] = FILL;
    replay.room[ROOM_BUFFER - 1] = 0;
    replay.write(&fed(0), ROOM_BUFFER, &mut answer);
    replay.write(&fed(0), ROOM_BUFFER - 1, &mut answer);
    let expected = "refused 9\nrefused 9\nrefused 9 spilled\n\
        used 0 none reply A5A5A500\nused 0 none reply - spilled\nused 0 none reply -\n\
        used 0 none reply - spilled\nused 0 none reply -\n";
    assert_eq!(String::from_utf8(answer).unwrap(), expected);
}
