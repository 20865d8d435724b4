//! The two programs as they are run.

use answers::MASKS;
use answers::hex::from_hex;
use std::io::Write;
use std::process::{Command, Stdio};

fn ask(requests: &[u8]) -> Vec<String> {
    let mut line =
        Command::new(env!("CARGO_BIN_EXE_line")).stdin(Stdio::piped()).stdout(Stdio::piped()).spawn().unwrap();
    line.stdin.take().unwrap().write_all(requests).unwrap();
    let out = line.wait_with_output().unwrap();
    assert!(out.status.success());
    String::from_utf8(out.stdout).unwrap().lines().map(str::to_string).collect()
}

#[test]
fn a_bad_line_is_answered_and_the_rest_goes_on() {
    let answers = ask(b"crc 1\ncrc\nwhat -\n\n\xFF\npush a 5 00\nnew a F\nsplit 2 F0 00\ncrc -\n");
    assert_eq!(answers.len(), 9);
    assert!(answers[..8].iter().all(|a| a.starts_with("error: ")));
    assert_eq!(answers[8], "0000");
}

#[test]
fn every_request_is_answered() {
    let requests = b"encode 2 41\nencode 3 41\ndecode 2182\nparse 0 86A240404040609662824040406103F041\n\
        count 6 5\nsplit 5 F0 40ACB701001040\npreview 0 5 F0 86A240404040609662824040406103F041\n\
        preview 0 2 00 86A240404040609662824040406103F041\npreview 3 2 00 -\npreview 2 3 FF -\nframe 5 0 0 0 01 40001040\nnew a F0\npush a 5 0000000000000000\n\
        join a 5 C040ACB701\nstate a\njoin a 4 40001040\nreset a\nstate a\n";
    let expected = [
        "0 2182",
        "refused 1",
        "2 41",
        "0 0 1",
        "2",
        "C040ACB701 40001040",
        "7 2",
        "refused 8",
        "refused 1",
        "refused 9",
        "4000104014005242",
        "ok",
        "dropped",
        "more",
        "held C0ACB701 fragments 1 check 40 mask F0 overflow 0",
        "done 40ACB701001040",
        "ok",
        "held - fragments 0 check 40 mask F0 overflow 0",
    ];
    assert_eq!(ask(requests), expected);
}

/// A message is left under a name, another receiver takes its place, and the message is completed.
#[test]
fn a_receiver_is_kept_and_returned_to() {
    let requests = b"new a F0\npush a 5 C040ACB70101A38C\nkeep a 6E6574\nnew a F8\npush a 5 4000104014005242\n\
        return a 6E6574\npush a 5 4000104014005242\nkeep a -\nkeep a 666D\ndrop 6E6574\nreturn a 6E6574\ndrop -\n\
        keep b 666D\nkeep a fm\n";
    let expected = [
        "ok",
        "more",
        "0",
        "ok",
        "done 40001040",
        "ok",
        "done 40ACB701001040",
        "refused 20",
        "1",
        "0",
        "refused 20",
        "refused 20",
        "error: no receiver b",
        "error: not bytes in capital hexadecimal: fm",
    ];
    assert_eq!(ask(requests), expected);
}

fn recorded() -> String {
    let out = Command::new(env!("CARGO_BIN_EXE_record")).output().unwrap();
    assert!(out.status.success());
    String::from_utf8(out.stdout).unwrap()
}

#[test]
fn the_recorded_file_is_well_formed() {
    let file = recorded();
    assert!(file.is_ascii() && file.ends_with('\n') && file.len() < 2_500_000);
    for line in file.lines().filter(|line| !line.starts_with('#')) {
        assert!(line.split(' ').all(|word| !word.is_empty()), "{line}");
    }
    assert!(file.contains("\ncrc 313233343536373839 D64E\n"));
    assert!(file.contains("\ncrc - 0000\n"));
    assert!(file.contains("\ntext7 0 - none\n"));
    assert!(file.contains("\nencode 0 5 86A240404040604040404040406103F078 0:40AC0078FF\n"));
    assert!(file.contains("\nencode 2 2 - 0:21FF\n"));
    assert!(file.contains("\nfragment 5 0 5 80 40ACB701001040 C000ACB701\n"));
    assert!(file.contains("\nfragment 3 0 3 FC 40ACB701001040 C04EAC\n"));
    assert!(file.contains("\nfragment 3 0 3 FE 40ACB701001040 refused:12\n"));
    for refusal in 1..=6 {
        assert!(file.lines().any(|l| l.starts_with("encode") && l.ends_with(&format!(" refused:{refusal}"))));
    }
}

/// The words of each recorded fragment of field 3: kind, field, number, room, mask, message and answer.
fn fragments_of_field_3(file: &str) -> Vec<Vec<&str>> {
    file.lines().filter(|line| line.starts_with("fragment 3 ")).map(|line| line.split(' ').collect()).collect()
}

/// The last fragment of the longest message, and the refusal of a message that is one byte longer.
#[test]
fn every_mask_is_recorded_at_its_limit() {
    let file = recorded();
    let fragments = fragments_of_field_3(&file);
    for (mask, longest) in MASKS.into_iter().zip([258, 130, 66, 34, 18, 10, 6]) {
        let (mask, last) = (format!("{mask:02X}"), (longest / 2 - 1).to_string());
        let answered = |bytes: usize, number: &str, answer: fn(&str) -> bool| {
            fragments.iter().any(|f| f[2] == number && f[4] == mask && f[5].len() == 2 * bytes && answer(f[6]))
        };
        assert!(answered(longest, &last, |answer| answer.len() == 6), "{mask}");
        assert!(answered(longest + 1, "0", |answer| answer == "refused:12"), "{mask}");
    }
}

/// The answers of a history, a letter each.
fn heard(line: &str) -> String {
    let letter = |call: &str| match call.split_once('=') {
        Some((_, "more")) => 'm',
        Some((_, answer)) if answer.starts_with("done:") => 'd',
        _ => '-',
    };
    line.split(' ').map(letter).collect()
}

/// After another message, one of the most fragments is done.
#[test]
fn every_mask_is_recorded_with_its_most_fragments_heard() {
    let file = recorded();
    for (mask, most) in MASKS.into_iter().zip([129, 65, 33, 17, 9, 5, 3]) {
        let start = format!("history {mask:02X} ");
        let wanted = format!("d{}d", "m".repeat(most - 1));
        let mut histories = file.lines().filter(|line| line.starts_with(&start));
        assert!(histories.any(|line| heard(line).contains(&wanted)), "{mask:02X}");
    }
}

/// The worked example of 02's request E8, and each place and refusal in other lines.
#[test]
fn channels_are_recorded() {
    let file = recorded();
    let worked = "channel F0 p:5:C040ACB70101A38C=more k:6E6574=0 n:F8=ok p:5:4000104014005242=done:40001040 \
        p:5:C040ACB70101A38C=more k:666D=1 r:6E6574=ok p:5:4000104014005242=done:40ACB701001040 x:6E6574=0 \
        r:6E6574=refused:20 k:78=0 k:32=2 k:33=3 k:34=4 k:35=5 k:36=6 k:37=7 k:39=refused:21 k:666D=1 \
        k:-=refused:20 k:6E696E656279746573=refused:20";
    let mut lines = file.lines().filter(|line| line.starts_with("channel "));
    assert_eq!(lines.next(), Some(worked));
    let steps: Vec<&str> = lines.flat_map(|line| line.split(' ').skip(2)).collect();
    let has = |start: &str, end: &str| steps.iter().any(|step| step.starts_with(start) && step.ends_with(end));
    for place in 0..8 {
        assert!(has("k:", &format!("={place}")) && has("x:", &format!("={place}")), "{place}");
    }
    for (start, end) in [("k:", "20"), ("k:", "21"), ("r:", "20"), ("x:", "20"), ("n:", "9")] {
        assert!(has(start, &format!("=refused:{end}")), "{start} {end}");
    }
}

/// The words of each recorded preview: kind, command, field, mask, data and answer.
fn previews(file: &str) -> Vec<Vec<&str>> {
    file.lines().filter(|line| line.starts_with("preview ")).map(|line| line.split(' ').collect()).collect()
}

/// The worked examples of 02's request E3, at the start of their kind.
#[test]
fn worked_previews_are_recorded() {
    const FRAME: &str = "86A240404040609662824040406103F041";
    let file = recorded();
    let [short, eight, seven, long] = [33, 34, 17, 18].map(|n| "80".repeat(n));
    let [most, text, over] = [("80", 4_999), ("41", 4_999), ("80", 5_000)].map(|(byte, n)| byte.repeat(n));
    let expected = [
        ["preview", "0", "5", "F0", FRAME, "7:2"],
        ["preview", "2", "3", "F0", "-", "2:1"],
        ["preview", "2", "3", "F0", &short, "34:17"],
        ["preview", "2", "3", "F0", &eight, "refused:12"],
        ["preview", "2", "3", "F8", &seven, "18:9"],
        ["preview", "2", "3", "F8", &long, "refused:12"],
        ["preview", "3", "2", "00", FRAME, "refused:1"],
        ["preview", "0", "2", "00", &FRAME[..20], "refused:3"],
        ["preview", "0", "2", "00", FRAME, "refused:8"],
        ["preview", "0", "3", "00", FRAME, "refused:9"],
        ["preview", "2", "512", "F0", &most, "5000:10"],
        ["preview", "2", "512", "F0", &text, "4376:9"],
        ["preview", "2", "2", "00", &over, "refused:2"],
        ["preview", "0", "513", "F1", "86A24040404060D6BE624040406103F041", "refused:4"],
    ];
    assert_eq!(previews(&file)[..14], expected);
}

/// The commands and types of recorded previews that have a price.
fn priced_types(lines: &[Vec<&str>]) -> Vec<(u8, u8)> {
    let priced = lines.iter().filter(|words| !words[5].starts_with("refused"));
    let of = |words: &Vec<&str>| {
        let command = words[1].parse().unwrap();
        (command, answers::encode(command, &from_hex(words[4]).unwrap()).unwrap().1)
    };
    let mut types: Vec<_> = priced.map(of).collect();
    types.sort_unstable();
    types.dedup();
    types
}

/// Each refusal and no other, each type under each command, and under each mask the most fragments with 12 for one byte more.
#[test]
fn previews_are_recorded() {
    let file = recorded();
    let lines = previews(&file);
    let mut refused: Vec<u8> = lines.iter().filter_map(|w| w[5].strip_prefix("refused:")?.parse().ok()).collect();
    refused.sort_unstable();
    refused.dedup();
    assert_eq!(refused, [1, 2, 3, 4, 5, 8, 9, 12]);
    assert_eq!(priced_types(&lines), [(0, 0), (0, 1), (0, 2), (0, 3), (0, 4), (0, 6), (1, 0), (1, 1), (2, 0)]);
    for (mask, most) in MASKS.into_iter().zip([129, 65, 33, 17, 9, 5, 3]) {
        let (mask, longest) = (format!("{mask:02X}"), "80".repeat(2 * most - 1));
        let has = |data: &str, answer: &str| lines.contains(&vec!["preview", "2", "3", &mask, data, answer]);
        assert!(has(&longest, &format!("{}:{most}", 2 * most)), "{mask}");
        assert!(has(&format!("{longest}80"), "refused:12"), "{mask}");
    }
}

#[test]
fn other_masks_are_recorded_as_refused() {
    let file = recorded();
    let lines: Vec<&str> = file.lines().filter(|line| line.ends_with(" refused:9")).collect();
    for mask in (0..=255).filter(|byte| !MASKS.contains(byte)) {
        assert!(lines.contains(&&format!("history {mask:02X} refused:9")[..]), "{mask:02X}");
        let start = format!("fragment 5 0 512 {mask:02X} ");
        assert!(lines.iter().any(|line| line.starts_with(&start)), "{mask:02X}");
    }
}
