//! Requests that are malformed, or only just well formed, and comments: the form itself, asked as raw lines.

use crate::ask::Peer;
use crate::field::{BYTES_MAX, HEX_BYTES_MAX, LINE_MAX, WORDS_MAX};
use crate::tally::{cut, Tally};

const TINY: &str = "10752 16 8 16127 16371 16383";

/// Comments: each is its own answer.
fn comments() -> Vec<Vec<u8>> {
    let mut lines: Vec<Vec<u8>> = [
        "#",
        "##",
        "# ",
        "# two words",
        "#words.double 1",
        "# words.double 65536",
        "#\ttab\rand CR\r",
    ]
    .map(|l| l.as_bytes().to_vec())
    .to_vec();
    lines.push(b"#\0\x7F\x80\xFF".to_vec());
    // As long as a line may be with its LF.
    lines.push([b"#".to_vec(), vec![b'x'; LINE_MAX - 2]].concat());
    lines
}

/// Sound lines with their answers: comments, small digits, and the largest sizes. A comment stands first, some stand one after another,
/// and some between requests.
fn sound() -> Vec<(Vec<u8>, Vec<u8>)> {
    let mut lines = Vec::new();
    for comment in comments() {
        lines.push((comment.clone(), comment));
    }
    for (i, request) in requests().into_iter().enumerate() {
        lines.push(request);
        let comment = format!("# after request {i}").into_bytes();
        lines.push((comment.clone(), comment));
    }
    lines
}

/// Sound requests with their answers.
fn requests() -> Vec<(Vec<u8>, Vec<u8>)> {
    let pair = |a: &str, b: &str| (a.as_bytes().to_vec(), b.as_bytes().to_vec());
    let mut lines = vec![
        pair("words.double 32775", "words.double 65550"),
        pair("words.double 0", "words.double 0"),
        pair("words.halve 18446744073709551615", "words.halve 0 0"),
        pair("words.put 0aFf 1 171", "words.put 0AAB"),
        pair("words.put - 0 171", "words.put -"),
        pair("words.is_words 3fFf3FfF 2", "words.is_words 1"),
        pair("device.is_image 65535 -", "device.is_image 0"),
        pair("device.is_name 20", "device.is_name 1"),
        pair("device.is_name -", "device.is_name 0"),
        pair(&format!("judge.checksum {TINY} -"), "judge.checksum 21 0"),
    ];
    // The largest numbers of calls that judge nothing.
    let most = "65535 65535 65535 65535 65535 65535";
    for (name, rest) in [
        ("plan.row_differs", "- - 65535"),
        ("plan.row_rises", "- - 65535"),
        ("plan.id_differs", "- -"),
        ("plan.id_rises", "- -"),
        ("plan.is_written", "- - 18446744073709551615 65535"),
    ] {
        let request = format!("{name} {most} {rest}");
        lines.push(pair(&request, &format!("{name} 0")));
    }
    for (name, rest) in [
        ("plan.update_refusal", "- -"),
        ("plan.fresh_refusal", "- 65535"),
    ] {
        let request = format!("{name} {most} {rest}");
        lines.push(pair(&request, &format!("{name} 13")));
    }
    // As many bytes and words as a field may have.
    let bytes = "A7".repeat(BYTES_MAX);
    lines.push(pair(
        &format!("words.put {bytes} {BYTES_MAX} 0"),
        &format!("words.put {bytes}"),
    ));
    let words = "3FFF".repeat(WORDS_MAX);
    lines.push(pair(
        &format!("words.is_words {words} {WORDS_MAX}"),
        "words.is_words 1",
    ));
    for name in ["ihex.next_line", "ihex.line_from"] {
        lines.push(pair(
            &format!("{name} {bytes} 0 0"),
            &format!("{name} 0 {BYTES_MAX} {} 1", BYTES_MAX + 1),
        ));
    }
    // HEX text has more: a text that is too long by one, and room for one.
    let (lent, silent) = ("1234".repeat(25), "FFFF".repeat(25));
    let text = "0A".repeat(HEX_BYTES_MAX);
    lines.push(pair(
        &format!("ihex.read_hex {TINY} {text} {lent}"),
        &format!("ihex.read_hex 1 0 0 {silent}"),
    ));
    let end: String = b":00000001FF\n"
        .iter()
        .map(|x| format!("{x:02X}"))
        .collect();
    lines.push(pair(
        &format!("ihex.write_hex {TINY} {silent} {text}"),
        &format!("ihex.write_hex 0 12 {end}{}", &text[end.len()..]),
    ));
    // A line of exactly the longest length: name, four blanks, `-`, LF and digits.
    let digits = LINE_MAX - 12 - 4 - 1 - 1;
    let (a, b) = ("5A".repeat(BYTES_MAX), "C3".repeat(200_000));
    let c = "11".repeat(digits / 2 - BYTES_MAX - 200_000);
    let text = "refused\t15\t0\t0\n";
    let mut out = c.clone();
    let shown: String = text.bytes().map(|x| format!("{x:02X}")).collect();
    let room = out.len().min(shown.len());
    out.replace_range(..room, &shown[..room]);
    lines.push(pair(
        &format!("bench.verify - {a} {b} {c}"),
        &format!("bench.verify {} {out}", text.len()),
    ));
    lines
}

fn malformed() -> Vec<Vec<u8>> {
    let latches = "3FFF".repeat(32);
    let cells = "3FFF".repeat(27);
    let mut lines: Vec<String> = [
        "",
        " ",
        "words",
        "words.",
        "words.doubles 1",
        "Words.double 1",
        "words.double",
        "words.double ",
        "words.double 1 ",
        " words.double 1",
        "words.double  1",
        "words.double 1 1",
        "words.double 01",
        "words.double 00",
        "words.double +1",
        "words.double -1",
        "words.double -",
        "words.double 1.",
        "words.double 0x1",
        "words.double A",
        "words.double 65536",
        "words.double 1\r",
        "words.double\t1",
        "words.double 18446744073709551616",
        "words.double 99999999999999999999999",
        "words.halve 18446744073709551616",
        "words.halve 018446744073709551615",
        "words.digit 256",
        "words.entry_of 65536 1 1 1",
        "words.entry_of 1 65536 1 1",
        "words.entry_of 1 1 256 1",
        "words.entry_of 1 1 1 65536",
        "words.address_of 1 1 1",
        "words.put 0 0 0",
        "words.put 00 0 256",
        "words.put 000 0 0",
        "words.put 0G 0 0",
        "words.put -- 0 0",
        "words.put -00 0 0",
        "words.put  0 0",
        "words.put_word 00 0 65536",
        "words.decimal 30 4294967296",
        "words.is_words 3FF 1",
        "words.is_words 3FFF00 1",
        "words.is_words 3FFF,3FFF 2",
        "words.find - 0 0",
        "words.find - 0 0 256",
        "words.find - 0 18446744073709551616 0",
        "device.judge 1 2 3 4 5",
        "device.judge 1 2 3 4 5 6 7",
        "device.judge 65536 16 8 16127 16371 16383",
        "device.judge 10752 16 8 16127 16371 65536",
        "device.fits 10752 16 8 16127 16371 10752",
        "device.fits 10752 16 8 16127 16371 16383 65536",
        "device.fits 10752 16 8 16127 16371 16383 10752 0",
        "device.id_fits 10752 16 8 16127 16371 16383 10752",
        "device.find_device - 65536",
        "device.is_name",
        "device.is_name - -",
        "device.is_name 5449 4E59",
        "device.is_name TINY",
        "device.sound_of 1 2 3 4 5",
        "device.sound_of 10752 16 8 16127 16371 65536",
        "device.name_of - 0",
        "device.name_of - 0 18446744073709551616",
        "judge.checksum 10752 16 8 16127 16371 16383",
        "judge.checksum 10752 16 8 16127 16371 -",
        "sheet.read_sheet 10752 16 8 16127 16371 16383 - -",
        "sheet.read_sheet 10752 16 8 16127 16371 16383 - - 0",
        "sheet.read_sheet 10752 16 8 16127 16371 16383 - - - -",
        "sheet.write_new_sheet 10752 16 8 16127 16371 16383 - -",
        "sheet.write_new_sheet 10752 16 8 16127 16371 16383 54494E59 00 -",
        "sheet.write_new_sheet 10752 16 8 16127 16371 16383 - - - -",
        "sheet.to_new - -",
        "sheet.to_new - - - -",
        "sheet.to_old - -",
        "sheet.to_old - - 0",
        "sheet.new - - -",
        "bench.newsheet - -",
        "bench.newsheet - - - -",
        "bench.oldsheet - -",
        "bench.oldsheet - - - -",
        "answer",
        "quit",
        "bench.dump - -",
        "bench.dump - - - -",
        "bench.gather - - -",
        "bench.gather - - - - -",
        "print.refusal 256 0 0 -",
        "print.refusal 0 4294967296 0 -",
        "print.refusal 0 0 4294967296 -",
        "print.refusal 0 0 -",
        "print.refusal 0 0 0 0 -",
        "print.sum 65536 -",
        "print.verdict 40 65536 0 -",
        "print.text -",
        "plan.row_differs 10752 16 8 16127 16371 16383 - -",
        "plan.row_differs 10752 16 8 16127 16371 16383 - - 65536",
        "plan.row_differs 10752 16 8 16127 16371 16383 - - 0 0",
        "plan.row_rises 10752 16 8 16127 16371 16383 - -",
        "plan.row_rises 10752 16 8 16127 16371 16383 - - 65536",
        "plan.row_rises 10752 16 8 16127 16371 16383 0 - 0",
        "plan.id_differs 10752 16 8 16127 16371 16383 -",
        "plan.id_differs 10752 16 8 16127 16371 16383 - - 0",
        "plan.id_rises 10752 16 8 16127 16371 16383 -",
        "plan.id_rises 10752 16 8 16127 16371 - -",
        "plan.is_written 10752 16 8 16127 16371 16383 - - 0",
        "plan.is_written 10752 16 8 16127 16371 16383 - - 0 65536",
        "plan.is_written 10752 16 8 16127 16371 16383 - - 18446744073709551616 0",
        "plan.is_written 10752 16 8 16127 16371 16383 - - 0 0 0",
        "plan.update_refusal 10752 16 8 16127 16371 16383 -",
        "plan.update_refusal 10752 16 8 16127 16371 16383 - - -",
        "plan.fresh_refusal 10752 16 8 16127 16371 16383 -",
        "plan.fresh_refusal 10752 16 8 16127 16371 16383 - 65536",
        "plan.fresh_refusal 10752 16 8 16127 16371 16383 - -",
        "plan.row_written 10752 16 8 16127 16371 16383 - - 0",
        "board.find_record -",
        "board.open_record -",
        "lent.third_line",
        "lent.third_line - -",
        "board.open_board - -",
        "board.open_board - - 65536",
        "board.print_sheet 10752 16 8 16127 16371 16383 - -",
        "board.print_sheet 10752 16 8 16127 16371 16383 65536 - -",
        " # no comment",
        "words.double 1 # no comment",
        "words.double 1 #",
        "words.double #",
        "words.double \u{663}",
    ]
    .map(String::from)
    .to_vec();
    for other in ["3FFF".repeat(31), "3FFF".repeat(33), "-".to_string()] {
        lines.push(format!("target.step {TINY} 0 {other} 6 0 - {cells}"));
    }
    for (counter, code, payload) in [("65536", "6", "0"), ("0", "256", "0"), ("0", "6", "65536")] {
        lines.push(format!(
            "target.step {TINY} {counter} {latches} {code} {payload} - {cells}"
        ));
    }
    // A byte or a word more than a field may have. The text of a HEX file is longer in two calls alone.
    let (more, text) = ("0A".repeat(BYTES_MAX + 1), "0A".repeat(HEX_BYTES_MAX + 1));
    lines.push(format!("words.put {more} 0 0"));
    lines.push(format!("words.is_words {} 0", "0000".repeat(WORDS_MAX + 1)));
    lines.push(format!("ihex.read_hex {TINY} {text} -"));
    lines.push(format!("ihex.write_hex {TINY} - {text}"));
    lines.push(format!("ihex.next_line {more} 0 0"));
    lines.push(format!("ihex.line_from {more} 0 0"));
    lines.push(format!("sheet.read_sheet {TINY} {more} - -"));
    lines.push(format!("sheet.read_sheet {TINY} - {more} -"));
    lines.push(format!("sheet.to_new - {more} -"));
    lines.push(format!("sheet.to_old - - {more}"));
    lines.push(format!("device.is_name {more}"));
    lines.push(format!("target.run {TINY} - {more} 0 -"));
    lines.push(format!("plan.read_back {TINY} {more}"));
    lines.push(format!("bench.update - - {more} -"));
    // One byte more than the longest line, every field of it lawful.
    let digits = LINE_MAX + 1 - 12 - 4 - 1;
    let parts = [
        "5A".repeat(200_000),
        "A5".repeat(100_000),
        "77".repeat(200_000),
    ];
    let last = "11".repeat(digits / 2 - 500_000);
    lines.push(format!(
        "bench.verify {} {} {} {last}",
        parts[0], parts[1], parts[2]
    ));
    // A comment of one byte more than the longest line.
    lines.push(format!("#{}", "x".repeat(LINE_MAX - 1)));
    let mut raw: Vec<Vec<u8>> = lines.into_iter().map(String::into_bytes).collect();
    raw.push(b"words.double 1\0".to_vec());
    raw.push(b"words.double \xFF".to_vec());
    raw.push(b"\xFF\xFE".to_vec());
    raw
}

/// An input that ends at a malformed line, what is answered before it, and that line's number.
struct Ended {
    input: Vec<u8>,
    output: Vec<u8>,
    line: u32,
}

/// Each malformed line between two sound ones; inputs that end inside a line; comments before such lines, which are counted.
fn ended() -> Vec<Ended> {
    let sound = b"words.double 1\n".as_slice();
    let second = |input: Vec<u8>| Ended {
        input,
        output: b"words.double 2\n".to_vec(),
        line: 2,
    };
    let mut inputs: Vec<Ended> = malformed()
        .into_iter()
        .map(|bad| second([sound, &bad, b"\nwords.double 2\n"].concat()))
        .collect();
    for end in ["words.double 2", "words.doub", "#", "# a comment"] {
        inputs.push(second([sound, end.as_bytes()].concat()));
    }
    let counted = |input: &[u8], output: &[u8], line: u32| Ended {
        input: input.to_vec(),
        output: output.to_vec(),
        line,
    };
    inputs.extend([
        counted(b"\nwords.double 1\n", b"", 1),
        counted(b"# one\n\nwords.double 1\n", b"# one\n", 2),
        counted(b"#\n#\nwords.double\n#\n", b"#\n#\n", 3),
        counted(
            b"# one\nwords.double 1\n# three\nwords.double 2\n#\nwords.double x\n#\n",
            b"# one\nwords.double 2\n# three\nwords.double 4\n#\n",
            6,
        ),
        counted(b"# one\n# two", b"# one\n", 2),
    ]);
    inputs
}

/// The message of a malformed line, at the beginning of a line of its own.
fn told(messages: &[u8], line: u32) -> bool {
    let message = format!("answer: line {line}: ");
    messages
        .split(|&c| c == b'\n')
        .any(|m| m.starts_with(message.as_bytes()))
}

/// Sound lines are all answered, a malformed one is the last that is looked at.
pub fn check(peer: &Peer, tally: &mut Tally) {
    let mut input = Vec::new();
    let mut expected = Vec::new();
    for (line, answer) in sound() {
        input.extend([line.as_slice(), b"\n"].concat());
        expected.extend([answer.as_slice(), b"\n"].concat());
    }
    match peer.talk(&input) {
        Err(why) => tally.check(false, || why),
        Ok(talk) => tally.check(talk.output == expected && talk.messages.is_empty(), || {
            let parts = talk
                .output
                .iter()
                .zip(&expected)
                .position(|(a, b)| a != b)
                .unwrap_or(0);
            format!(
                "sound lines\n    own {}\n    got {}\n    told {}",
                cut(&expected, parts),
                cut(&talk.output, parts),
                cut(&talk.messages, 0)
            )
        }),
    }
    for e in ended() {
        match peer.talk(&e.input) {
            Err(why) => tally.check(false, || why),
            Ok(talk) => {
                let good = talk.output == e.output && told(&talk.messages, e.line);
                tally.check(good, || {
                    format!(
                        "a malformed line {}\n    input {}\n    got {}\n    told {}",
                        e.line,
                        cut(&e.input, 0),
                        cut(&talk.output, 0),
                        cut(&talk.messages, 0)
                    )
                });
            }
        }
    }
    match peer.talk(b"") {
        Err(why) => tally.check(false, || why),
        Ok(talk) => tally.check(talk.output.is_empty() && talk.messages.is_empty(), || {
            "the empty input has an answer".to_string()
        }),
    }
}
