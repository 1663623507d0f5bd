//! `tools/trace.py`: recorded runs told in text, one call a line, and back.

use journal_tests::corners::{corners, example, file};
use journal_tests::random::{damaged_trace, some_calls_within, Random};
use journal_tests::trace::{bytes_of, read, Call};
use std::io::{ErrorKind, Write};
use std::process::{Command, Output, Stdio};

/// Does many jobs in one run of Python: each is the mode's first letter, its
/// length and its bytes; each answer whether it was done, its length and its bytes.
const JOBS: &str = "
import struct, sys
sys.dont_write_bytecode = True
sys.path.insert(0, sys.argv[1])
import trace
read, write = sys.stdin.buffer.read, sys.stdout.buffer.write
while head := read(9):
    mode, length = struct.unpack('<cQ', head)
    try:
        answer = b'y', trace.done({b'r': 'read', b'm': 'make'}[mode], read(length))
    except trace.Broken as broken:
        answer = b'n', str(broken).encode()
    write(struct.pack('<cQ', answer[0], len(answer[1])) + answer[1])
";

const TOOLS: &str = concat!(env!("CARGO_MANIFEST_DIR"), "/../tools");

/// What Python writes, and whether it ended well; none where there is no Python,
/// and so nothing to be tried.
fn python(arguments: &[&str], input: Vec<u8>) -> Option<Output> {
    let mut python = Command::new("python3");
    python.args(arguments).stdin(Stdio::piped()).stdout(Stdio::piped()).stderr(Stdio::piped());
    let mut child = match python.spawn() {
        Err(error) if error.kind() == ErrorKind::NotFound => {
            eprintln!("python3 is not there: tools/trace.py is not tried");
            return None;
        }
        child => child.expect("python3"),
    };
    let mut lent = child.stdin.take().expect("its input");
    let writing = std::thread::spawn(move || lent.write_all(&input));
    let output = child.wait_with_output().expect("its output");
    writing.join().expect("a thread").expect("it reads all");
    Some(output)
}

/// What the tool makes or reads of each of these inputs; none for one refused.
fn tool<T: AsRef<[u8]>>(mode: u8, inputs: &[T]) -> Option<Vec<Option<Vec<u8>>>> {
    let length = |bytes: &[u8]| (bytes.len() as u64).to_le_bytes();
    let job = |input: &[u8]| [&[mode][..], &length(input), input].concat();
    let jobs = inputs.iter().flat_map(|input| job(input.as_ref())).collect();
    let output = python(&["-c", JOBS, TOOLS], jobs)?;
    assert!(output.status.success(), "{}", String::from_utf8_lossy(&output.stderr));
    let (mut rest, mut answers) = (&output.stdout[..], Vec::new());
    while let Some((head, behind)) = rest.split_at_checked(9) {
        let length = u64::from_le_bytes(head[1..].try_into().expect("eight bytes"));
        let (answer, behind) = behind.split_at(length as usize);
        answers.push((head[0] == b'y').then(|| answer.to_vec()));
        rest = behind;
    }
    assert_eq!(answers.len(), inputs.len());
    Some(answers)
}

/// A trace in form is told in text, one call a line, and made of that text again;
/// any other is refused.
#[test]
fn every_trace_in_form_can_be_told() {
    let mut random = Random::new(134);
    let lengths = [600, 2000, 5000, 15000, 65536].repeat(40);
    let some = lengths.into_iter().map(|most| bytes_of(&some_calls_within(&mut random, most)));
    let mut traces: Vec<Vec<u8>> = some.collect();
    traces.extend((0..1000).map(|_| damaged_trace(&mut random)));
    traces.extend(corners().into_iter().map(|corner| corner.bytes));
    let Some(texts) = tool(b'r', &traces) else { return };
    for (text, bytes) in texts.iter().zip(&traces) {
        let lines = text.as_ref().map(|text| text.iter().filter(|&&byte| byte == b'\n').count());
        assert_eq!(lines, read(bytes).ok().map(|calls| calls.len()), "{} bytes", bytes.len());
    }
    traces.retain(|bytes| read(bytes).is_ok());
    let texts: Vec<Vec<u8>> = texts.into_iter().flatten().collect();
    let made = tool(b'm', &texts).expect("python3");
    assert!(made.into_iter().eq(traces.into_iter().map(Some)), "each is as it was");
}

/// The command itself: what it makes and reads of a file, and a text it refuses.
#[test]
fn the_example() {
    assert_eq!(example().text, file("examples/rerun.out"));
    let (script, bytes) = (format!("{TOOLS}/trace.py"), example().bytes);
    let text = format!("{TOOLS}/../examples/rerun.txt");
    let Some(made) = python(&[&script, "make", &text], vec![]) else { return };
    assert_eq!((made.status.success(), &made.stdout, &made.stderr), (true, &bytes, &vec![]));
    let read = python(&[&script, "read"], bytes.clone()).expect("python3");
    assert!(read.status.success());
    assert_eq!(tool(b'm', &[read.stdout]), Some(vec![Some(bytes)]));
    let refused = python(&[&script, "make"], b"format 4\n\nstep 2".to_vec()).expect("python3");
    assert!(!refused.status.success() && refused.stdout.is_empty());
    assert_eq!(refused.stderr, b"trace.py: line 3: step takes nothing\n");
}

/// Each notation once.
#[test]
fn what_a_text_tells() {
    let text = "
        # Comments and empty lines are left out.
        format 0x10  # so many blocks

        append 5=1000 7=0x14 5=- 32773:0 32773:1 0:0 65535:0xffffffffffffffff
        buffer
        cut page 255 00*17 FFa5*2 12"
        .to_string()
        + &"00".repeat(234)
        + "
        recover
        cut block 15 0F*
        recover
        cut page 0 1234 F0F1*
        recover
        collect 18446744073709551615
        step\n\tcommit\r\nflush";
    let keys = vec![5, 7, 32773, 32773, 32773, 0, 65535];
    let mut first = vec![0; 256];
    first[17..22].copy_from_slice(&[0xFF, 0xA5, 0xFF, 0xA5, 0x12]);
    let last = [vec![0x12, 0x34], [0xF0, 0xF1].repeat(127)].concat();
    let calls = [
        Call::Format { blocks: 16 },
        Call::Append { keys, words: vec![1000, 20, 0, 0, 1, 0, u64::MAX] },
        Call::Buffer { keys: vec![], words: vec![] },
        Call::Cut { place: 255, pattern: first },
        Call::Recover,
        Call::Cut { place: 271, pattern: vec![0x0F; 4096] },
        Call::Recover,
        Call::Cut { place: 0, pattern: last },
        Call::Recover,
        Call::Collect { block: u64::MAX },
        Call::Step,
        Call::Commit,
        Call::Flush,
    ];
    let Some(made) = tool(b'm', &[text]) else { return };
    assert!(made == [Some(bytes_of(&calls))]);
}

/// A text that is no trace is refused, and nothing is written.
#[test]
fn what_a_text_cannot_tell() {
    let lines = [
        "format 4",
        "walk",
        "step 2",
        "commit 0",
        "recover 1",
        "flush 0",
        "collect",
        "collect -1",
        "collect 18446744073709551616",
        "collect 1 2",
        "append 5",
        "append 5=",
        "append =5",
        "append 32768=1",
        "append 65536:1",
        "append 5=18446744073709551616",
        "append 5=--",
        "append 5=1_000",
        "append 5 = 1",
        "buffer 5:-",
        "cut",
        "cut page",
        "cut page 3",
        "cut page 3 FF*256",
        "cut page 256 FF*256\nrecover",
        "cut block 16 FF*\nrecover",
        "cut page 3 FF*255\nrecover",
        "cut page 3 FF*257\nrecover",
        "cut block 3 FF*256\nrecover",
        "cut page 3 F*\nrecover",
        "cut page 3 FF* 00\nrecover",
        "cut page 3 *256\nrecover",
        "cut page 3 FFFF* 00FF00*\nstep",
        "cut page 3 GG*256\nrecover",
        "cut 3 FF*256\nrecover",
        "cut page 3 123456*\nrecover",
        "Step",
    ];
    let mut texts: Vec<Vec<u8>> =
        lines.iter().map(|line| format!("format 4\n{line}\n").into_bytes()).collect();
    let alone =
        ["", "# none", "step", "format", "format 3", "format 17", "format four", "format 4 4"];
    texts.extend(alone.map(|text| text.as_bytes().to_vec()));
    let entries = |count| format!("format 4\nappend{}", " 5=1".repeat(count)).into_bytes();
    texts.extend([b"format 4 # \xFF".to_vec(), entries(6550)]);
    // Only this one is a trace: it has 65530 bytes.
    texts.push(entries(6549));
    let Some(mut made) = tool(b'm', &texts) else { return };
    assert!(made.pop().flatten().is_some_and(|bytes| read(&bytes).is_ok()));
    for (made, text) in made.iter().zip(&texts) {
        assert_eq!(*made, None, "{}", String::from_utf8_lossy(text));
    }
}
