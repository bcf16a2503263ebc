//! The proved replay program reads and writes as it must: the library's proofs say what it answers,
//! and not what
//! its process does with a pipe.

use reference::frame::Message;
use reference::replay::replay;
use replayed::{ended, get, long_journal, program, put, soon, under_shell, BUFFER};
use samples::script::{framed, record};
use samples::{sample, tail};
use std::fs::OpenOptions;
use std::io::{self, Read, Write};
use std::os::fd::OwnedFd;
use std::os::unix::net::UnixDatagram;
use std::process::{Child, ChildStdin, ChildStdout, Command, Stdio};
use std::sync::mpsc::{self, Receiver};
use std::thread;
use std::time::Duration;
use support::Rng;

fn piped(mut command: Command) -> (Child, ChildStdin, ChildStdout) {
    let mut child = command
        .stdin(Stdio::piped())
        .stdout(Stdio::piped())
        .spawn()
        .expect("the program starts");
    let input = child.stdin.take().expect("its input is a pipe");
    let output = child.stdout.take().expect("its output is a pipe");
    (child, input, output)
}

fn all(mut output: impl Read) -> Vec<u8> {
    let mut bytes = Vec::new();
    output
        .read_to_end(&mut bytes)
        .expect("the replies are read");
    bytes
}

/// The replies to a journal that is written in pieces of `size` bytes to a pipe.
fn through_a_pipe(journal: &[u8], size: usize) -> Vec<u8> {
    let (mut child, mut input, output) = piped(program());
    let journal = journal.to_vec();
    let writer = thread::spawn(move || {
        for piece in journal.chunks(size) {
            input.write_all(piece).expect("the program reads on");
        }
    });
    let replies = soon("the replies", move || all(output));
    writer.join().expect("the journal is written");
    assert!(ended(&mut child).success());
    replies
}

/// The replies to a journal of which each read gets `size` bytes; an empty packet is the end.
fn by_packets(journal: &[u8], size: usize) -> Vec<u8> {
    let (ours, theirs) = UnixDatagram::pair().expect("a pair of sockets");
    let mut child = program()
        .stdin(OwnedFd::from(theirs))
        .stdout(Stdio::piped())
        .spawn()
        .expect("the program starts");
    let output = child.stdout.take().expect("its output is a pipe");
    let journal = journal.to_vec();
    let writer = thread::spawn(move || {
        for piece in journal.chunks(size).chain([&[][..]]) {
            ours.send(piece).expect("the program reads on");
        }
    });
    let replies = soon("the replies", move || all(output));
    writer.join().expect("the journal is written");
    assert!(ended(&mut child).success());
    replies
}

#[test]
fn a_journal_and_replies_of_several_buffers() {
    let journal = long_journal(1);
    let expected = replay(&journal);
    assert!(journal.len() > 5 * BUFFER && expected.len() > 20 * BUFFER);
    assert!(through_a_pipe(&journal, journal.len()) == expected);
}

#[test]
fn input_in_pieces() {
    let journal = long_journal(2);
    let expected = replay(&journal);
    for size in [1, 7, BUFFER - 1] {
        assert!(through_a_pipe(&journal, size) == expected, "{size}");
    }
}

#[test]
fn each_read_gets_a_few_bytes() {
    let journal = sample::script().journal();
    let expected = replay(&journal);
    for size in [1, 7, 613] {
        assert!(by_packets(&journal, size) == expected, "{size}");
    }
}

#[test]
fn a_long_journal_that_is_cut_or_broken() {
    for kind in ["time", "body", "len-599"] {
        let end = tail::journal(kind).expect("a kind of tail");
        let journal = [long_journal(3), end].concat();
        assert!(through_a_pipe(&journal, 8191) == replay(&journal), "{kind}");
    }
}

/// A conversation with the program: what it writes comes in by a thread, so that waiting for it can
/// end.
struct Conversation {
    child: Child,
    input: ChildStdin,
    replies: Receiver<Vec<u8>>,
}

impl Conversation {
    fn start() -> Self {
        let (child, input, mut output) = piped(program());
        let (send, replies) = mpsc::channel();
        thread::spawn(move || {
            while let Ok(frame) = frame(&mut output) {
                if send.send(frame).is_err() {
                    break;
                }
            }
        });
        Self {
            child,
            input,
            replies,
        }
    }

    fn say(&mut self, bytes: &[u8]) {
        self.input.write_all(bytes).expect("the program reads on");
    }

    fn reply(&self) -> Vec<u8> {
        let waited = self.replies.recv_timeout(Duration::from_secs(60));
        waited.expect("a reply comes before more is written")
    }
}

/// Reads one frame.
fn frame(output: &mut impl Read) -> io::Result<Vec<u8>> {
    let mut frame = vec![0; 2];
    output.read_exact(&mut frame)?;
    let len = usize::from(frame[0]) * 256 + usize::from(frame[1]);
    frame.resize(2 + len, 0);
    output.read_exact(&mut frame[2..])?;
    Ok(frame)
}

#[test]
fn each_reply_comes_before_the_next_record() {
    let mut rng = Rng::new(4);
    let mut so_far = Vec::new();
    let mut replied = Vec::new();
    let mut conversation = Conversation::start();
    for now in 1000..1300 {
        let length = rng.index(513);
        let message = match rng.below(2) {
            0 => put(&mut rng, 20, length),
            _ => get(&mut rng, 20),
        };
        let bytes = record(now, &framed(&message));
        so_far.extend(&bytes);
        // Half a record gets no reply yet.
        let half = rng.index(bytes.len());
        conversation.say(&bytes[..half]);
        if rng.one_in(50) {
            thread::sleep(Duration::from_millis(20));
            assert!(conversation.replies.try_recv().is_err());
        }
        conversation.say(&bytes[half..]);
        replied.extend(conversation.reply());
        assert!(replied == replay(&so_far));
    }
    // A record that is left half written gets ERR 3, and the program ends.
    conversation.say(&[0; 7]);
    drop(conversation.input);
    let expected = framed(&Message::Err { number: 3 });
    assert_eq!(conversation.replies.recv(), Ok(expected));
    assert!(ended(&mut conversation.child).success());
}

#[test]
fn a_len_out_of_range_ends_it_at_once() {
    let mut conversation = Conversation::start();
    conversation.say(&[0, 0, 0, 0, 0, 0, 2, 87]);
    assert_eq!(conversation.reply(), framed(&Message::Err { number: 3 }));
    // The input is still open.
    assert!(ended(&mut conversation.child).success());
}

/// Writes requests for as long as they are read.
fn endless(mut input: impl Write + Send + 'static) {
    thread::spawn(move || {
        let request = record(1000, &framed(&Message::Get { key: b"k".into() }));
        while input.write_all(&request).is_ok() {}
    });
}

#[test]
fn a_closed_output_ends_it() {
    let (mut child, input, output) = piped(program());
    drop(output);
    endless(input);
    ended(&mut child);
}

#[test]
fn a_write_that_fails_ends_it() {
    // SIGPIPE does not end this one, so a write to the closed pipe fails.
    let (mut child, input, output) = piped(under_shell("trap '' PIPE; exec \"$0\""));
    drop(output);
    endless(input);
    assert!(ended(&mut child).success());

    let full = OpenOptions::new().write(true).open("/dev/full");
    let mut child = program()
        .stdin(Stdio::piped())
        .stdout(full.expect("a device that is always full"))
        .spawn()
        .expect("the program starts");
    endless(child.stdin.take().expect("its input is a pipe"));
    assert!(ended(&mut child).success());

    let (mut child, input, _) = piped(under_shell("exec \"$0\" >&-"));
    endless(input);
    assert!(ended(&mut child).success());
}
