//! A program run once, with its input from a file, a pipe or a socket.

use std::fs::{self, File};
use std::io::{self, ErrorKind, Read, Write};
use std::os::fd::OwnedFd;
use std::os::unix::net::UnixStream;
use std::process::{Child, Command, Stdio};
use std::thread::sleep;
use std::time::{Duration, Instant};

/// What a program wrote to standard output and to standard error.
#[derive(Debug, PartialEq, Eq)]
pub struct Ended {
    pub output: String,
    pub errors: String,
}

extern "C" {
    fn kill(process: i32, signal: i32) -> i32;
}

const SIGSTOP: i32 = 19;
const SIGCONT: i32 = 18;

/// How long a program may take to come to a state.
const PATIENCE: Duration = Duration::from_secs(30);

fn started(program: &str, arguments: &[&str], input: Stdio) -> Child {
    let mut command = Command::new(program);
    command.args(arguments).stdin(input);
    let command = command.stdout(Stdio::piped()).stderr(Stdio::piped());
    command.spawn().expect("a program that starts")
}

/// The end of a program, by itself with status 0.
fn ended(child: Child) -> Ended {
    let given = child.wait_with_output().expect("a program that ends");
    assert!(given.status.success(), "{}", given.status);
    Ended {
        output: String::from_utf8_lossy(&given.stdout).into(),
        errors: String::from_utf8_lossy(&given.stderr).into(),
    }
}

/// The state of a process: R runs, S waits, T is stopped, Z has ended.
fn state(child: &Child) -> char {
    let status = fs::read_to_string(format!("/proc/{}/stat", child.id())).expect("a process");
    let (_, fields) = status.rsplit_once(") ").expect("its fields");
    fields.chars().next().expect("its state")
}

/// Waits until a program is in a state, or has ended.
fn await_state(child: &Child, wanted: char) {
    let start = Instant::now();
    while ![wanted, 'Z'].contains(&state(child)) {
        assert!(start.elapsed() < PATIENCE, "never in state {wanted}");
        sleep(Duration::from_micros(200));
    }
}

fn signal(child: &Child, number: i32) {
    let process = i32::try_from(child.id()).expect("a process number");
    // SAFETY: numbers only; the process is not waited for yet, so the number is its own.
    assert_eq!(unsafe { kill(process, number) }, 0);
}

/// Standard input is a file.
pub fn from_file(program: &str, text: &[u8]) -> Ended {
    let path = std::env::temp_dir().join(format!("canyonsieve-{}", std::process::id()));
    fs::write(&path, text).expect("a file written");
    let file = File::open(&path).expect("a file");
    fs::remove_file(&path).expect("a file removed");
    ended(started(program, &[], file.into()))
}

/// Standard input is a pipe; each piece is read before the next is written. A program that has read
/// enough may end before the last one.
pub fn in_pieces(program: &str, text: &[u8], size: usize) -> Ended {
    let mut child = started(program, &[], Stdio::piped());
    let mut input = child.stdin.take().expect("a pipe");
    for piece in text.chunks(size) {
        await_state(&child, 'S');
        match input.write_all(piece) {
            Err(error) if error.kind() == ErrorKind::BrokenPipe => break,
            written => written.expect("a piece written"),
        }
    }
    drop(input);
    ended(child)
}

/// Standard input is a socket whose reads time out after long, so that the system does not go on by
/// itself with a read that a signal interrupts. At each of the cuts the program, which waits in a
/// read, is stopped and continued.
pub fn interrupted(program: &str, arguments: &[&str], text: &[u8], cuts: &[usize]) -> Ended {
    let (mut ours, theirs) = UnixStream::pair().expect("sockets");
    theirs
        .set_read_timeout(Some(100 * PATIENCE))
        .expect("a timeout");
    let child = started(program, arguments, OwnedFd::from(theirs).into());
    let mut done = 0;
    for &cut in cuts {
        ours.write_all(&text[done..cut]).expect("bytes written");
        await_state(&child, 'S');
        signal(&child, SIGSTOP);
        await_state(&child, 'T');
        signal(&child, SIGCONT);
        await_state(&child, 'S');
        done = cut;
    }
    // A program that took the interruption for the end is gone by now, which its output shows.
    let _ = ours.write_all(&text[done..]);
    drop(ours);
    ended(child)
}

/// The argument with which this program makes one read alone and says whether it was interrupted.
pub fn one_read() -> &'static str {
    "--one-read"
}

/// Makes that read.
pub fn first_read() {
    match io::stdin().read(&mut [0; 1]) {
        Err(error) if error.kind() == ErrorKind::Interrupted => println!("interrupted"),
        other => println!("{other:?}"),
    }
}

/// Standard input is a socket that gives a text and then fails: its other side closes without having
/// read what was sent to it.
pub fn after_failed_read(program: &str, text: &[u8]) -> Ended {
    let (mut ours, mut theirs) = UnixStream::pair().expect("sockets");
    theirs.write_all(b"unread").expect("bytes written");
    ours.write_all(text).expect("a text written");
    drop(ours);
    ended(started(program, &[], OwnedFd::from(theirs).into()))
}

/// Standard input is a pipe that holds a text, standard output a device without room.
pub fn to_full(program: &str, text: &[u8]) -> Ended {
    let full = File::options().write(true).open("/dev/full");
    let mut command = Command::new(program);
    command.stdin(Stdio::piped()).stderr(Stdio::piped());
    command.stdout(full.expect("a full device"));
    let child = command.spawn().expect("a program that starts");
    ended(fed(child, text))
}

/// Standard output is closed.
pub fn to_closed(program: &str, text: &[u8]) -> Ended {
    let child = started("sh", &["-c", "exec \"$0\" >&-", program], Stdio::piped());
    ended(fed(child, text))
}

/// Standard output is a pipe that nobody reads any more, of which the system tells by a signal, or
/// where the caller has that ignored by the write alone.
pub fn to_nobody(program: &str, text: &[u8], ignored: bool) -> Ended {
    let trap = if ignored { "trap '' PIPE;" } else { "" };
    let command = format!("{trap} exec \"$0\"");
    let mut child = started("sh", &["-c", &command, program], Stdio::piped());
    drop(child.stdout.take());
    ended(fed(child, text))
}

/// A program that has been given a text, whole, through its pipe.
fn fed(mut child: Child, text: &[u8]) -> Child {
    let mut input = child.stdin.take().expect("a pipe");
    input.write_all(text).expect("a text written");
    child
}

/// Started with an argument and without input.
pub fn with_argument(program: &str, argument: &str) -> Ended {
    ended(started(program, &[argument], Stdio::null()))
}
