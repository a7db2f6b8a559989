//! Runs a program on an input, and ends it if it takes too long.

use std::fs;
use std::io::{self, Read, Write};
use std::process::{Child, Command, ExitStatus, Stdio};
use std::sync::mpsc;
use std::thread;
use std::time::{Duration, Instant};

/// How often it is asked whether a program has ended that writes no more.
const BETWEEN_ASKING: Duration = Duration::from_micros(100);

/// What a program wrote, how it ended, and its processor time.
pub struct Ended {
    pub output: Vec<u8>,
    /// What it wrote to standard error, if the command has that piped.
    pub errors: Vec<u8>,
    /// None if it was killed at the limit.
    pub status: Option<ExitStatus>,
    /// How long it had a processor: other programs bear on that less than on
    /// the time from start to end. None if Linux does not tell, or it was killed.
    pub processor_time: Option<Duration>,
}

pub fn run(
    command: &mut Command,
    input: &[u8],
    most_output: usize,
    limit: Duration,
) -> io::Result<Ended> {
    let whole = Feed {
        pieces: vec![input.to_vec()],
        pause: Duration::ZERO,
    };
    run_fed(command, whole, most_output, limit)
}

/// An input that comes to the program piece by piece, with a pause between,
/// so that no single read gets all of it.
pub struct Feed {
    pub pieces: Vec<Vec<u8>>,
    pub pause: Duration,
}

impl Feed {
    fn write(&self, stdin: &mut impl Write) -> io::Result<()> {
        for (number, piece) in self.pieces.iter().enumerate() {
            if number > 0 {
                thread::sleep(self.pause);
            }
            stdin.write_all(piece)?;
        }
        Ok(())
    }
}

/// Of the output no more is read than asked for, and no more of standard
/// error. The threads that feed the program and read from it are left to
/// themselves if it is killed: another process may hold its pipes open.
pub fn run_fed(
    command: &mut Command,
    feed: Feed,
    most_output: usize,
    limit: Duration,
) -> io::Result<Ended> {
    let deadline = Instant::now() + limit;
    let mut child = command
        .stdin(Stdio::piped())
        .stdout(Stdio::piped())
        .spawn()?;
    let mut stdin = child.stdin.take().expect("stdin is piped");
    // A program may stop reading early, as of a script that is too long.
    thread::spawn(move || feed.write(&mut stdin).ok());
    let output = child.stdout.take().map(|pipe| read(pipe, most_output));
    let errors = child.stderr.take().map(|pipe| read(pipe, most_output));
    let [output, errors] = [output, errors].map(|reading| all_of(reading, deadline));
    let in_time = output.is_some() && errors.is_some();
    let (processor_time, status) = match in_time {
        true => (
            processor_time(child.id(), deadline),
            wait(&mut child, deadline)?,
        ),
        false => (None, None),
    };
    if status.is_none() {
        child.kill()?;
        child.wait()?;
    }
    Ok(Ended {
        output: output.unwrap_or_else(|| Ok(Vec::new()))?,
        errors: errors.unwrap_or_else(|| Ok(Vec::new()))?,
        status,
        processor_time,
    })
}

/// What is read from a pipe comes whole, once no more comes.
type Reading = mpsc::Receiver<io::Result<Vec<u8>>>;

fn read(pipe: impl Read + Send + 'static, most: usize) -> Reading {
    let (sender, receiver) = mpsc::channel();
    thread::spawn(move || {
        let mut text = Vec::new();
        let mut limited = pipe.take(most as u64);
        let read = limited.read_to_end(&mut text);
        drop(limited);
        sender.send(read.map(|_| text)).ok();
    });
    receiver
}

/// What was read, which is nothing where there is no pipe; none if more may
/// come at the deadline.
fn all_of(reading: Option<Reading>, deadline: Instant) -> Option<io::Result<Vec<u8>>> {
    let Some(reading) = reading else {
        return Some(Ok(Vec::new()));
    };
    let left = deadline.saturating_duration_since(Instant::now());
    reading.recv_timeout(left).ok()
}

/// The processor time of a program's first thread. It is told while the program
/// is there, and is whole once it has ended: so before it is waited for.
fn processor_time(id: u32, deadline: Instant) -> Option<Duration> {
    while !has_ended(id)? {
        if Instant::now() >= deadline {
            return None;
        }
        thread::sleep(BETWEEN_ASKING);
    }
    let told = fs::read_to_string(format!("/proc/{id}/schedstat")).ok()?;
    let nanoseconds = told.split(' ').next()?.parse().ok()?;
    Some(Duration::from_nanos(nanoseconds))
}

/// The state stands behind the name, which may itself have parentheses.
fn has_ended(id: u32) -> Option<bool> {
    let told = fs::read_to_string(format!("/proc/{id}/stat")).ok()?;
    let (_, state) = told.rsplit_once(") ")?;
    Some(state.starts_with('Z'))
}

/// How a program ended, or nothing if it has not at the deadline.
fn wait(child: &mut Child, deadline: Instant) -> io::Result<Option<ExitStatus>> {
    loop {
        let status = child.try_wait()?;
        if status.is_some() || Instant::now() >= deadline {
            return Ok(status);
        }
        thread::sleep(BETWEEN_ASKING);
    }
}

#[cfg(test)]
mod tests {
    use super::*;

    const LONG: Duration = Duration::from_secs(60);
    const SHORT: Duration = Duration::from_millis(200);

    #[test]
    fn output_and_status_are_given() {
        let ended = run(&mut Command::new("cat"), b"text", 100, LONG).expect("cat runs");
        assert_eq!(ended.output, b"text");
        assert!(ended.status.is_some_and(|status| status.success()));
        let input = vec![b'a'; 1 << 20];
        let ended = run(&mut Command::new("cat"), &input, 1 << 21, LONG).expect("cat runs");
        assert!(ended.output == input);
    }

    #[test]
    fn a_sleeping_program_has_no_processor() {
        let ended = run(Command::new("sleep").arg("0.5"), b"", 100, LONG).expect("sleep runs");
        let idle = ended.processor_time.expect("it ended");
        assert!(idle < Duration::from_millis(250));
        let script = "i=0; while [ $i -lt 100000 ]; do i=$((i + 1)); done";
        let start = Instant::now();
        let ended = run(Command::new("sh").args(["-c", script]), b"", 100, LONG).expect("sh runs");
        let busy = ended.processor_time.expect("it ended");
        assert!(idle < busy && busy <= start.elapsed());
    }

    #[test]
    fn a_program_that_hangs_is_killed() {
        let start = Instant::now();
        let ended = run(Command::new("sleep").arg("600"), b"", 100, SHORT).expect("sleep runs");
        assert!(ended.status.is_none() && ended.processor_time.is_none());
        assert!(start.elapsed() < LONG);
        // It closes its output and hangs then.
        let script = "exec >&-; exec sleep 600";
        let ended = run(Command::new("sh").args(["-c", script]), b"", 100, SHORT);
        assert!(ended.expect("sh runs").status.is_none());
        // Its child keeps the output open.
        let script = "sleep 5 & exec sleep 600";
        let ended = run(Command::new("sh").args(["-c", script]), b"", 100, SHORT);
        assert!(ended.expect("sh runs").status.is_none());
    }

    #[test]
    fn pieces_come_one_after_another() {
        let feed = || Feed {
            pieces: vec![b"one".to_vec(), b"two".to_vec()],
            pause: Duration::from_millis(500),
        };
        let ended = run_fed(&mut Command::new("cat"), feed(), 100, LONG);
        assert_eq!(ended.expect("cat runs").output, b"onetwo");
        // One read gets one piece.
        let mut reads_once = Command::new("dd");
        reads_once.args(["bs=100", "count=1", "status=none"]);
        let ended = run_fed(&mut reads_once, feed(), 100, LONG);
        assert_eq!(ended.expect("dd runs").output, b"one");
    }

    #[test]
    fn standard_error_is_kept_where_it_is_piped() {
        let script = "echo one; echo two >&2; cat >&2";
        let mut program = Command::new("sh");
        program.args(["-c", script]).stderr(Stdio::piped());
        let input = vec![b'a'; 1 << 20];
        let ended = run(&mut program, &input, 1 << 21, LONG).expect("sh runs");
        assert_eq!(ended.output, b"one\n");
        assert!(ended.errors == [b"two\n", input.as_slice()].concat());
        // It closes its output, and keeps standard error open.
        let script = "exec >&-; exec sleep 600";
        let mut program = Command::new("sh");
        program.args(["-c", script]).stderr(Stdio::piped());
        let ended = run(&mut program, b"", 100, SHORT).expect("sh runs");
        assert!(ended.status.is_none());
    }

    #[test]
    fn endless_output_is_cut() {
        let ended = run(&mut Command::new("yes"), b"", 1000, LONG).expect("yes runs");
        assert_eq!(ended.output.len(), 1000);
    }
}
