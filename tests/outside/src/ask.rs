//! Asking: the command that is started, or our own implementation in its place; and the mock that answers as the command should.

use crate::calls::{parse, Request};
use crate::field::{line, LINE_MAX};
use std::cell::Cell;
use std::io::{self, BufRead, BufReader, BufWriter, Read, Write};
use std::os::unix::process::CommandExt;
use std::process::{Child, Command, ExitStatus, Stdio};
use std::sync::mpsc::{sync_channel, Receiver, RecvTimeoutError, SyncSender};
use std::thread;
use std::time::{Duration, Instant};

/// How often a command is started for one batch.
const STARTS: usize = 20;
/// What is written or read at a time.
const PIECE: usize = 1 << 16;
/// Pieces that wait to be looked at.
const WAITING: usize = 64;
/// A line that is longer is no answer: a command may never end it.
const ANSWER_MAX: usize = 8 * LINE_MAX;

pub enum Peer {
    /// Our own answers, for what can be run without a command.
    Own,
    Command(Partner),
}

/// The command, and how long we wait while it neither takes nor says anything.
pub struct Partner {
    words: Vec<String>,
    patience: Duration,
    /// Once it hung it is not started again, or each start would cost that time.
    hung: Cell<bool>,
}

/// What a command did with a whole input.
pub struct Talk {
    pub output: Vec<u8>,
    pub messages: Vec<u8>,
}

impl Peer {
    pub fn command(words: Vec<String>, patience: Duration) -> Peer {
        Peer::Command(Partner {
            words,
            patience,
            hung: Cell::new(false),
        })
    }

    /// Whether the command hung: nothing more can be asked.
    pub fn hung(&self) -> bool {
        matches!(self, Peer::Command(partner) if partner.hung.get())
    }

    /// Asks all the requests and hands on each answer; nothing for one that did not come.
    ///
    /// A process a batch, since nothing says that answers come before the input's end. Where a command ends at a
    /// request, that one has no answer and the others are asked again of a new process, a few times.
    pub fn ask(
        &self,
        requests: &[Request],
        mut each: impl FnMut(&Request, Option<&[u8]>),
    ) -> Result<(), String> {
        let partner = match self {
            Peer::Own => {
                for r in requests {
                    each(r, Some(&line(r.call().name, &r.own().fields)));
                }
                return Ok(());
            }
            Peer::Command(partner) => partner,
        };
        let mut ended = Ok(());
        let mut rest = requests;
        for _ in 0..STARTS {
            if rest.is_empty() || self.hung() {
                break;
            }
            let (answered, this) = partner.ask_once(rest, &mut each);
            ended = ended.and(this);
            rest = &rest[answered..];
            if let Some((silent, others)) = rest.split_first() {
                each(silent, None);
                rest = others;
            }
        }
        for r in rest {
            each(r, None);
        }
        ended
    }

    /// Gives the command a whole input as it stands.
    pub fn talk(&self, input: &[u8]) -> Result<Talk, String> {
        let mut talk = Talk {
            output: Vec::new(),
            messages: Vec::new(),
        };
        let Peer::Command(partner) = self else {
            answer_all(
                &mut io::Cursor::new(input),
                &mut talk.output,
                &mut talk.messages,
            );
            return Ok(talk);
        };
        if self.hung() {
            return Err("the command hung before, and is not asked again".to_string());
        }
        let mut running = partner.start(input.to_vec(), true)?;
        loop {
            match running.next()? {
                Piece::Said(piece) => talk.output.extend(piece),
                Piece::Told(piece) => talk.messages.extend(piece),
                Piece::Over => break,
            }
            if talk.output.len() + talk.messages.len() > input.len() + ANSWER_MAX {
                return Err("the command says more than any answer has".to_string());
            }
        }
        running.end()?;
        Ok(talk)
    }
}

/// What comes from a command that runs.
enum Piece {
    Said(Vec<u8>),
    Told(Vec<u8>),
    Over,
}

/// What the threads report that write to it and read from it.
enum Event {
    Took,
    Said(Vec<u8>),
    Told(Vec<u8>),
}

/// A command that runs. It is killed where it is left before its end.
struct Running<'a> {
    partner: &'a Partner,
    child: Child,
    events: Receiver<Event>,
    ended: bool,
}

impl Partner {
    /// Starts the command in a process group of its own, since it may be a script with children, and gives it the input.
    /// Each pipe has its own thread, so that neither side waits for the other. A thread is not waited for: a pipe that
    /// someone else holds may stay open for ever.
    fn start(&self, input: Vec<u8>, messages: bool) -> Result<Running<'_>, String> {
        let mut command = Command::new(&self.words[0]);
        command
            .args(&self.words[1..])
            .stdin(Stdio::piped())
            .stdout(Stdio::piped())
            .process_group(0);
        if messages {
            command.stderr(Stdio::piped());
        }
        let mut child = command
            .spawn()
            .map_err(|e| format!("{}: {e}", self.words[0]))?;
        let (events, received) = sync_channel(WAITING);
        if let Some(pipe) = child.stdin.take() {
            let events = events.clone();
            thread::spawn(move || give(pipe, &input, &events));
        }
        if let Some(pipe) = child.stdout.take() {
            let events = events.clone();
            thread::spawn(move || pass_on(pipe, &events, Event::Said));
        }
        if let Some(pipe) = child.stderr.take() {
            thread::spawn(move || pass_on(pipe, &events, Event::Told));
        }
        Ok(Running {
            partner: self,
            child,
            events: received,
            ended: false,
        })
    }

    /// Asks in one process: how many answers came, and whether it ended as it should.
    fn ask_once(
        &self,
        requests: &[Request],
        each: &mut impl FnMut(&Request, Option<&[u8]>),
    ) -> (usize, Result<(), String>) {
        let mut input = Vec::new();
        for r in requests {
            input.extend(r.line());
            input.push(b'\n');
        }
        let mut answered = 0;
        let asked = || -> Result<(), String> {
            let mut running = self.start(input, false)?;
            let mut held: Vec<u8> = Vec::new();
            // Where no LF was found yet is not looked at twice.
            let mut looked = 0;
            while let Piece::Said(piece) = running.next()? {
                held.extend(piece);
                let mut begin = 0;
                while let Some(more) = held[looked..].iter().position(|&c| c == b'\n') {
                    let Some(request) = requests.get(answered) else {
                        break;
                    };
                    each(request, Some(&held[begin..looked + more]));
                    answered += 1;
                    looked += more + 1;
                    begin = looked;
                }
                if answered == requests.len() && begin < held.len() {
                    return Err("more came after the last answer".to_string());
                }
                held.drain(..begin);
                looked = held.len();
                if looked > ANSWER_MAX {
                    return Err("the command says more than any answer has".to_string());
                }
            }
            let status = running.end()?;
            if status.success() {
                Ok(())
            } else {
                Err(format!("the command ended with {status}"))
            }
        };
        let ended = asked();
        (answered, ended)
    }
}

impl Running<'_> {
    /// The next piece of what it says; an error where it neither takes nor says anything for so long.
    fn next(&mut self) -> Result<Piece, String> {
        loop {
            match self.events.recv_timeout(self.partner.patience) {
                Ok(Event::Took) => {}
                Ok(Event::Said(piece)) => return Ok(Piece::Said(piece)),
                Ok(Event::Told(piece)) => return Ok(Piece::Told(piece)),
                Err(RecvTimeoutError::Disconnected) => return Ok(Piece::Over),
                Err(RecvTimeoutError::Timeout) => return Err(self.hangs()),
            }
        }
    }

    /// Waits for its end, once its pipes are closed.
    fn end(mut self) -> Result<ExitStatus, String> {
        let began = Instant::now();
        loop {
            if let Some(status) = self.child.try_wait().map_err(|e| e.to_string())? {
                self.ended = true;
                return Ok(status);
            }
            if began.elapsed() > self.partner.patience {
                return Err(self.hangs());
            }
            thread::sleep(Duration::from_millis(1));
        }
    }

    fn hangs(&self) -> String {
        self.partner.hung.set(true);
        let seconds = self.partner.patience.as_secs();
        format!("the command did nothing for {seconds} seconds")
    }
}

impl Drop for Running<'_> {
    /// Kills its whole group, by the shell's own `kill`, since the standard library kills one process alone.
    fn drop(&mut self) {
        if self.ended {
            return;
        }
        let group = format!("-{}", self.child.id());
        let _ = Command::new("sh")
            .args(["-c", "kill -s KILL -- \"$1\"", "sh", &group])
            .stderr(Stdio::null())
            .status();
        let _ = self.child.kill();
        let _ = self.child.wait();
    }
}

/// Writes the input, and reports each piece that is taken. A command may end before it has taken all.
fn give(mut pipe: impl Write, input: &[u8], events: &SyncSender<Event>) {
    for piece in input.chunks(PIECE) {
        if pipe.write_all(piece).is_err() || events.send(Event::Took).is_err() {
            return;
        }
    }
}

/// Reads to the end, and reports each piece.
fn pass_on(mut pipe: impl Read, events: &SyncSender<Event>, event: fn(Vec<u8>) -> Event) {
    let mut piece = vec![0; PIECE];
    loop {
        match pipe.read(&mut piece) {
            Err(e) if e.kind() == io::ErrorKind::Interrupted => {}
            Ok(n) if n > 0 && events.send(event(piece[..n].to_vec())).is_ok() => {}
            _ => return,
        }
    }
}

/// What a line is answered with: a request's answer, a comment itself, each with its LF; or why it is malformed.
fn answer_to(text: &[u8]) -> Result<Vec<u8>, &'static str> {
    let whole = match text.strip_suffix(b"\n") {
        Some(whole) => whole,
        None if text.len() == LINE_MAX => return Err("the line is too long"),
        None => return Err("the input ends inside a line"),
    };
    if whole.starts_with(b"#") {
        return Ok(text.to_vec());
    }
    let request = parse(whole)?;
    let mut answer = line(request.call().name, &request.own().fields);
    answer.push(b'\n');
    Ok(answer)
}

/// Answers every line of an input, as the command should; stops at a malformed one. Answers whether all were sound.
fn answer_all(
    input: &mut impl BufRead,
    output: &mut impl Write,
    messages: &mut impl Write,
) -> bool {
    for number in 1u64.. {
        let mut text = Vec::new();
        let most = LINE_MAX as u64;
        if input
            .by_ref()
            .take(most)
            .read_until(b'\n', &mut text)
            .is_err()
            || text.is_empty()
        {
            break;
        }
        let sent = match answer_to(&text) {
            Ok(answer) => output.write_all(&answer),
            Err(why) => {
                let _ = output.flush();
                let _ = writeln!(messages, "answer: line {number}: {why}");
                return false;
            }
        };
        if sent.is_err() {
            return false;
        }
    }
    output.flush().is_ok()
}

/// Answers requests on standard input with our own implementation.
pub fn mock() -> bool {
    let mut input = BufReader::with_capacity(1 << 20, io::stdin().lock());
    let mut output = BufWriter::with_capacity(1 << 20, io::stdout().lock());
    answer_all(&mut input, &mut output, &mut io::stderr())
}
