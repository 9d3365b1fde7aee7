//! What both ends have: socket, link, ciphers, and a log of what happens for the process that started them.

use std::cell::Cell;
use std::collections::VecDeque;
use std::fmt::Display;
use std::fs::File;
use std::io::{self, BufWriter, Read, Stdout, Write};
use std::net::UdpSocket;
use std::os::fd::{AsFd, AsRawFd};
use std::process;
use std::time::{Duration, Instant};

use huskelapse::content_type::{ACK, ALERT, APPLICATION_DATA, HANDSHAKE};
use huskelapse::openssl::Keys;
use huskelapse::{Cipher, CipherError, Reading, Receiver, Refusal, Sender};

use crate::crypto::{Counted, EpochKeys, Suite};
use crate::cut::{is_sealed, records, PLAINTEXT_HEADER};
use crate::history::{self, Overheard, Reason};
use crate::late::{distances, Highest};
use crate::options::Options;
use crate::system::Sources;

pub const MTU: usize = 1200;
/// Datagrams on their way to the link at once, so that no socket's buffer overflows.
pub const PACE: usize = 64;

/// Alert 0, a warning: this end sends nothing more.
const CLOSE: [u8; 2] = [1, 0];

pub struct Record {
    pub epoch: u16,
    pub number: u64,
    pub content_type: u8,
    pub content: Vec<u8>,
}

/// What arrived that an end acts on.
pub enum Arrived {
    /// Of epoch 0: anyone can have written it.
    Handshake(Record),
    ApplicationData(Record),
    /// What it names is marked already.
    Ack,
    /// The far end sends nothing more.
    Close,
}

impl Arrived {
    fn of(reading: &Reading) -> Option<Arrived> {
        let record = |epoch, number, content_type, content: &[u8]| Record { epoch, number, content_type, content: content.to_vec() };
        match *reading {
            Reading::Handshake { epoch, number, content } => Some(Arrived::Handshake(record(epoch, number, HANDSHAKE, content))),
            Reading::ApplicationData { epoch, number, content } => {
                Some(Arrived::ApplicationData(record(epoch, number, APPLICATION_DATA, content)))
            }
            Reading::Ack { .. } => Some(Arrived::Ack),
            Reading::Close { epoch: 2.., .. } => Some(Arrived::Close),
            _ => None,
        }
    }
}

pub struct End {
    socket: UdpSocket,
    /// Standard input without a buffer, in which a byte could be overlooked.
    credits: File,
    /// The socket, then the credits.
    sources: Sources<2>,
    pub sender: Sender,
    pub receiver: Receiver,
    suite: Suite,
    keys_out: Counted,
    keys_in: Counted,
    secrets: [String; 2],
    pub log: BufWriter<Stdout>,
    pub outstanding: usize,
    moved: Instant,
    /// The records of the flight that were sent again whenever the flight was.
    unmarked: Vec<Record>,
    resent: usize,
    marked: usize,
    /// The datagram sent last.
    last: Vec<u8>,
    /// What those that come too late are held against.
    highest: Highest,
    /// The receive history is asked for.
    tells_history: bool,
    pub arrived: VecDeque<Arrived>,
    started: Instant,
    limit: Duration,
}

/// The keys of the sending direction, each sealing logged.
struct Logged<'a> {
    keys: &'a mut Counted,
    log: &'a mut BufWriter<Stdout>,
    sealed: &'a mut Vec<Record>,
}

fn log_record(log: &mut impl Write, what: char, epoch: u16, number: u64, content_type: u8, content: &[u8]) {
    let _ = writeln!(log, "{what} {epoch} {number} {content_type} {}", hex::encode(content));
}

/// Says what was read: a record with its content, or one that the library dealt with by number and type, an alert by its description.
fn log_reading(log: &mut impl Write, reading: &Reading) {
    let _ = match *reading {
        Reading::Unprotected { content_type, .. } => writeln!(log, "p\nn {content_type}"),
        Reading::Handshake { epoch: 0, .. }
        | Reading::Ignored { epoch: 0, .. }
        | Reading::Close { epoch: 0, .. }
        | Reading::Alert { epoch: 0, .. }
        | Reading::Beyond { epoch: 0, .. } => writeln!(log, "p"),
        Reading::Handshake { epoch, number, content } => return log_record(log, 'r', epoch, number, HANDSHAKE, content),
        Reading::ApplicationData { epoch, number, content } => return log_record(log, 'r', epoch, number, APPLICATION_DATA, content),
        Reading::Other { epoch, number, content_type, content } => return log_record(log, 'r', epoch, number, content_type, content),
        Reading::Ack { epoch, number, .. } => writeln!(log, "d {epoch} {number} {ACK}"),
        Reading::Ignored { epoch, number, content_type } => writeln!(log, "d {epoch} {number} {content_type}"),
        Reading::Close { epoch, number } => writeln!(log, "d {epoch} {number} {ALERT} 0"),
        Reading::Alert { epoch, number, description } => writeln!(log, "d {epoch} {number} {ALERT} {description}"),
        Reading::Beyond { epoch, number } => writeln!(log, "b {epoch} {number}"),
        Reading::Unopened { .. } => writeln!(log, "u"),
        Reading::Dropped(why) | Reading::Fault(why) => writeln!(log, "x {}", why.number()),
        _ => Ok(()),
    };
}

/// The plaintext records of a datagram that this end wrote.
fn plaintext_records(datagram: &[u8]) -> impl Iterator<Item = Record> + '_ {
    records(datagram).filter(|record| !is_sealed(record)).map(|record| {
        let number = u64::from_be_bytes(*record[3..].first_chunk().unwrap());
        Record { epoch: 0, number, content_type: record[0], content: record[PLAINTEXT_HEADER..].to_vec() }
    })
}

impl Cipher for Logged<'_> {
    fn mask(&mut self, epoch: u16, sample: &[u8; 16]) -> Result<[u8; 2], CipherError> {
        self.keys.mask(epoch, sample)
    }

    fn open(&mut self, epoch: u16, number: u64, nonce: &[u8; 12], header: &[u8], part: &mut [u8]) -> bool {
        self.keys.open(epoch, number, nonce, header, part)
    }

    fn seal(&mut self, epoch: u16, number: u64, nonce: &[u8; 12], header: &[u8], part: &mut [u8]) -> Result<(), CipherError> {
        let n = part.len() - 17;
        log_record(self.log, 's', epoch, number, part[n], &part[..n]);
        self.sealed.push(Record { epoch, number, content_type: part[n], content: part[..n].to_vec() });
        self.keys.seal(epoch, number, nonce, header, part)
    }
}

impl End {
    pub fn new(options: &Options, name: &str, port: u16) -> io::Result<End> {
        let socket = UdpSocket::bind("127.0.0.1:0")?;
        socket.connect(("127.0.0.1", port))?;
        socket.set_nonblocking(true)?;
        let credits = File::from(io::stdin().as_fd().try_clone_to_owned()?);
        let secret = |from: &str| format!("{} from the {from}", options.seed);
        let other = if name == "post" { "gateway" } else { "post" };
        let refused = |why: Refusal| io::Error::other(why);
        let mut log = BufWriter::with_capacity(1 << 16, io::stdout());
        writeln!(log, "port {}", socket.local_addr()?.port())?;
        log.flush()?;
        Ok(End {
            sources: Sources::new([socket.as_raw_fd(), credits.as_raw_fd()])?,
            socket,
            credits,
            sender: Sender::new(MTU, 16).map_err(refused)?,
            receiver: Receiver::new(Receiver::MIN_PROTECTED).map_err(refused)?,
            suite: options.suite,
            keys_out: Counted::new(Keys::to_seal(options.suite.cipher())),
            keys_in: Counted::new(Keys::to_open(options.suite.cipher())),
            secrets: [secret(name), secret(other)],
            log,
            outstanding: 0,
            moved: Instant::now(),
            unmarked: Vec::new(),
            resent: 0,
            marked: 0,
            last: Vec::new(),
            highest: Highest::default(),
            tells_history: options.history.is_some(),
            arrived: VecDeque::new(),
            started: Instant::now(),
            limit: Duration::from_secs(options.seconds),
        })
    }

    /// A refusal or a failure that this host never meets.
    pub fn must<T>(&mut self, answer: Result<T, impl Display>) -> T {
        answer.unwrap_or_else(|why| self.stop(&why.to_string()))
    }

    fn stop(&mut self, why: &str) -> ! {
        let _ = writeln!(self.log, "stopped {why}");
        let _ = self.log.flush();
        process::exit(2)
    }

    /// Says something to the process that started this one.
    pub fn say(&mut self, line: std::fmt::Arguments<'_>) {
        let _ = writeln!(self.log, "{line}");
    }

    /// Says what there is to say at the end.
    pub fn finish(&mut self) {
        let (resent, marked) = (self.resent, self.marked);
        let masks = [self.keys_out.masks, self.keys_in.masks];
        let opened = self.keys_in.opened;
        self.say(format_args!("resent {resent}\nmarked {marked}\nmasks {} {}\nopened {opened}\ndone", masks[0], masks[1]));
        let _ = self.log.flush();
    }

    /// Keys an epoch to send.
    pub fn key_send(&mut self, epoch: u16) {
        let keys = EpochKeys::new(epoch, &self.secrets[0]);
        let added = keys.add_to(&mut self.keys_out.keys, self.suite, epoch);
        self.must(added);
        let keyed = keys.key_send(&mut self.sender, self.suite, epoch);
        self.must(keyed);
    }

    /// Keys an epoch to receive.
    pub fn key_receive(&mut self, epoch: u16) {
        let keys = EpochKeys::new(epoch, &self.secrets[1]);
        let added = keys.add_to(&mut self.keys_in.keys, self.suite, epoch);
        self.must(added);
        let keyed = keys.key_receive(&mut self.receiver, self.suite, epoch);
        self.must(keyed);
        self.receiver.enable_peer_encryption();
        self.say(format_args!("k {epoch}"));
    }

    /// Seals what waits and sends every queued datagram. The records in them, those in plaintext first.
    pub fn flush(&mut self) -> Vec<Record> {
        let mut sealed = Vec::new();
        let done = self.sender.seal(&mut Logged { keys: &mut self.keys_out, log: &mut self.log, sealed: &mut sealed });
        self.must(done);
        let mut records = Vec::new();
        let mut buffer = [0; MTU];
        loop {
            let taken = self.sender.take(&mut buffer).map(|taken| taken.map(|datagram| datagram.len()));
            let Some(n) = self.must(taken) else { break };
            records.extend(plaintext_records(&buffer[..n]));
            self.last.clear();
            self.last.extend_from_slice(&buffer[..n]);
            self.send_last();
        }
        records.append(&mut sealed);
        records
    }

    fn send_last(&mut self) {
        let _ = self.socket.send(&self.last);
        self.outstanding += 1;
    }

    /// Closes: nothing is sent after it.
    pub fn close(&mut self) {
        let answer = self.sender.send(3, ALERT, &CLOSE);
        self.must(answer);
        self.flush();
    }

    /// Sends the datagram with the close once more, as it is: a new record would lie beyond the close.
    pub fn close_again(&mut self) {
        self.send_last();
    }

    /// Sends application data.
    pub fn send(&mut self, content: &[u8]) {
        let answer = self.sender.send(3, APPLICATION_DATA, content);
        self.must(answer);
    }

    pub fn begin_flight(&mut self) {
        self.sender.begin_flight();
        self.unmarked.clear();
    }

    /// Sends a handshake message in the flight.
    pub fn message(&mut self, kind: u8, body: &[u8]) {
        let answer = self.sender.message(kind, body);
        self.must(answer);
        let records = self.flush();
        self.unmarked.extend(records);
    }

    /// Sends application data in the flight.
    pub fn send_saved(&mut self, content: &[u8]) {
        let answer = self.sender.send_saved(3, APPLICATION_DATA, content);
        self.must(answer);
        let records = self.flush();
        self.unmarked.extend(records);
    }

    /// Sends the flight again, but for what is acknowledged. Whether all is.
    pub fn resend(&mut self) -> bool {
        let answer = self.sender.resend();
        self.must(answer);
        let again = self.flush();
        self.resent += again.len();
        for saved in std::mem::take(&mut self.unmarked) {
            let same = |record: &Record| record.epoch == saved.epoch && record.content == saved.content;
            if again.iter().any(same) {
                self.unmarked.push(saved);
            } else if saved.epoch >= 2 {
                self.marked += 1;
                log_record(&mut self.log, 'a', saved.epoch, saved.number, saved.content_type, &saved.content);
            }
        }
        again.is_empty()
    }

    /// Notes a record for the next ACK. One that finds no room is sent again, and noted then.
    pub fn note(&mut self, record: &Record) {
        let answer = self.sender.note(record.epoch, record.number);
        self.must(answer);
    }

    /// Acknowledges what is noted.
    pub fn send_ack(&mut self) {
        let answer = self.sender.send_ack();
        self.must(answer);
        self.flush();
    }

    fn read(&mut self, datagram: &mut [u8]) {
        let check = crate::ledger::check(datagram);
        let said = Cell::new(None);
        let mut cipher = Overheard { cipher: &mut self.keys_in, said: &said };
        let readings = match self.receiver.read(datagram, &mut cipher, &mut self.sender) {
            Ok(readings) => readings,
            Err(why) => return writeln!(self.log, "x {}\ng {check}", why.number()).unwrap_or(()),
        };
        let (mut forged_close, mut alert, mut too_old, mut rebuilt) = (false, None, Vec::new(), Vec::new());
        for (place, reading) in readings.enumerate() {
            log_reading(&mut self.log, &reading);
            self.arrived.extend(Arrived::of(&reading));
            self.highest.note(&reading);
            rebuilt.extend(Reason::of(said.take(), &reading).map(|reason| (place, reason)));
            match reading {
                Reading::Dropped(Refusal::TooOld) => too_old.push((place, self.highest)),
                Reading::Close { epoch: 0, .. } => forged_close = true,
                Reading::Alert { epoch: 2.., description, .. } => alert = Some(description),
                _ => {}
            }
        }
        for distance in distances(datagram, &too_old) {
            let _ = writeln!(self.log, "t {distance}");
        }
        if self.tells_history {
            for line in history::lines(datagram, &rebuilt) {
                let _ = writeln!(self.log, "h {line}");
            }
        }
        let _ = writeln!(self.log, "g {check}");
        if forged_close {
            // No end here closes in plaintext. All that is sealed would lie beyond it; nothing is keyed yet.
            let anew = Receiver::new(Receiver::MIN_PROTECTED);
            self.receiver = self.must(anew);
            self.highest = Highest::default();
        }
        if let Some(description) = alert {
            self.stop(&format!("the far end sent alert {description}"));
        }
    }

    /// Waits for datagrams, at most so many milliseconds, and reads them. False when this process is to end.
    pub fn wait(&mut self, milliseconds: u64) -> bool {
        if milliseconds > 0 {
            let _ = self.log.flush();
        }
        let ready = self.sources.wait(milliseconds);
        if ready[1] {
            let mut credits = [0; 4096];
            match self.credits.read(&mut credits) {
                Ok(n) if n > 0 && !credits[..n].contains(&b'q') => {
                    self.outstanding = self.outstanding.saturating_sub(n);
                    self.moved = Instant::now();
                }
                _ => return false,
            }
        }
        if self.outstanding > 0 && self.moved.elapsed() > Duration::from_millis(500) {
            // Datagrams are gone between the sockets.
            self.outstanding = 0;
        }
        if ready[0] {
            let mut buffer = [0; 2048];
            for _ in 0..PACE {
                match self.socket.recv(&mut buffer) {
                    Ok(n) => self.read(&mut buffer[..n]),
                    Err(_) => break,
                }
            }
        }
        if self.started.elapsed() > self.limit {
            self.stop("the time is over");
        }
        true
    }
}
