//! A run: the two ends as processes, and the link between them.

use std::io::{self, Read, Write};
use std::net::{SocketAddr, UdpSocket};
use std::os::fd::AsRawFd;
use std::process::{Child, ChildStdin, ChildStdout, Command, Stdio};
use std::str::SplitAsciiWhitespace;
use std::sync::atomic::{AtomicBool, Ordering};
use std::time::{Duration, Instant};

use crate::end::PACE;
use crate::history::History;
use crate::ledger::Ledger;
use crate::link::Direction;
use crate::options::{Options, GRACE};
use crate::page::Progress;
use crate::report::{Report, Told};
use crate::system::Sources;
use crate::verdict::Ending;

/// An end as the link sees it.
struct Peer {
    child: Child,
    /// A byte for each datagram that arrived, or `q` to end.
    credits: ChildStdin,
    log: ChildStdout,
    socket: UdpSocket,
    address: Option<SocketAddr>,
    /// Lines of its log that are not whole yet.
    rest: Vec<u8>,
    open: bool,
}

pub struct Run<'a> {
    options: &'a Options,
    peers: [Peer; 2],
    /// The two sockets, then the two logs.
    sources: Sources<4>,
    /// From the post to the gateway, and back.
    directions: [Direction; 2],
    ledgers: [Ledger; 2],
    told: Told,
    /// The gateway's, where it is asked for.
    history: Option<History>,
    started: Instant,
}

impl Peer {
    fn start(options: &Options, name: &str) -> io::Result<Peer> {
        let socket = UdpSocket::bind("127.0.0.1:0")?;
        socket.set_nonblocking(true)?;
        let mut child = Command::new(std::env::current_exe()?)
            .args(options.for_end(name, socket.local_addr()?.port()))
            .stdin(Stdio::piped())
            .stdout(Stdio::piped())
            .spawn()?;
        let (Some(credits), Some(log)) = (child.stdin.take(), child.stdout.take()) else {
            return Err(io::Error::other("an end has no pipes"));
        };
        Ok(Peer { child, credits, log, socket, address: None, rest: Vec::new(), open: true })
    }

    /// An end that is gone hears nothing: that shows in its log.
    fn tell(&mut self, bytes: &[u8]) {
        let _ = self.credits.write_all(bytes);
    }
}

fn next_number(words: &mut SplitAsciiWhitespace<'_>) -> u64 {
    words.next().and_then(|n| n.parse().ok()).unwrap_or(0)
}

impl<'a> Run<'a> {
    pub fn new(options: &'a Options) -> io::Result<Run<'a>> {
        let history = options.history.as_deref().map(History::begin).transpose()?;
        let peers = [Peer::start(options, "post")?, Peer::start(options, "gateway")?];
        let [post, gateway] = &peers;
        // The first records are lost on the way to the gateway alone.
        let back = Options { lose_first: 0, ..options.clone() };
        let fds = [post.socket.as_raw_fd(), gateway.socket.as_raw_fd(), post.log.as_raw_fd(), gateway.log.as_raw_fd()];
        Ok(Run {
            options,
            sources: Sources::new(fds)?,
            peers,
            directions: [Direction::new(options, 0x7570), Direction::new(&back, 0x646F_776E)],
            ledgers: [Ledger::default(), Ledger::default()],
            told: Told::default(),
            history,
            started: Instant::now(),
        })
    }

    /// A line of an end's log.
    fn line(&mut self, side: usize, line: &str) {
        let mut words = line.split_ascii_whitespace();
        let kind = words.next().unwrap_or("");
        match kind {
            "s" => {
                self.ledgers[side].seals(&mut words);
                if let Some(record) = self.ledgers[side].sealed.last() {
                    self.directions[1 - side].far_end_sealed(record.epoch, record.number);
                }
            }
            "a" => self.ledgers[side].acknowledges(&mut words),
            "resent" => self.told.resent[side] = next_number(&mut words) as usize,
            "marked" => self.told.marked[side] = next_number(&mut words) as usize,
            "masks" => {
                // What it sends, and what it receives.
                self.told.masks[side] += next_number(&mut words) as usize;
                self.told.masks[1 - side] += next_number(&mut words) as usize;
            }
            "opened" => self.told.opened[1 - side] = Some(next_number(&mut words) as usize),
            "h" => self.history.iter_mut().for_each(|history| history.takes(&mut words)),
            "port" => self.peers[side].address = Some(SocketAddr::from(([127, 0, 0, 1], next_number(&mut words) as u16))),
            "i" => self.told.orders_given += 1,
            "o" => self.told.orders_obeyed.push(next_number(&mut words) as usize),
            "total" => {
                self.told.counted = next_number(&mut words) as usize;
                self.told.energy = next_number(&mut words);
            }
            "done" => self.told.done[side] = true,
            "stopped" => self.told.stopped[side] = line.split_once(' ').map(|(_, why)| why.to_string()),
            _ => {
                self.ledgers[1 - side].reads(kind, &mut words);
                if kind == "k" {
                    self.directions[1 - side].far_end_encrypts();
                }
            }
        }
    }

    fn read_log(&mut self, side: usize) {
        let mut buffer = [0; 1 << 16];
        let n = match self.peers[side].log.read(&mut buffer) {
            Ok(n) if n > 0 => n,
            _ => {
                self.sources.remove(2 + side);
                self.peers[side].open = false;
                return;
            }
        };
        let mut rest = std::mem::take(&mut self.peers[side].rest);
        rest.extend_from_slice(&buffer[..n]);
        let whole = rest.iter().rposition(|byte| *byte == b'\n').map_or(0, |i| i + 1);
        for line in rest[..whole].split(|byte| *byte == b'\n').filter(|line| !line.is_empty()) {
            self.line(side, &String::from_utf8_lossy(line));
        }
        rest.drain(..whole);
        self.peers[side].rest = rest;
    }

    fn receive(&mut self, side: usize, now: Instant) {
        let mut buffer = [0; 2048];
        let mut arrived = 0;
        while arrived < PACE {
            // No more for now, or the other end is gone.
            let Ok((n, from)) = self.peers[side].socket.recv_from(&mut buffer) else { break };
            // Another process wrote it, and the link trusts the headers that it cuts by.
            if self.peers[side].address != Some(from) {
                continue;
            }
            let sent = self.directions[side].arrive(&buffer[..n], now);
            self.ledgers[side].sends(sent);
            arrived += 1;
        }
        self.peers[side].tell(&[b'.'; PACE][..arrived]);
    }

    fn deliver(&mut self, side: usize, now: Instant) {
        let Some(address) = self.peers[1 - side].address else { return };
        while self.ledgers[side].delivered.len() - self.ledgers[side].read < PACE {
            let Some(datagram) = self.directions[side].due(now) else { return };
            if self.peers[1 - side].socket.send_to(&datagram.bytes, address).is_ok() {
                self.ledgers[side].delivers(&datagram);
            }
        }
    }

    /// Waits for what comes, and passes it on.
    fn turn(&mut self) {
        let held = self.directions.iter().any(|direction| !direction.is_empty());
        let ready = self.sources.wait(if held { 1 } else { 20 });
        let now = Instant::now();
        for side in [0, 1] {
            if ready[2 + side] {
                self.read_log(side);
            }
            if ready[side] {
                self.receive(side, now);
            }
        }
        for side in [0, 1] {
            self.deliver(side, now);
        }
    }

    /// Why the ends are to end, if they are.
    fn over(&self, interrupted: &AtomicBool) -> Option<Ending> {
        if interrupted.load(Ordering::Relaxed) {
            return Some(Ending::Interrupted);
        }
        if self.peers.iter().any(|peer| !peer.open) {
            return Some(Ending::Ended);
        }
        let limit = Duration::from_secs(self.options.seconds);
        (self.started.elapsed() >= limit).then_some(Ending::TimeOver(self.options.seconds))
    }

    /// Until both ends have said all that they have to say, or do not say it in time.
    fn go(&mut self, interrupted: &AtomicBool) -> Ending {
        let mut progress = Progress::new(self.options.meter_records());
        let mut over: Option<(Ending, Instant)> = None;
        while self.peers.iter().any(|peer| peer.open) {
            self.turn();
            progress.tell(self.ledgers[0].sealed.len(), self.ledgers[0].handed, self.told.orders_obeyed.len());
            match over {
                None => {
                    over = self.over(interrupted).map(|ending| (ending, Instant::now()));
                    if over.is_some() {
                        self.peers.iter_mut().for_each(|peer| peer.tell(b"q"));
                    }
                }
                Some((_, since)) if since.elapsed() > Duration::from_secs(GRACE) => break,
                Some(_) => {}
            }
        }
        progress.end();
        over.map_or(Ending::Ended, |(ending, _)| ending)
    }

    /// Runs to the end, whichever it is; no process is left.
    pub fn report(mut self, interrupted: &AtomicBool) -> Report {
        let ending = self.go(interrupted);
        let seconds = self.started.elapsed().as_secs_f64();
        for peer in &mut self.peers {
            // One that has ended by itself is not there to be killed.
            let _ = peer.child.kill();
            let _ = peer.child.wait();
        }
        self.told.history = self.history.take().map(History::end);
        let tallies = [&self.directions[0].tally, &self.directions[1].tally];
        Report::new(self.options, tallies, &self.ledgers, &self.told, ending, seconds)
    }
}
