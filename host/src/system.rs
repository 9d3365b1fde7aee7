//! Waiting on sockets and pipes at once.

use std::io;
use std::os::fd::RawFd;
use std::time::Duration;

use polling::{Event, Poller};

/// What is waited on together. Whoever owns these keeps them open, or removes them first.
pub struct Sources<const N: usize> {
    poller: Poller,
    fds: [Option<RawFd>; N],
    events: Vec<Event>,
}

impl<const N: usize> Sources<N> {
    pub fn new(fds: [RawFd; N]) -> io::Result<Sources<N>> {
        let poller = Poller::new()?;
        for (place, fd) in fds.into_iter().enumerate() {
            poller.add(fd, Event::readable(place))?;
        }
        Ok(Sources { poller, fds: fds.map(Some), events: Vec::new() })
    }

    /// Waits until one of these can be read or has ended, at most so many milliseconds. Which ones it is.
    pub fn wait(&mut self, milliseconds: u64) -> [bool; N] {
        self.events.clear();
        // A signal ends the waiting early: then nothing is ready.
        let _ = self.poller.wait(&mut self.events, Some(Duration::from_millis(milliseconds)));
        let mut ready = [false; N];
        for event in &self.events {
            ready[event.key] = true;
            // An event is told once: what is left unread is to be told again.
            if let Some(fd) = self.fds[event.key] {
                let _ = self.poller.modify(fd, Event::readable(event.key));
            }
        }
        ready
    }

    /// This one is not waited on any more.
    pub fn remove(&mut self, place: usize) {
        if let Some(fd) = self.fds[place].take() {
            let _ = self.poller.delete(fd);
        }
    }
}
