//! Where a request of the customer changes what the Rust does. Inputs and histories that meet such a place leave the equality
//! with the Rust, are counted apart, and are held to what the request says. A later request is one more line in `REQUESTS`.

/// A request, and where docs/DIFFERENCES.md lists what it changes.
pub struct Request {
    pub number: u8,
    pub difference: u8,
    /// What stands in the place of what the Rust does.
    pub instead: &'static str,
}

/// Known by their places.
pub const REQUESTS: [Request; 3] = [
    Request {
        number: 1,
        difference: 5,
        instead: "the number of request 1 in its place",
    },
    Request {
        number: 3,
        difference: 65,
        instead: "its flight put back behind a plaintext ACK",
    },
    Request {
        number: 3,
        difference: 66,
        instead: "the datagram cut behind the alert, and what it kept before the alert handed on",
    },
];

pub const REBUILDING: usize = 0;
pub const PLAINTEXT_ACK: usize = 1;
pub const BEHIND_ALERT: usize = 2;

/// The number that stands in the place of the Rust's 0: where the number nearest to the expected one that ends in the bits is
/// negative, the nearest of 0 or more. The bits alone are the smallest of 0 or more that ends in them; if even they are more than
/// half a block above the expected number, the one a block below them is nearer, and negative.
pub fn rebuilt_negative(partial: u64, expected: u64, bits: u32) -> Option<u64> {
    let block = 1 << bits;
    let first = partial % block;
    (first > expected + block / 2).then_some(first)
}

/// The number that a record has: the Rust's, but where request 1 changes it. Stops if what is said above is not exact for the
/// Rust's own answer: it is the nearest and ends in the bits, or it is a 0 that stands for a negative number.
pub fn rebuilt(partial: u64, expected: u64, bits: u32, rust: u64) -> (u64, bool) {
    let block = 1 << bits;
    let half = block / 2;
    let ends = |number: u64| number % block == partial % block;
    let changed = rebuilt_negative(partial, expected, bits);
    let exact = match changed {
        None => ends(rust) && rust.abs_diff(expected) <= half,
        Some(n) => rust == 0 && !ends(rust) && ends(n) && n < block && n > expected + half,
    };
    assert!(
        exact,
        "{bits} bits {partial}, expected {expected}: the Rust {rust}, {changed:?}"
    );
    (changed.unwrap_or(rust), changed.is_some())
}

/// How often requests changed what the Rust does, by their places.
#[derive(Debug, Clone, Default, PartialEq, Eq)]
pub struct Changes([u64; REQUESTS.len()]);

impl Changes {
    pub fn note(&mut self, request: usize) {
        self.0[request] += 1;
    }

    /// Says why a history left the equality with the Rust, if it did.
    pub fn tell(&self) {
        let met = REQUESTS.iter().zip(self.0).filter(|(_, n)| *n > 0);
        for (request, _) in met {
            let Request {
                difference,
                instead,
                ..
            } = request;
            println!(
                "  it left the equality with the Rust by difference {difference}: the Rust is shown with {instead}"
            );
        }
    }

    pub fn add(&mut self, other: &Self) {
        self.0
            .iter_mut()
            .zip(&other.0)
            .for_each(|(sum, n)| *sum += n);
    }
}

/// The same over many histories, with how many of them left the equality with the Rust, in all and by each request.
#[derive(Default)]
pub struct Left {
    histories: u64,
    left: u64,
    by: Changes,
    changes: Changes,
}

impl Left {
    pub fn count(&mut self, changes: &Changes) {
        self.histories += 1;
        self.left += (*changes != Changes::default()) as u64;
        let met = changes.0.map(|n| (n > 0) as u64);
        self.by.add(&Changes(met));
        self.changes.add(changes);
    }

    pub fn add(&mut self, other: &Self) {
        self.histories += other.histories;
        self.left += other.left;
        self.by.add(&other.by);
        self.changes.add(&other.changes);
    }

    pub fn print(&self) {
        let Self {
            histories, left, ..
        } = self;
        println!(
            "  {} as the Rust; {left} more left the equality with it",
            histories - left
        );
        let counts = self.by.0.iter().zip(&self.changes.0);
        let met = REQUESTS.iter().zip(counts).filter(|(_, (n, _))| **n > 0);
        for (request, (histories, records)) in met {
            let Request {
                difference,
                instead,
                ..
            } = request;
            println!(
                "  by difference {difference}: {histories} ({records} records), which are as the Rust is with {instead}"
            );
        }
    }
}
