//! What the command line says. `help.txt` has what --help prints, for `run`, which knows no built program: a test holds it to this file.

use std::str::FromStr;

use clap::builder::RangedU64ValueParser;
use clap::Parser;

use crate::crypto::Suite;

/// Seconds for an end to say what it has to say, once it is told to end.
pub const GRACE: u64 = 5;
/// The most seconds that can be given.
const LONGEST: u64 = 86_400;

const EXIT_STATUS: &str = "\
Exit status: 0 the page holds; 1 a record was handed over twice, changed, invented, wrongly left out, or dropped as seen or too old
and was not, one forged in plaintext was heeded, a close not seen, an order obeyed that was not given or obeyed twice, a mask asked
of a cipher that the library makes, or the receive history has other records than the gateway counted; 2 the run was not finished
(its time was over, or Ctrl-C), the receive history could not be written, or something is missing to make the run.

The receive history has 8 bytes for each sealed record whose number the gateway rebuilt, in the order in which it dealt with them.
why/run FILE says of each that it was taken, or why it was left out; why/run --counts FILE how many each reason has, which are the
page's counts. It reads the first 65,536 records: where there are more, the page has the counts of these too.

The first run proves the library, which takes about ten minutes, and builds the program. HUSKELAPSE_LIB names a folder that has
libhuskelapse.a, where it is not to be proved here.";

/// A charging post and a gateway, two processes that talk DTLS 1.3 records over UDP on loopback, with a bad link between them.
#[derive(Clone, Parser)]
#[command(name = "host/run", override_usage = "host/run [OPTIONS]", after_help = EXIT_STATUS)]
pub struct Options {
    /// Meter records that the post sends, 1 to 4,000,000
    #[arg(long, value_name = "N", default_value = "10000", value_parser = whole(1, 4_000_000))]
    pub records: usize,

    /// At most so many meter records in one datagram, 1 to 16
    #[arg(long, value_name = "N", default_value = "1", value_parser = whole(1, 16))]
    pub pack: usize,

    /// Orders of the gateway to the post before the stop order, 0 to 1,000
    #[arg(long, value_name = "N", default_value = "5", value_parser = whole(0, 1_000))]
    pub orders: usize,

    /// aes-128-gcm, or chacha20-poly1305 (chacha20 for short), whose masks the library makes
    #[arg(long = "cipher", value_name = "NAME", default_value = "aes-128-gcm", value_parser = suite)]
    pub suite: Suite,

    /// Seed of the link's choices and of the keys
    #[arg(long, value_name = "N", default_value = "1")]
    pub seed: u64,

    /// Percent of the datagrams that the link loses, 0 to 95
    #[arg(long, value_name = "P", default_value = "20", value_parser = percent)]
    pub lose: f64,

    /// Percent that it delivers twice
    #[arg(long, value_name = "P", default_value = "10", value_parser = percent)]
    pub double: f64,

    /// A datagram is overtaken by at most so many later ones, 0 to 10,000
    #[arg(long, value_name = "N", default_value = "60", value_parser = whole(0, 10_000))]
    pub reorder: usize,

    /// Percent that it holds back for a time
    #[arg(long, value_name = "P", default_value = "0.1", value_parser = percent)]
    pub delay: f64,

    /// The longest such time in milliseconds, 1 to 10,000
    #[arg(long, value_name = "N", default_value = "50", value_parser = whole(1, 10_000))]
    pub delay_ms: usize,

    /// Percent of the deliveries in which it changes bytes or cuts some off
    #[arg(long, value_name = "P", default_value = "1", value_parser = percent)]
    pub corrupt: f64,

    /// Percent of the datagrams beside which it sends an old one once more, one that it made up, or an alert or ACK in plaintext
    #[arg(long, value_name = "P", default_value = "1", value_parser = percent)]
    pub forge: f64,

    /// It loses the post's first N records of epoch 3 (sent besides the --records); the next one arrives, if late, 0 to 100,000
    #[arg(long, value_name = "N", default_value = "0", value_parser = whole(0, 100_000))]
    pub lose_first: usize,

    /// Seconds until it ends, finished or not, 1 to 86,400
    #[arg(long, value_name = "N", default_value = "120", value_parser = clap::value_parser!(u64).range(1..=LONGEST))]
    pub seconds: u64,

    /// Write the receive history of the gateway to FILE, for why/run, in place of what FILE has
    #[arg(long, value_name = "FILE")]
    pub history: Option<String>,

    /// Print the page as one JSON object, for programs
    #[arg(long)]
    pub json: bool,

    /// Given to the processes that this one starts: which end, and the link's port.
    #[arg(long, hide = true)]
    pub end: Option<Role>,
}

/// Which end a process is, and where the link is.
#[derive(Clone)]
pub struct Role {
    pub name: String,
    pub port: u16,
}

impl FromStr for Role {
    type Err = String;

    fn from_str(text: &str) -> Result<Role, String> {
        let (name, port) = text.split_once(':').ok_or("it is for this program alone")?;
        Ok(Role { name: name.to_string(), port: port.parse().map_err(|_| "no port")? })
    }
}

fn whole(least: u64, most: u64) -> RangedU64ValueParser<usize> {
    RangedU64ValueParser::new().range(least..=most)
}

fn percent(text: &str) -> Result<f64, String> {
    let percent: f64 = text.parse().map_err(|_| "it is no number")?;
    if (0.0..=95.0).contains(&percent) {
        Ok(percent)
    } else {
        Err("it is not in 0..=95".to_string())
    }
}

fn suite(name: &str) -> Result<Suite, String> {
    Suite::named(name).ok_or_else(|| "there is no such cipher here".to_string())
}

impl Options {
    /// Meter records that the post sends in all.
    pub fn meter_records(&self) -> usize {
        self.lose_first + self.records
    }

    /// The words for a process that is one end. It is told when to end; its own limit is for the case that nobody tells it.
    pub fn for_end(&self, name: &str, port: u16) -> Vec<String> {
        let words = [
            ("--records", self.records.to_string()),
            ("--lose-first", self.lose_first.to_string()),
            ("--pack", self.pack.to_string()),
            ("--orders", self.orders.to_string()),
            ("--cipher", self.suite.name().to_string()),
            ("--seed", self.seed.to_string()),
            ("--seconds", (self.seconds + 2 * GRACE).min(LONGEST).to_string()),
            ("--end", format!("{name}:{port}")),
        ];
        // The gateway tells its history by its log; this process writes the file.
        let history = self.history.iter().filter(|_| name == "gateway").map(|file| ("--history", file.clone()));
        words.into_iter().chain(history).map(|(name, value)| format!("{name}={value}")).collect()
    }
}

#[cfg(test)]
mod tests {
    use clap::CommandFactory;

    use super::*;

    #[test]
    fn help_is_the_file() {
        let help = Options::command().render_help().to_string();
        assert!(help == include_str!("../help.txt"), "help.txt is to be:\n{help}");
    }

    #[test]
    fn an_end_sends_and_expects_as_many_as_the_link() {
        for (words, all) in [(&[][..], 10_000), (&["--lose-first", "40000"], 50_000), (&["--lose-first", "3", "--records", "2"], 5)] {
            let options = Options::parse_from([&["host/run"], words].concat());
            let end = Options::parse_from([vec!["host/run".to_string()], options.for_end("post", 1)].concat());
            assert_eq!((options.meter_records(), end.meter_records()), (all, all));
            assert_eq!(options.lose_first, end.lose_first);
        }
    }

    #[test]
    fn the_gateway_alone_tells_a_history() {
        // A name can begin with a dash.
        let options = Options::parse_from(["host/run", "--history=-gateway.history"]);
        let of = |name| Options::parse_from([vec!["host/run".to_string()], options.for_end(name, 1)].concat()).history;
        assert_eq!((of("post"), of("gateway").as_deref()), (None, Some("-gateway.history")));
        assert_eq!(Options::parse_from(["host/run"]).history, None);
    }

    #[test]
    fn a_cipher_has_its_name_and_a_short_one() {
        let named = |name| Options::parse_from(["host/run", "--cipher", name]).suite.name();
        assert_eq!(["aes-128-gcm", "chacha20-poly1305"].map(named), ["aes-128-gcm", "chacha20-poly1305"]);
        assert_eq!(named("chacha20"), "chacha20-poly1305");
        assert!(Options::try_parse_from(["host/run", "--cipher", "chacha"]).is_err());
    }

    #[test]
    fn more_than_100_000_are_not_lost_first() {
        assert!(Options::try_parse_from(["host/run", "--lose-first", "100000"]).is_ok());
        assert!(Options::try_parse_from(["host/run", "--lose-first", "100001"]).is_err());
    }
}
