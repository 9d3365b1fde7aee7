include!("../../target/dimpl/dtls13/engine.rs");

/// What is private in the file above.
pub mod probe {
    use super::*;
    use crate::crypto::script;

    pub fn reconstruct_sequence(partial: u64, expected: u64, bits: u32) -> u64 {
        super::reconstruct_sequence(partial, expected, bits)
    }

    /// Keys with the scripted cipher; the epoch is also their name.
    fn keys(epoch: u16, iv: [u8; 12]) -> EpochKeys {
        let name = epoch.to_be_bytes();
        let mut sn_key = Buf::new();
        sn_key.extend_from_slice(&name);
        EpochKeys {
            cipher: script::cipher(&name),
            iv,
            traffic_secret: Buf::new(),
            sn_key,
        }
    }

    /// Keys an epoch to receive, as `install_handshake_keys` and `update_recv_keys` do.
    pub fn key_receive(engine: &mut Engine, epoch: u16, iv: [u8; 12]) {
        let keys = keys(epoch, iv);
        if epoch == 2 {
            engine.hs_recv_keys = Some(keys);
            return;
        }
        engine.app_recv_keys.push(RecvEpochEntry {
            epoch,
            keys,
            expected_recv_seq: 0,
            replay: ReplayWindow::new(),
        });
    }

    /// Removes an epoch, as `release_application_data` and `update_recv_keys` do.
    pub fn remove(engine: &mut Engine, epoch: u16) {
        if epoch == 2 {
            engine.hs_recv_keys = None;
        }
        engine.app_recv_keys.retain(|entry| entry.epoch != epoch);
    }

    /// The epochs keyed to receive, in order of keying.
    pub fn receive_epochs(engine: &Engine) -> Vec<u16> {
        let handshake = engine.hs_recv_keys.iter().map(|_| 2);
        let application = engine.app_recv_keys.iter().map(|entry| entry.epoch);
        handshake.chain(application).collect()
    }

    /// The number expected next in an epoch, or 0 if it is not keyed: what the rebuilding of a number starts from.
    pub fn expected(engine: &Engine, epoch: u16) -> u64 {
        if epoch == 2 {
            return engine.hs_expected_recv_seq;
        }
        let entry = engine.app_recv_keys.iter().find(|e| e.epoch == epoch);
        entry.map_or(0, |entry| entry.expected_recv_seq)
    }

    /// Keys an epoch to send, as `install_handshake_keys`, `install_application_keys` and, once a
    /// key update is acknowledged, `update_send_keys` do.
    pub fn key_send(engine: &mut Engine, epoch: u16, iv: [u8; 12]) {
        let keys = Some(keys(epoch, iv));
        if epoch == 2 {
            engine.hs_send_keys = keys;
            engine.hs_send_seq = 0;
            return;
        }
        engine.app_send_keys = keys;
        engine.app_send_epoch = epoch;
        engine.app_send_seq = 0;
    }

    /// The next number of an epoch.
    pub fn set_number(engine: &mut Engine, epoch: u16, number: u64) {
        match epoch {
            0 => engine.sequence_epoch_0.sequence_number = number,
            2 => engine.hs_send_seq = number,
            _ => engine.app_send_seq = number,
        }
    }

    /// The next message number.
    pub fn set_message(engine: &mut Engine, number: u16) {
        engine.next_handshake_seq_no = number;
    }

    /// Notes a record for the ACK, as the reading of handshake messages does.
    pub fn note(engine: &mut Engine, epoch: u64, number: u64) {
        _ = engine.received_record_numbers.try_push((epoch, number));
    }

    pub fn process_ack(engine: &mut Engine, content: &[u8]) -> Result<(), Error> {
        engine.process_ack(content)
    }

    /// The saved records, to be put back.
    pub struct Flight(ArrayVec<Entry, 12>);

    pub fn flight(engine: &Engine) -> Flight {
        let copy = |entry: &Entry| Entry {
            content_type: entry.content_type,
            epoch: entry.epoch,
            send_seq: entry.send_seq,
            fragment_len: entry.fragment_len,
            fragment: entry.fragment.clone(),
            acked: entry.acked,
        };
        Flight(engine.flight_saved_records.iter().map(copy).collect())
    }

    pub fn put_back(engine: &mut Engine, flight: Flight) {
        engine.flight_saved_records = flight.0;
    }

    /// Which saved records are marked.
    pub fn marks(engine: &Engine) -> Vec<bool> {
        let entries = engine.flight_saved_records.iter();
        entries.map(|entry| entry.acked).collect()
    }

    /// The place of the close that is remembered.
    pub fn close(engine: &Engine) -> Option<Sequence> {
        engine.close_notify_sequence
    }

    /// Takes the marks of the saved records away, as before any ACK.
    pub fn unmark(engine: &mut Engine) {
        for entry in &mut engine.flight_saved_records {
            entry.acked = false;
        }
    }

    /// What a buffer was handed: a datagram's length, or the length that it lacks.
    #[derive(Debug, PartialEq, Eq)]
    pub enum Taken {
        Datagram(usize),
        Short(usize),
        Nothing,
    }

    pub fn take(engine: &mut Engine, buffer: &mut [u8]) -> Taken {
        match engine.poll_packet_tx(buffer) {
            PollOutput::Data(datagram) => Taken::Datagram(datagram.len()),
            PollOutput::BufferTooSmall { needed } => Taken::Short(needed),
            PollOutput::None(_) => Taken::Nothing,
        }
    }

    /// A saved record.
    #[derive(Debug, Clone, PartialEq, Eq)]
    pub struct Saved {
        pub content_type: u8,
        pub epoch: u16,
        pub number: u64,
        pub marked: bool,
        pub remembered: Vec<u64>,
        pub content: Vec<u8>,
    }

    /// The sending side: next numbers, the application epoch or 0, the queue, the flight.
    #[derive(Debug, Clone, PartialEq, Eq)]
    pub struct Sending {
        pub plaintext_next: u64,
        pub handshake_keyed: bool,
        pub handshake_next: u64,
        pub application: u16,
        pub application_next: u64,
        pub message: u16,
        pub closed: bool,
        pub lengths: Vec<usize>,
        pub saved: Vec<Saved>,
        pub noted: usize,
    }

    pub fn sending(engine: &Engine) -> Sending {
        let saved = engine.flight_saved_records.iter().map(|entry| Saved {
            content_type: entry.content_type.as_u8(),
            epoch: entry.epoch,
            number: entry.send_seq,
            marked: entry.acked,
            remembered: entry.fragment[entry.fragment_len..]
                .chunks(8)
                .map(|number| u64::from_be_bytes(number.try_into().unwrap()))
                .collect(),
            content: entry.fragment().to_vec(),
        });
        Sending {
            plaintext_next: engine.sequence_epoch_0.sequence_number,
            handshake_keyed: engine.hs_send_keys.is_some(),
            handshake_next: engine.hs_send_seq,
            application: engine
                .app_send_keys
                .as_ref()
                .map_or(0, |_| engine.app_send_epoch),
            application_next: engine.app_send_seq,
            message: engine.next_handshake_seq_no,
            closed: engine.datagram_sealed,
            lengths: engine
                .queue_tx
                .iter()
                .map(|datagram| datagram.len())
                .collect(),
            saved: saved.collect(),
            noted: engine.received_record_numbers.len(),
        }
    }

    /// Epochs 2 and 3 keyed in both directions with the cipher that does nothing; the peer encrypts
    /// and application data is released.
    pub fn key_null(engine: &mut Engine, iv: [u8; 12]) {
        let keys = || {
            let mut sn_key = Buf::new();
            sn_key.extend_from_slice(&[7; 16]);
            EpochKeys {
                cipher: crate::crypto::null::cipher(),
                iv,
                traffic_secret: Buf::new(),
                sn_key,
            }
        };
        engine.hs_send_keys = Some(keys());
        engine.hs_recv_keys = Some(keys());
        engine.app_send_keys = Some(keys());
        engine.app_send_epoch = 3;
        engine.app_recv_keys.push(RecvEpochEntry {
            epoch: 3,
            keys: keys(),
            expected_recv_seq: 0,
            replay: ReplayWindow::new(),
        });
        engine.enable_peer_encryption().unwrap();
        engine.release_application_data_retaining_handshake_keys();
    }

    /// The transcript emptied, which no part of the record layer reads.
    pub fn forget_transcript(engine: &mut Engine) {
        engine.transcript.clear();
    }
}
