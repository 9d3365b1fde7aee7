include!("../../target/dimpl/dtls13/incoming.rs");

/// What is private in the file above.
pub mod probe {
    use super::*;

    pub fn parse_records(
        packet: &[u8],
        decrypt: &mut dyn RecordHandler,
        records: &mut ArrayVec<Record, 16>,
    ) -> Result<(), InternalError> {
        Records::parse_records(packet, decrypt, None, records)
    }

    pub fn recover_inner_content_type(
        decrypted: &[u8],
    ) -> Result<(ContentType, usize), InternalError> {
        super::recover_inner_content_type(decrypted)
    }

    /// The buffer that a record was copied to.
    pub fn into_buffer(record: Record) -> Buf {
        record.into_buffer()
    }
}
