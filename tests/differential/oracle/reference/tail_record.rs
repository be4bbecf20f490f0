
// Harness: appended after the unchanged file. A child module sees the private fields.
mod harness_probe {
    use super::*;
    use crate::view::ParserView;

    impl RecordParser {
        /// Everything that the parser holds but the held payload's bytes.
        pub fn view(&self) -> ParserView {
            if let Some((held, _)) = &self.body {
                assert_eq!(self.header_len, OUTER_HEADER_LEN);
                assert!(self.holds(held), "the held header is not that of the header's bytes");
            }
            ParserView {
                header: self.header,
                header_len: self.header_len,
                held: self.body.is_some(),
                payload_len: self.body.as_ref().map_or(0, |(_, payload)| payload.len()),
                error: self.error.clone(),
            }
        }

        /// Whether the held header has the fields of the header's bytes, so that the bytes alone
        /// show them.
        fn holds(&self, held: &Header) -> bool {
            let bytes = &self.header;
            bytes[6] == held.record_type.code()
                && bytes[8..24] == held.instance_id
                && bytes[24..32] == held.epoch.to_le_bytes()
                && bytes[32..40] == held.sequence.to_le_bytes()
                && bytes[40..44] == (held.length as u32).to_le_bytes()
        }
    }
}
