
// Harness: appended after the unchanged file. A child module sees the private fields.
mod harness_probe {
    use super::*;
    use crate::view::HostView;

    impl HostSession {
        /// Everything that the session holds.
        pub fn view(&self) -> HostView {
            HostView {
                state: self.state as u8,
                parser: self.parser.view(),
                identity: self.identity,
                receive_sequence: self.receive_sequence,
                send_sequence: self.send_sequence,
            }
        }

        /// Sets the sequence numbers, also to some that no list of calls reaches.
        pub fn set_sequences(&mut self, send: u64, receive: u64) {
            self.send_sequence = send;
            self.receive_sequence = receive;
        }
    }
}
