//! What a session is started with.

/// [`new`](ServerSessionConfig::new) has rml_rtmp's values.
#[derive(Clone, Debug, PartialEq, Eq)]
pub struct ServerSessionConfig {
    /// At most 128 bytes, or the start is refused with 14.
    pub fms_version: Vec<u8>,
    /// 1 to 2,147,483,647, or the start is refused with 14. The peer is told; cutting chunks is the host's business.
    pub chunk_size: u32,
    pub peer_bandwidth: u32,
    pub window_ack_size: u32,
    pub send_on_bw_done_message_on_start: bool,
}

impl ServerSessionConfig {
    pub fn new() -> ServerSessionConfig {
        ServerSessionConfig {
            chunk_size: 4096,
            window_ack_size: 1 << 30,
            peer_bandwidth: 2_500_000,
            send_on_bw_done_message_on_start: true,
            fms_version: b"FMS/3,0,1,1233".to_vec(),
        }
    }
}

impl Default for ServerSessionConfig {
    fn default() -> ServerSessionConfig {
        ServerSessionConfig::new()
    }
}
