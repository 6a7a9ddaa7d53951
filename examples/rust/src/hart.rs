//! `hart_find_in_bytes` of include/hart.h, and a finder of frames in bytes as they come in.

/// A frame, and where it stands in what was passed.
#[repr(C)]
#[derive(Clone, Copy)]
pub struct Frame {
    pub start: u64,
    pub stop: u64,
    pub device_id: u32,
    pub expanded_type: u16,
    pub is_reply: bool,
    pub is_primary: bool,
    pub is_burst: bool,
    pub is_unique: bool,
    pub polling_address: u8,
    pub command: u8,
    pub expansion_len: u8,
    pub payload_len: u8,
    pub expansion: [u8; 3],
    pub payload: [u8; 255],
}

#[repr(C)]
struct Search {
    used: usize,
    count: usize,
    fault: u8,
}

extern "C" {
    fn hart_find_in_bytes(bytes: *const u8, len: usize, ended: bool, frames: *mut Frame, frames_len: usize) -> Search;
}

const NO_FRAME: Frame = Frame {
    start: 0,
    stop: 0,
    device_id: 0,
    expanded_type: 0,
    is_reply: false,
    is_primary: false,
    is_burst: false,
    is_unique: false,
    polling_address: 0,
    command: 0,
    expansion_len: 0,
    payload_len: 0,
    expansion: [0; 3],
    payload: [0; 255],
};

const AT_ONCE: usize = 16;

impl Frame {
    /// Returns the expansion bytes.
    pub fn expansion(&self) -> &[u8] {
        &self.expansion[..usize::from(self.expansion_len)]
    }

    /// Returns the payload.
    pub fn payload(&self) -> &[u8] {
        &self.payload[..usize::from(self.payload_len)]
    }
}

/// Finds the frames of bytes as they come in, in whatever pieces.
#[derive(Default)]
pub struct Finder {
    held: Vec<u8>,
    used: u64,
}

impl Finder {
    /// Returns the frames that are decided by further bytes, with their places in all that was heard.
    pub fn hear(&mut self, bytes: &[u8]) -> Vec<Frame> {
        self.held.extend_from_slice(bytes);
        self.found(false)
    }

    /// Returns the frames that are decided by the end of the bytes.
    pub fn end(&mut self) -> Vec<Frame> {
        self.found(true)
    }

    fn found(&mut self, ended: bool) -> Vec<Frame> {
        let mut all = Vec::new();
        let mut frames = [NO_FRAME; AT_ONCE];
        loop {
            // SAFETY: both pointers are those of slices, so they are aligned, not null, and have the stated number of elements; the
            // frames are initialised and overlap nothing.
            let search =
                unsafe { hart_find_in_bytes(self.held.as_ptr(), self.held.len(), ended, frames.as_mut_ptr(), AT_ONCE) };
            debug_assert_eq!(search.fault, 0);
            all.extend(frames[..search.count].iter().map(|frame| Frame {
                start: self.used + frame.start,
                stop: self.used + frame.stop,
                ..*frame
            }));
            self.held.drain(..search.used);
            self.used += search.used as u64;
            if search.count < AT_ONCE {
                return all;
            }
        }
    }
}
