//! Reads bytes as they were heard on a HART line from standard input, and prints a line for each message as soon as it is decided, as
//! `hart dump` does.
mod hart;

use hart::{Finder, Frame};
use std::io::{self, Read, Write};

/// Returns bytes in hex, or a dash for none.
fn hex(bytes: &[u8]) -> String {
    if bytes.is_empty() {
        return "-".to_string();
    }
    bytes.iter().map(|byte| format!("{byte:02X}")).collect()
}

/// Returns the address of a frame.
fn address(frame: &Frame) -> String {
    if !frame.is_unique {
        return format!("@{}", frame.polling_address);
    }
    match (frame.expanded_type, frame.device_id) {
        (0, 0) => "all".to_string(),
        (expanded_type, device_id) => format!("{expanded_type:04X}{device_id:06X}"),
    }
}

/// Prints the lines of frames.
fn print(frames: &[Frame]) -> io::Result<()> {
    let mut out = io::stdout().lock();
    for frame in frames {
        writeln!(
            out,
            "{} {} {} {} {} {} {} {} {}",
            frame.start,
            frame.stop,
            if frame.is_reply { "ACK" } else { "STX" },
            if frame.is_primary { "P" } else { "S" },
            u8::from(frame.is_burst),
            address(frame),
            hex(frame.expansion()),
            frame.command,
            hex(frame.payload())
        )?;
    }
    out.flush()
}

fn main() -> io::Result<()> {
    let mut finder = Finder::default();
    let mut bytes = [0; 4096];
    loop {
        match io::stdin().lock().read(&mut bytes)? {
            0 => return print(&finder.end()),
            len => print(&finder.hear(&bytes[..len]))?,
        }
    }
}
