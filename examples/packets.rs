//! Lists the packets of standard input, as `packets.c` does, from Rust:
//!
//!     rustc -O --edition 2021 packets.rs -L native=FOLDER -l static=gitwire
//!
//! where FOLDER has the installed `libgitwire.a`. The declarations are those of `gitwire.h`.
use std::ffi::{c_char, CStr};
use std::io::{self, Read, Write};
use std::process::ExitCode;
use std::ptr;

const PAYLOAD_SIZE: usize = 65_516;
const MOST_BYTES: usize = 65_536;

const DONE: u32 = 0;
const MORE: u32 = 1;
const FAILED: u32 = 2;
const FLUSH: u32 = 10;
const DELIM: u32 = 11;
const RESPONSE_END: u32 = 12;

/// What a handle points to: the library's own.
#[repr(C)]
struct Handle {
    _its: [u8; 0],
}

#[repr(C)]
#[derive(Clone, Copy)]
struct Answer {
    used: usize,
    offset: u64,
    length: usize,
    kind: u32,
    fault: u32,
}

extern "C" {
    fn gitwire_packet_reader_new(reader: *mut *mut Handle) -> u32;
    fn gitwire_packet_reader_feed(
        reader: *mut Handle,
        chunk: *const u8,
        chunk_length: usize,
        buffer: *mut u8,
        buffer_length: usize,
    ) -> Answer;
    fn gitwire_packet_reader_close(reader: *mut Handle) -> Answer;
    fn gitwire_packet_reader_free(reader: *mut Handle);
    fn gitwire_fault_name(fault: u32) -> *const c_char;
    fn gitwire_escape(
        bytes: *const u8,
        bytes_length: usize,
        buffer: *mut c_char,
        buffer_length: usize,
    ) -> Answer;
}

/// A reader of packets. It is neither copied nor shared, and is freed once, as the header requires of a caller.
struct PacketReader(*mut Handle);

impl PacketReader {
    fn new() -> Option<Self> {
        let mut handle = ptr::null_mut();
        (unsafe { gitwire_packet_reader_new(&mut handle) } == DONE).then_some(Self(handle))
    }

    /// Reads on, and leaves a payload at the front of the buffer. A slice is never null, nor do two that are borrowed at once overlap.
    fn feed(&mut self, chunk: &[u8], buffer: &mut [u8; PAYLOAD_SIZE]) -> Answer {
        unsafe {
            gitwire_packet_reader_feed(
                self.0,
                chunk.as_ptr(),
                chunk.len(),
                buffer.as_mut_ptr(),
                buffer.len(),
            )
        }
    }

    fn close(&mut self) -> Answer {
        unsafe { gitwire_packet_reader_close(self.0) }
    }
}

impl Drop for PacketReader {
    fn drop(&mut self) {
        unsafe { gitwire_packet_reader_free(self.0) }
    }
}

/// An error by its name and offset. The name lasts as long as the library is loaded.
fn fault_text(answer: Answer) -> String {
    let name = unsafe { CStr::from_ptr(gitwire_fault_name(answer.fault)) };
    format!("{} at {}", name.to_string_lossy(), answer.offset)
}

/// Writes bytes as `git2show show` shows them.
fn write_escaped(out: &mut impl Write, mut bytes: &[u8]) -> io::Result<()> {
    let mut shown = [0u8; 4096];
    while !bytes.is_empty() {
        let to = shown.as_mut_ptr().cast();
        let answer = unsafe { gitwire_escape(bytes.as_ptr(), bytes.len(), to, shown.len()) };
        out.write_all(&shown[..answer.length])?;
        bytes = &bytes[answer.used..];
    }
    Ok(())
}

fn show(out: &mut impl Write, packet: Answer, buffer: &[u8]) -> io::Result<()> {
    let offset = packet.offset;
    match packet.kind {
        FLUSH => return writeln!(out, "{offset} flush"),
        DELIM => return writeln!(out, "{offset} delim"),
        RESPONSE_END => return writeln!(out, "{offset} end"),
        _ => {}
    }
    let payload = &buffer[..packet.length];
    write!(
        out,
        "{offset} data {}{}",
        payload.len(),
        if payload.is_empty() { "" } else { " " }
    )?;
    write_escaped(out, payload)?;
    writeln!(out)
}

/// Lists all packets, and returns the error that ended them, if there was one.
fn list(reader: &mut PacketReader, most: usize, out: &mut impl Write) -> io::Result<Option<Answer>> {
    let mut input = io::stdin().lock();
    let mut chunk = vec![0; most];
    let mut buffer = Box::new([0; PAYLOAD_SIZE]);
    loop {
        let length = input.read(&mut chunk)?;
        let mut rest = &chunk[..length];
        if rest.is_empty() {
            let answer = reader.close();
            return Ok((answer.kind != DONE).then_some(answer));
        }
        while !rest.is_empty() {
            let answer = reader.feed(rest, &mut buffer);
            rest = &rest[answer.used..];
            match answer.kind {
                FAILED => return Ok(Some(answer)),
                MORE => {}
                _ => show(out, answer, &buffer[..])?,
            }
        }
    }
}

fn main() -> io::Result<ExitCode> {
    let word = std::env::args().nth(1);
    let most = word.map_or(Some(MOST_BYTES), |word| word.parse().ok());
    let Some(most) = most.filter(|most| (1..=MOST_BYTES).contains(most)) else {
        eprintln!("usage: packets [BYTES]");
        return Ok(ExitCode::from(2));
    };
    let Some(mut reader) = PacketReader::new() else {
        eprintln!("packets: no memory");
        return Ok(ExitCode::FAILURE);
    };
    let mut out = io::BufWriter::new(io::stdout().lock());
    let fault = list(&mut reader, most, &mut out)?;
    out.flush()?;
    match fault {
        None => Ok(ExitCode::SUCCESS),
        Some(answer) => {
            eprintln!("packets: {}", fault_text(answer));
            Ok(ExitCode::FAILURE)
        }
    }
}
