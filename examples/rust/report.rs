//! Runs the scenario of standard input by libdnlab, and writes its report, as `dnlab alone` does.
//!
//!     rustc report.rs -L PREFIX/lib
//!     LD_LIBRARY_PATH=PREFIX/lib ./report < scenario.txt

use std::io::{self, Read, Write};

#[repr(C)]
#[derive(Default)]
struct Answer {
    status: u32,
    cause: u32,
    line: u64,
    length: u64,
}

#[link(name = "dnlab")]
extern "C" {
    fn dnlab_alone(text: *const u8, text_length: usize, room: *mut u8, room_length: usize, answer: *mut Answer);
}

/// The report of a scenario, or what the library answered.
fn report(text: &[u8]) -> Result<Vec<u8>, Answer> {
    let mut room = vec![0; 1 << 16];
    loop {
        let mut answer = Answer::default();
        // Two slices that don't overlap, and an answer of this frame.
        unsafe { dnlab_alone(text.as_ptr(), text.len(), room.as_mut_ptr(), room.len(), &mut answer) };
        match answer.status {
            0 => {
                room.truncate(answer.length as usize);
                return Ok(room);
            }
            5 => room.resize(answer.length as usize, 0),
            _ => return Err(answer),
        }
    }
}

fn main() -> io::Result<()> {
    let mut text = Vec::new();
    io::stdin().read_to_end(&mut text)?;
    match report(&text) {
        Ok(bytes) => io::stdout().write_all(&bytes),
        Err(answer) => Err(io::Error::other(format!("status {}, line {}", answer.status, answer.line))),
    }
}
