//! The report of a set's file from standard input, by the library. Build and run: examples/rust/run < examples/line.set
use std::io::{Read, Write};

extern "C" {
    fn burnishpeg_report(file: *const u8, file_len: usize, text: *mut u8, text_len: usize) -> u64;
}

/// Room that is enough for every report.
const LONGEST_REPORT: usize = 23_867;

/// The report's text, or the refusal's number and place.
fn report(file: &[u8]) -> Result<Vec<u8>, (u8, u32)> {
    let mut text = vec![0; LONGEST_REPORT];
    // The function takes any bytes, writes only inside the room that it is lent, and keeps nothing.
    let answer = unsafe { burnishpeg_report(file.as_ptr(), file.len(), text.as_mut_ptr(), text.len()) };
    if answer >> 63 == 1 {
        return Err(((answer >> 32) as u8, answer as u32));
    }
    text.truncate(answer as usize);
    Ok(text)
}

fn main() {
    let mut file = Vec::new();
    std::io::stdin().read_to_end(&mut file).expect("standard input can be read");
    match report(&file) {
        Ok(text) => std::io::stdout().write_all(&text).expect("standard output can be written"),
        Err((number, place)) => println!("refused {number} at {place}"),
    }
}
