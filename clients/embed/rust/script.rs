//! Serves a script of pairs, a moment and the frame of a request each, from standard input, and writes the replies to standard
//! output: what `tbs run CLIENTS_MAX [PROFILE]` does, in Rust.
use std::io::{self, BufReader, BufWriter, Read, Write};

use tb_embed::{RequestHeader, Server, HEADER_SIZE, REPLY_MAX, REQUEST_MAX};

/// The next pair: the request's frame goes into the buffer. None at the end of the script.
fn read_pair(script: &mut impl Read, frame: &mut Vec<u8>) -> io::Result<Option<u64>> {
    let mut moment = [0; 8];
    if script.read(&mut moment[..1])? == 0 {
        return Ok(None);
    }
    script.read_exact(&mut moment[1..])?;
    let mut header = [0; HEADER_SIZE];
    script.read_exact(&mut header)?;
    let length = HEADER_SIZE + RequestHeader::from_bytes(&header).length as usize;
    if length > REQUEST_MAX {
        return Err(io::Error::other("a body is too long"));
    }
    frame.clear();
    frame.extend(header);
    frame.resize(length, 0);
    script.read_exact(&mut frame[HEADER_SIZE..])?;
    Ok(Some(u64::from_le_bytes(moment)))
}

fn number(word: Option<String>, default: u32) -> Result<u32, std::num::ParseIntError> {
    word.map_or(Ok(default), |word| word.parse())
}

fn main() -> Result<(), Box<dyn std::error::Error>> {
    let mut words = std::env::args().skip(1);
    let clients_max = number(words.next(), 2)?;
    let profile = number(words.next(), 1)?;
    if words.next().is_some() {
        return Err("too many words".into());
    }
    let mut server = Server::open(profile, clients_max)?;
    let mut script = BufReader::new(io::stdin().lock());
    let mut replies = BufWriter::new(io::stdout().lock());
    let (mut frame, mut room) = (Vec::new(), vec![0; REPLY_MAX]);
    while let Some(moment) = read_pair(&mut script, &mut frame)? {
        replies.write_all(server.serve(moment, &frame, &mut room)?)?;
    }
    replies.flush()?;
    Ok(())
}
