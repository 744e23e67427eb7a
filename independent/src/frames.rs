//! Many texts in one stream: each is a length of four bytes, high byte first,
//! and then so many bytes.

use std::io::{self, Read, Write};

pub fn write(out: &mut impl Write, bytes: &[u8]) -> io::Result<()> {
    let too_long = |_| io::ErrorKind::InvalidInput;
    let length = u32::try_from(bytes.len()).map_err(too_long)?;
    out.write_all(&length.to_be_bytes())?;
    out.write_all(bytes)
}

/// The next text, or nothing at the end of the stream.
pub fn read(from: &mut impl Read) -> io::Result<Option<Vec<u8>>> {
    let mut head = [0; 4];
    if from.read(&mut head[..1])? == 0 {
        return Ok(None);
    }
    from.read_exact(&mut head[1..])?;
    let length = u64::from(u32::from_be_bytes(head));
    let mut bytes = Vec::new();
    from.take(length).read_to_end(&mut bytes)?;
    if bytes.len() as u64 != length {
        return Err(io::ErrorKind::UnexpectedEof.into());
    }
    Ok(Some(bytes))
}
