//! A YTsaurus job: hands on each row of binary YSON from standard input.
use onionsail::{scan, Format, Scan};
use std::io::{self, BufWriter, Error, ErrorKind, Read, Write};

/// The longest record that is waited for.
const MOST: usize = 16 << 20;

fn main() -> io::Result<()> {
    let (mut input, mut output) = (io::stdin().lock(), BufWriter::new(io::stdout().lock()));
    let mut buffer = vec![0; 1 << 16];
    // The bytes that are still to be handed on, and the stream offset of the buffer's first byte.
    let (mut start, mut end, mut offset) = (0, 0, 0);
    loop {
        while start < end && b"; \t\n\x0C\r".contains(&buffer[start]) {
            start += 1;
        }
        match scan(Format::Binary, &buffer[start..end]) {
            Ok(Scan::Complete { len }) => {
                // A record that begins with attributes controls the job and is no row.
                if buffer[start] != b'<' {
                    output.write_all(&buffer[start..start + len])?;
                    output.write_all(b";")?;
                }
                start += len;
            }
            Ok(Scan::Incomplete) => {
                buffer.copy_within(start..end, 0);
                (offset, end, start) = (offset + start, end - start, 0);
                if end == buffer.len() {
                    if end == MOST {
                        return Err(Error::other(format!("record at {offset}: too long")));
                    }
                    buffer.resize(2 * end, 0);
                }
                match input.read(&mut buffer[end..]) {
                    Ok(0) if end == 0 => return output.flush(),
                    Ok(0) => return Err(Error::other(format!("record at {offset}: cut short"))),
                    Ok(read) => end += read,
                    Err(error) if error.kind() == ErrorKind::Interrupted => {}
                    Err(error) => return Err(error),
                }
            }
            Err(why) => return Err(Error::other(format!("record at {}: {why}", offset + start))),
        }
    }
}
