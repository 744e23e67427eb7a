//! Runs a command on one text: the text goes to its standard input, and its
//! status and all that it writes are its answer.

use std::io::{self, Read, Write};
use std::process::{Command, ExitStatus, Stdio};
use std::thread;

/// How many bytes of an output are read, more than any right answer has. A
/// command that writes on and on is so brought to an end.
const MOST: u64 = 16_384;

#[derive(Clone, Debug)]
pub struct Answer {
    pub status: ExitStatus,
    pub out: Vec<u8>,
    pub err: Vec<u8>,
}

/// The answer of a command, given as its program and its arguments. The pipes
/// are served at the same time, so that none of them can stop another.
pub fn run(words: &[String], input: &[u8]) -> io::Result<Answer> {
    let [program, arguments @ ..] = words else {
        return Err(io::ErrorKind::InvalidInput.into());
    };
    let mut child = Command::new(program)
        .args(arguments)
        .stdin(Stdio::piped())
        .stdout(Stdio::piped())
        .stderr(Stdio::piped())
        .spawn()
        .map_err(|error| io::Error::new(error.kind(), format!("{program}: {error}")))?;
    let (stdin, stdout, stderr) = (child.stdin.take(), child.stdout.take(), child.stderr.take());
    let (written, out, err) = thread::scope(|scope| {
        let written = scope.spawn(|| write(stdin, input));
        let err = scope.spawn(|| read(stderr));
        let out = read(stdout);
        (written.join(), out, err.join())
    });
    let status = child.wait()?;
    written.expect("writing does not panic")?;
    Ok(Answer {
        status,
        out: out?,
        err: err.expect("reading does not panic")?,
    })
}

/// Writes a text and closes the pipe. The command may end before it has read
/// all of it.
fn write(pipe: Option<impl Write>, input: &[u8]) -> io::Result<()> {
    match pipe.map_or(Ok(()), |mut pipe| pipe.write_all(input)) {
        Err(error) if error.kind() != io::ErrorKind::BrokenPipe => Err(error),
        _ => Ok(()),
    }
}

fn read(pipe: Option<impl Read>) -> io::Result<Vec<u8>> {
    let mut bytes = Vec::new();
    if let Some(pipe) = pipe {
        pipe.take(MOST).read_to_end(&mut bytes)?;
    }
    Ok(bytes)
}
