//! Asks our own programs: the probe gets a capture of requests and answers one line each, another one a
//! capture of any kind.

use crate::capture;
use std::io::{self, BufWriter, Error, ErrorKind, Read, Write};
use std::process::{Child, ChildStdin, Command, Stdio};
use std::thread;

/// The program and its words.
pub struct Probe(pub Vec<String>);

impl Probe {
    /// The lines for the requests, each without its number, which is checked.
    pub fn ask(&self, requests: &[Vec<u8>]) -> io::Result<Vec<String>> {
        let (sent, text) = self.serve(|input| send(input, requests))?;
        sent?;
        numbered(&text, requests.len())
    }

    /// All that the program says to a capture. It may stop before the capture's end, at a bad length.
    pub fn feed(&self, capture: &[u8]) -> io::Result<String> {
        let (sent, text) = self.serve(|mut input| input.write_all(capture))?;
        match sent {
            Err(e) if e.kind() != ErrorKind::BrokenPipe => Err(e),
            _ => Ok(text),
        }
    }

    /// Starts the program, has it sent its input and takes all its output; how the sending went is told
    /// beside that.
    fn serve(
        &self,
        send: impl FnOnce(ChildStdin) -> io::Result<()> + Send,
    ) -> io::Result<(io::Result<()>, String)> {
        let mut child = Command::new(&self.0[0])
            .args(&self.0[1..])
            .stdin(Stdio::piped())
            .stdout(Stdio::piped())
            .spawn()?;
        let input = child.stdin.take().expect("standard input is a pipe");
        // Both pipes are served at once: a program that writes before it has read all would stop.
        let (sent, text) = thread::scope(|scope| {
            let writer = scope.spawn(|| send(input));
            let text = receive(&mut child);
            (writer.join().expect("the writer ends"), text)
        });
        // A program that fell explains a broken pipe, so its status is told first.
        let status = child.wait()?;
        if !status.success() {
            return Err(Error::other(format!("the program ended with {status}")));
        }
        Ok((sent, text?))
    }
}

fn send(input: ChildStdin, requests: &[Vec<u8>]) -> io::Result<()> {
    let mut input = BufWriter::with_capacity(1 << 16, input);
    for request in requests {
        capture::write_entry(&mut input, request)?;
    }
    input.flush()
}

fn receive(child: &mut Child) -> io::Result<String> {
    let mut text = String::new();
    let mut output = child.stdout.take().expect("standard output is a pipe");
    output.read_to_string(&mut text)?;
    Ok(text)
}

/// Takes the numbers off the lines, and the last line, which counts them.
fn numbered(text: &str, count: usize) -> io::Result<Vec<String>> {
    let mut lines: Vec<&str> = text.lines().collect();
    let last = lines.pop().unwrap_or("");
    if last != format!("end {count}") || lines.len() != count {
        let said = format!("{} lines, then '{last}'", lines.len());
        return Err(Error::other(format!(
            "{count} requests, and the probe said {said}"
        )));
    }
    let unnumbered = |(i, line): (usize, &&str)| {
        let rest = line.strip_prefix(&format!("{} ", i + 1));
        // A wrong number is kept, so that the line differs from every answer.
        rest.unwrap_or(line).to_string()
    };
    Ok(lines.iter().enumerate().map(unnumbered).collect())
}
