//! The driver: a process that calls the proved functions, asked and answered in the form that
//! tests/driver/driver.c describes.

use crate::cases::names_in_use;
use crate::request::Request;
use std::collections::HashMap;
use std::io::{BufRead, BufReader, Error, ErrorKind, Read, Result, Write};
use std::os::fd::OwnedFd;
use std::os::unix::net::UnixStream;
use std::process::{Child, ChildStdin, Command, Stdio};
use std::sync::mpsc::{channel, Sender};
use std::thread;
use std::time::Duration;

const SEND_ANSWERS: u8 = 0;
const ANSWERS_AT_ONCE: usize = 64 * 1024;
/// A driver that gives nothing for so long answered with too few bytes, or hangs.
const LONGEST_WAIT: Duration = Duration::from_secs(60);

/// The byte that stands for a call's name.
#[derive(Clone, Copy, Debug, PartialEq, Eq)]
pub struct Call(u8);

impl Call {
    /// Appends this call with its arguments.
    pub fn add(self, request: &Request, calls: &mut Vec<u8>) {
        calls.push(self.0);
        calls.extend_from_slice(&request.bytes);
    }
}

pub struct Driver {
    child: Child,
    calls: HashMap<String, Call>,
    requests: Sender<Vec<u8>>,
    answers: BufReader<UnixStream>,
}

impl Driver {
    /// Starts the driver by a command of one or more words, as an emulator and its program.
    pub fn start(command: &[String]) -> Result<Driver> {
        Driver::start_waiting(command, LONGEST_WAIT)
    }

    fn start_waiting(command: &[String], longest: Duration) -> Result<Driver> {
        // Not a pipe, which would be waited for without end.
        let (answers, output) = UnixStream::pair()?;
        answers.set_read_timeout(Some(longest))?;
        let answers = BufReader::with_capacity(ANSWERS_AT_ONCE, answers);
        let mut child = Command::new(&command[0])
            .args(&command[1..])
            .stdin(Stdio::piped())
            .stdout(OwnedFd::from(output))
            .spawn()?;
        let stdin = child.stdin.take().expect("a pipe was asked for");
        let (requests, incoming) = channel();
        // A thread of its own writes, so that both sides may be full at the same time.
        thread::spawn(move || write_all(stdin, incoming.into_iter()));
        let mut driver = Driver { child, calls: HashMap::new(), requests, answers };
        driver.calls = read_names(&mut driver.answers)?;
        all_in_use(&driver.calls, &names_in_use())?;
        Ok(driver)
    }

    pub fn call(&self, name: &str) -> Result<Call> {
        let call = self.calls.get(name).copied();
        call.ok_or_else(|| Error::other(format!("the driver has no call '{name}'")))
    }

    /// Hands over calls; their answers come in order.
    pub fn ask(&mut self, mut calls: Vec<u8>) {
        calls.push(SEND_ANSWERS);
        // Where the driver has ended, the missing answer tells.
        let _ = self.requests.send(calls);
    }

    /// Hands over one call.
    pub fn ask_one(&mut self, name: &str, request: &Request) -> Result<()> {
        let mut calls = Vec::with_capacity(request.bytes.len() + 2);
        self.call(name)?.add(request, &mut calls);
        self.ask(calls);
        Ok(())
    }

    /// The next bytes of what was answered.
    pub fn answer(&mut self, size: usize) -> Result<Vec<u8>> {
        let mut bytes = vec![0; size];
        self.answer_to(&mut bytes)?;
        Ok(bytes)
    }

    /// The next answer that begins with its size.
    pub fn sized_answer(&mut self) -> Result<Vec<u8>> {
        let mut size = [0; 8];
        self.answer_to(&mut size)?;
        self.answer(u64::from_le_bytes(size) as usize)
    }

    pub fn answer_to(&mut self, bytes: &mut [u8]) -> Result<()> {
        self.answers.read_exact(bytes).map_err(why_no_answer)
    }
}

fn why_no_answer(error: Error) -> Error {
    match error.kind() {
        ErrorKind::UnexpectedEof => Error::other("the driver ended before its answer"),
        ErrorKind::WouldBlock | ErrorKind::TimedOut => {
            Error::other("the driver answers with too few bytes, or hangs")
        }
        _ => error,
    }
}

/// The names that a driver has, up to the empty line.
fn read_names(output: &mut impl BufRead) -> Result<HashMap<String, Call>> {
    let mut calls = HashMap::new();
    for line in output.lines() {
        let name = line.map_err(why_no_answer)?;
        if name.is_empty() {
            return Ok(calls);
        }
        let byte = u8::try_from(calls.len() + 1)
            .map_err(|_| Error::other("the driver has more calls than a byte can stand for"))?;
        if calls.contains_key(&name) {
            return Err(Error::other(format!("the driver has two calls '{name}'")));
        }
        calls.insert(name, Call(byte));
    }
    Err(Error::other("the driver ended before it had told its calls"))
}

/// The driver and the harness have the same calls.
fn all_in_use(calls: &HashMap<String, Call>, in_use: &[&str]) -> Result<()> {
    if let Some(missing) = in_use.iter().find(|&&name| !calls.contains_key(name)) {
        return Err(Error::other(format!("the driver has no call '{missing}'")));
    }
    let mut left: Vec<&String> =
        calls.keys().filter(|name| !in_use.contains(&name.as_str())).collect();
    left.sort();
    match left.first() {
        Some(name) => {
            Err(Error::other(format!("the driver's call '{name}' is compared nowhere here")))
        }
        None => Ok(()),
    }
}

fn write_all(mut stdin: ChildStdin, calls: impl Iterator<Item = Vec<u8>>) -> Result<()> {
    for bytes in calls {
        stdin.write_all(&bytes)?;
        stdin.flush()?;
    }
    Ok(())
}

impl Drop for Driver {
    /// Nobody waits for an answer any more, and a driver that hangs does not end by itself.
    fn drop(&mut self) {
        let _ = self.child.kill();
        let _ = self.child.wait();
    }
}

#[cfg(test)]
mod tests {
    use super::*;

    fn told(names: &str) -> Result<HashMap<String, Call>> {
        read_names(&mut names.as_bytes())
    }

    #[test]
    fn a_name_is_known_by_its_line() {
        let calls = told("take\nsend\n\nanswers").unwrap();
        assert_eq!((calls["take"], calls["send"], calls.len()), (Call(1), Call(2), 2));
    }

    #[test]
    fn names_that_cannot_be_right_are_refused() {
        let refused = |names: &str| told(names).unwrap_err().to_string();
        assert_eq!(refused("take\nsend\n"), "the driver ended before it had told its calls");
        assert_eq!(refused("take\ntake\n\n"), "the driver has two calls 'take'");
        let many: String = (0..256).map(|number| format!("call{number}\n")).collect();
        assert_eq!(refused(&many), "the driver has more calls than a byte can stand for");
    }

    #[test]
    fn a_driver_that_gives_too_few_bytes_is_not_waited_for_without_end() {
        let command = ["sh", "-c", "printf ta; exec sleep 600"].map(String::from);
        let driver = Driver::start_waiting(&command, Duration::from_millis(100));
        let why = "the driver answers with too few bytes, or hangs";
        assert_eq!(driver.err().unwrap().to_string(), why);
    }

    #[test]
    fn both_sides_have_the_same_names() {
        let calls = told("take\nsend\n\n").unwrap();
        let refused = |in_use: &[&str]| all_in_use(&calls, in_use).unwrap_err().to_string();
        assert!(all_in_use(&calls, &["send", "take"]).is_ok());
        assert_eq!(refused(&["send", "take", "gap"]), "the driver has no call 'gap'");
        assert_eq!(refused(&["take"]), "the driver's call 'send' is compared nowhere here");
    }
}
