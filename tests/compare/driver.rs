//! The driver as a running process: a case is sent whole, then its answers are read one by one.

use crate::reference::OpenFile;
use crate::script::Asked;
use std::io::{self, BufReader, Read, Write};
use std::process::{Child, ChildStdout, Command, Stdio};

/// A running driver.
pub struct Driver {
    child: Child,
    answers: BufReader<ChildStdout>,
}

/// What the library gave: every field in the header's order, after a call that may change the file its bytes, and after
/// a call through a record the record.
pub struct Given {
    pub fields: Vec<u64>,
    pub after: Option<Vec<u8>>,
    pub held: Option<OpenFile>,
}

impl Driver {
    /// Starts a driver by its command.
    pub fn start(command: &[String]) -> io::Result<Driver> {
        let mut child =
            Command::new(&command[0]).args(&command[1..]).stdin(Stdio::piped()).stdout(Stdio::piped()).spawn()?;
        let answers = child.stdout.take().ok_or(io::ErrorKind::BrokenPipe)?;
        Ok(Driver { child, answers: BufReader::with_capacity(1 << 16, answers) })
    }

    /// Sends a case: its size and its steps.
    pub fn send(&mut self, message: &[u8]) -> io::Result<()> {
        let to = self.child.stdin.as_mut().ok_or(io::ErrorKind::BrokenPipe)?;
        to.write_all(&(message.len() as u64).to_le_bytes())?;
        to.write_all(message)?;
        to.flush()
    }

    /// Reads the answer to a call.
    pub fn answer(&mut self, asked: &Asked) -> io::Result<Given> {
        let fields = asked.answer.fields.iter().map(|_| self.number()).collect::<io::Result<Vec<u64>>>()?;
        let (mut after, mut held) = (None, None);
        if asked.after.is_some() {
            let mut bytes = vec![0; self.number()? as usize];
            self.answers.read_exact(&mut bytes)?;
            after = Some(bytes);
        }
        if let Some(mut record) = asked.held {
            for field in &mut record {
                *field = self.number()?;
            }
            held = Some(record);
        }
        Ok(Given { fields, after, held })
    }

    /// Reads one number of an answer.
    fn number(&mut self) -> io::Result<u64> {
        let mut bytes = [0; 8];
        self.answers.read_exact(&mut bytes)?;
        Ok(u64::from_le_bytes(bytes))
    }

    /// Closes the driver's input and says how it ended.
    pub fn end(mut self) -> String {
        drop(self.child.stdin.take());
        match self.child.wait() {
            Ok(status) => status.to_string(),
            Err(error) => error.to_string(),
        }
    }
}
