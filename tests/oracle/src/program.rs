//! The program under test: one run for each text or some questions, stopped after a time limit.

use std::io::{Read, Write};
use std::process::{Child, Command, Stdio};
use std::sync::{Arc, Mutex};
use std::time::{Duration, Instant};

const LIMIT: Duration = Duration::from_secs(120);
/// What a pipe takes without a reader.
const PIPE: usize = 60_000;
/// No more of an output is read. The longest right one to a text has 8,511 bytes; one to questions is about as long as they are.
const LONGEST_OUTPUT: u64 = 300_000;

/// The running child of one worker, for the watch to stop.
#[derive(Clone, Default)]
pub struct Running(Arc<Mutex<Option<(Child, Instant)>>>);

impl Running {
    /// Stops a child that runs over the limit.
    pub fn watch(&self) {
        if let Some((child, start)) = self.0.lock().expect("no worker panics with the lock").as_mut() {
            if start.elapsed() > LIMIT {
                child.kill().ok();
            }
        }
    }

    /// The program's standard output for a text on its standard input, which may come in two pieces.
    pub fn run(&self, program: &[String], text: &[u8], in_pieces: bool) -> Result<Vec<u8>, String> {
        let mut child = Command::new(&program[0])
            .args(&program[1..])
            .stdin(Stdio::piped())
            .stdout(Stdio::piped())
            .spawn()
            .map_err(|error| format!("{}: {error}", program[0]))?;
        let mut stdin = child.stdin.take().expect("piped");
        let stdout = child.stdout.take().expect("piped");
        *self.0.lock().expect("no panic with the lock") = Some((child, Instant::now()));
        let mut output = Vec::new();
        std::thread::scope(|scope| {
            // A program may stop reading before the end: that is no fault of its own.
            if text.len() > PIPE {
                scope.spawn(move || stdin.write_all(text).ok());
            } else if in_pieces {
                let (first, second) = text.split_at(text.len() / 2);
                stdin.write_all(first).ok();
                std::thread::sleep(Duration::from_millis(3));
                stdin.write_all(second).ok();
                drop(stdin);
            } else {
                stdin.write_all(text).ok();
                drop(stdin);
            }
            stdout.take(LONGEST_OUTPUT).read_to_end(&mut output).ok();
        });
        self.ended(output)
    }

    fn ended(&self, output: Vec<u8>) -> Result<Vec<u8>, String> {
        let (mut child, start) = self.0.lock().expect("no panic with the lock").take().expect("the worker's child");
        let status = child.wait().map_err(|error| error.to_string())?;
        if status.success() {
            Ok(output)
        } else if start.elapsed() > LIMIT {
            Err(format!("stopped after {} seconds", LIMIT.as_secs()))
        } else {
            Err(format!("the program ended with {status}"))
        }
    }
}
