//! The board in qemu-system-arm: power, the serial line, and power cuts.

use std::io::{BufRead, BufReader, ErrorKind, Read, Write};
use std::os::unix::net::{UnixListener, UnixStream};
use std::path::Path;
use std::process::{Child, ChildStdin, Command, Stdio};
use std::sync::atomic::{AtomicUsize, Ordering};
use std::sync::mpsc::{Receiver, RecvTimeoutError, channel};
use std::time::{Duration, Instant};
use std::{env, fs, process, thread};

/// What the board prints when it waits for a line.
const PROMPT: &str = "\r\n> ";

/// How long a start, or an answer that must come, may take on a busy machine.
const PATIENCE: Duration = Duration::from_secs(60);

pub struct Machine {
    qemu: Child,
    typed: ChildStdin,
    printed: Receiver<Vec<u8>>,
    monitor: BufReader<UnixStream>,
    /// Printed since the last prompt.
    heard: Vec<u8>,
}

impl Machine {
    /// Power comes on, with this chip on the board.
    pub fn on(firmware: &Path, chip: &Path) -> Machine {
        static STARTED: AtomicUsize = AtomicUsize::new(0);
        let number = STARTED.fetch_add(1, Ordering::Relaxed);
        let socket = env::temp_dir().join(format!("grommetide-board-{}-{number}", process::id()));
        let listener = UnixListener::bind(&socket).expect("a socket can be made");
        let mut qemu = Command::new("qemu-system-arm")
            .args(["-M", "ast1030-evb", "-nographic", "-monitor", "none", "-serial", "stdio", "-S", "-kernel"])
            .arg(firmware)
            .args(["-drive", &format!("file={},format=raw,if=mtd", chip.display().to_string().replace(',', ",,"))])
            .args(["-qmp", &format!("unix:{}", socket.display())])
            .stdin(Stdio::piped())
            .stdout(Stdio::piped())
            .spawn()
            .unwrap_or_else(|error| panic!("qemu-system-arm (Debian's package of this name): {error}"));
        let monitor = BufReader::new(accepted(&listener, &mut qemu));
        fs::remove_file(&socket).expect("the socket was there");
        let typed = qemu.stdin.take().expect("a pipe");
        let printed = heard_from(qemu.stdout.take().expect("a pipe"));
        let mut machine = Machine { qemu, typed, printed, monitor, heard: Vec::new() };
        machine.order("qmp_capabilities");
        machine.order("cont");
        machine
    }

    /// Types these characters.
    pub fn send(&mut self, text: &str) {
        self.typed.write_all(text.as_bytes()).and_then(|()| self.typed.flush()).expect("QEMU takes what is typed");
    }

    /// What is printed up to the next prompt, which must come.
    pub fn hear(&mut self) -> String {
        let heard = self.hear_until(Instant::now() + PATIENCE);
        heard.unwrap_or_else(|| panic!("no prompt after: {}", String::from_utf8_lossy(&self.heard)))
    }

    /// What is printed up to the next prompt, if it comes before this time.
    pub fn hear_until(&mut self, end: Instant) -> Option<String> {
        while !self.heard.ends_with(PROMPT.as_bytes()) {
            match self.printed.recv_timeout(end.saturating_duration_since(Instant::now())) {
                Ok(bytes) => self.heard.extend(bytes),
                Err(RecvTimeoutError::Timeout) => return None,
                Err(RecvTimeoutError::Disconnected) => panic!("QEMU ended by itself"),
            }
        }
        let heard = String::from_utf8(std::mem::take(&mut self.heard)).expect("ASCII");
        Some(heard[..heard.len() - PROMPT.len()].to_string())
    }

    /// The lines that answer a command, without its echo.
    pub fn answer(&mut self, command: &str) -> Vec<String> {
        self.send(&format!("{command}\r"));
        let heard = self.hear();
        lines_after(&heard, command).unwrap_or_else(|| panic!("no echo of {command}: {heard}"))
    }

    /// Waits until what the board has printed since the last prompt is enough.
    pub fn wait_until(&mut self, enough: impl Fn(&str) -> bool) {
        let end = Instant::now() + PATIENCE;
        loop {
            let heard = String::from_utf8_lossy(&self.heard).into_owned();
            if enough(&heard) {
                return;
            }
            let left = end.saturating_duration_since(Instant::now());
            self.heard.extend(self.printed.recv_timeout(left).unwrap_or_else(|error| panic!("{error}: {heard}")));
        }
    }

    /// Power goes. The processor is stopped first and QEMU writes to the chip's file what the chip has done by then: if QEMU
    /// were killed the file could lack it. What was printed since the last prompt comes back.
    pub fn cut(mut self) -> String {
        self.order("stop");
        self.write("quit");
        self.qemu.wait().expect("QEMU ends");
        let mut heard = std::mem::take(&mut self.heard);
        heard.extend(self.printed.iter().flatten());
        String::from_utf8(heard).expect("ASCII")
    }

    fn write(&mut self, command: &str) {
        let line = format!("{{\"execute\": \"{command}\"}}\n");
        self.monitor.get_mut().write_all(line.as_bytes()).expect("QEMU takes commands");
    }

    /// A command to QEMU, which is done once this comes back.
    fn order(&mut self, command: &str) {
        self.write(command);
        let mut line = String::new();
        while !line.contains("\"return\"") {
            line.clear();
            assert_ne!(self.monitor.read_line(&mut line).expect("QEMU answers"), 0, "QEMU ended at {command}");
            assert!(!line.contains("\"error\""), "{command}: {line}");
        }
    }
}

/// A test that fails leaves no QEMU behind.
impl Drop for Machine {
    fn drop(&mut self) {
        if self.qemu.try_wait().is_ok_and(|ended| ended.is_none()) {
            let _ = self.qemu.kill();
            let _ = self.qemu.wait();
        }
    }
}

/// The lines behind a command's echo, whole ones only; None if the echo is not whole.
pub fn lines_after(heard: &str, command: &str) -> Option<Vec<String>> {
    let (echo, rest) = heard.split_once("\r\n").unwrap_or((heard, ""));
    (echo == command).then(|| rest.split("\r\n").map(str::to_string).collect())
}

fn accepted(listener: &UnixListener, qemu: &mut Child) -> UnixStream {
    listener.set_nonblocking(true).expect("a socket");
    let end = Instant::now() + PATIENCE;
    loop {
        match listener.accept() {
            Ok((stream, _)) => {
                stream.set_nonblocking(false).expect("a socket");
                return stream;
            }
            Err(error) => assert_eq!(error.kind(), ErrorKind::WouldBlock, "{error}"),
        }
        assert!(qemu.try_wait().expect("a child").is_none(), "QEMU did not start");
        assert!(Instant::now() < end, "QEMU does not come up");
        thread::sleep(Duration::from_millis(1));
    }
}

/// A thread that reads all that the board prints.
fn heard_from(mut output: impl Read + Send + 'static) -> Receiver<Vec<u8>> {
    let (sender, receiver) = channel();
    thread::spawn(move || {
        let mut buffer = [0; 4096];
        while let Ok(count @ 1..) = output.read(&mut buffer) {
            if sender.send(buffer[..count].to_vec()).is_err() {
                break;
            }
        }
    });
    receiver
}
