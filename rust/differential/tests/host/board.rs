//! A board: a host, and the files that stand for its plan, its readings and its chip; and a blank
//! chip onto which that is folded.

use std::fs;
use std::os::unix::process::ExitStatusExt;
use std::path::{Path, PathBuf};
use std::process::{Child, Command, Output, Stdio};
use std::thread::sleep;
use std::time::Duration;

use reference::journal::{self, Chip, ERASED, PAGE_CHIP};

const SIGKILL: i32 = 9;

pub struct Board {
    host: PathBuf,
    folder: PathBuf,
    plan: Vec<u8>,
    chip_len: usize,
    /// The chip's page length, by which its kind is known.
    pub page: usize,
}

/// When the host or the fold tool is killed.
#[derive(Clone, Copy)]
pub enum Cut {
    Never,
    /// From outside, so long after its start.
    After(Duration),
    /// From outside, as soon as so many bytes of the chip are seen to differ from what they were at
    /// its start.
    Changed(usize),
    /// By itself, before the chip byte, page or flush of this number (one of `building::cut_host`
    /// or `building::cut_fold_tool`).
    Before(usize),
}

/// What came of one start of the host.
pub struct Life {
    pub outputs: Vec<(u32, i32)>,
    pub end: End,
}

/// How it ended, and what it wrote to standard error.
#[derive(Debug, PartialEq, Eq)]
pub enum End {
    Killed,
    Done(String),
    Failed(String),
}

impl Board {
    /// A board with an erased chip. Its files lie in the folder.
    pub fn new(
        host: &Path,
        folder: &Path,
        plan: &[u8],
        readings: &[i32],
        chip_len: usize,
        page: usize,
    ) -> Board {
        let board = Board {
            host: host.to_path_buf(),
            folder: folder.to_path_buf(),
            plan: plan.to_vec(),
            chip_len,
            page,
        };
        board.write("plan", plan);
        board.set_readings(readings);
        board.erase();
        board
    }

    pub fn set_readings(&self, readings: &[i32]) {
        let bytes: Vec<u8> = readings.iter().flat_map(|r| r.to_le_bytes()).collect();
        self.write("readings", &bytes);
    }

    pub fn erase(&self) {
        self.set_chip(&vec![ERASED; self.chip_len]);
    }

    pub fn set_chip(&self, chip: &[u8]) {
        self.write("chip", chip);
    }

    pub fn chip(&self) -> Vec<u8> {
        self.read("chip")
    }

    /// Puts a chip beside the board's, to be folded onto.
    pub fn set_new_chip(&self, chip: &[u8]) {
        self.write("new", chip);
    }

    pub fn new_chip(&self) -> Vec<u8> {
        self.read("new")
    }

    /// What the chip holds, as the reference reads it, or its refusal.
    pub fn contents(&self) -> Result<Chip, u32> {
        journal::read(&self.plan, &self.chip(), self.page)
    }

    /// Starts the host once, with a pause of so many microseconds for each chip byte: a page takes
    /// as long as its bytes.
    pub fn start(&self, pause: u32, cut: Cut) -> Life {
        let mut command = self.command(&self.host, &[]);
        command.arg((pause * self.page as u32).to_string());
        self.live(command, "chip", cut)
    }

    /// Starts the fold tool once, which folds the board's chip onto the new one.
    pub fn fold(&self, tool: &Path, pause: u32, cut: Cut) -> End {
        let mut command = self.in_folder(tool);
        command.args(["plan", "chip", "new"]).arg(pause.to_string());
        self.live(command, "new", cut).end
    }

    /// Starts the notes tool once, for the board's chip, and gives what it lists and how it ended.
    pub fn notes(&self, tool: &Path) -> (String, End) {
        let mut command = self.in_folder(tool);
        if self.page == PAGE_CHIP {
            command.arg("-p");
        }
        command.args(["plan", "chip"]);
        let output = command.output().expect("the program can be started");
        let text = String::from_utf8(output.stdout.clone()).expect("a list is text");
        (text, End::of(&output))
    }

    /// Lets a program live that writes to this chip, until it ends or is killed.
    fn live(&self, mut command: Command, chip: &str, cut: Cut) -> Life {
        if let Cut::Before(event) = cut {
            command.env("PITSKELO_CUT", event.to_string());
        }
        let before = self.read(chip);
        let mut child = command.spawn().expect("the program can be started");
        match cut {
            Cut::Never | Cut::Before(_) => {}
            Cut::After(delay) => {
                sleep(delay);
                kill(&mut child);
            }
            Cut::Changed(bytes) => {
                self.watch(&mut child, chip, &before, bytes);
                kill(&mut child);
            }
        }
        let output = child.wait_with_output().expect("the program ends");
        Life::of(&output)
    }

    /// Starts the host under another program, such as valgrind with these arguments.
    pub fn start_under(&self, program: &str, arguments: &[&str]) -> Life {
        let host = self.host.to_str().expect("a path of text");
        let mut command = self.command(Path::new(program), &[arguments, &[host]].concat());
        Life::of(&command.output().expect("the program can be started"))
    }

    /// Waits until so many bytes of the chip have changed, or the program has ended.
    fn watch(&self, child: &mut Child, chip: &str, before: &[u8], bytes: usize) {
        let changed = || {
            let now = self.read(chip);
            before.iter().zip(&now).filter(|(b, n)| b != n).count()
        };
        while changed() < bytes && matches!(child.try_wait(), Ok(None)) {
            sleep(Duration::from_micros(200));
        }
    }

    fn command(&self, program: &Path, first: &[&str]) -> Command {
        let mut command = self.in_folder(program);
        command.args(first);
        if self.page == PAGE_CHIP {
            command.arg("-p");
        }
        command.args(["plan", "chip", "readings"]);
        command
    }

    fn in_folder(&self, program: &Path) -> Command {
        let mut command = Command::new(program);
        command.current_dir(&self.folder);
        command.stdin(Stdio::null());
        command.stdout(Stdio::piped());
        command.stderr(Stdio::piped());
        command
    }

    fn read(&self, name: &str) -> Vec<u8> {
        fs::read(self.folder.join(name)).expect("the board's files can be read")
    }

    fn write(&self, name: &str, bytes: &[u8]) {
        fs::write(self.folder.join(name), bytes).expect("the board's files can be written");
    }
}

/// Kills the program, which may have ended by itself.
fn kill(child: &mut Child) {
    if let Err(error) = child.kill() {
        assert!(matches!(child.try_wait(), Ok(Some(_))), "{error}");
    }
}

impl Life {
    fn of(output: &Output) -> Life {
        let text = String::from_utf8(output.stdout.clone()).expect("outputs are text");
        assert!(text.is_empty() || text.ends_with('\n'), "a part of a line");
        Life {
            outputs: text.lines().map(numbered).collect(),
            end: End::of(output),
        }
    }
}

impl End {
    fn of(output: &Output) -> End {
        let told = String::from_utf8_lossy(&output.stderr).into_owned();
        match (output.status.signal(), output.status.success()) {
            (Some(SIGKILL), _) => End::Killed,
            (None, true) => End::Done(told),
            _ => End::Failed(format!("{}: {told}", output.status)),
        }
    }
}

/// A line `number value`.
fn numbered(line: &str) -> (u32, i32) {
    let parsed = line
        .split_once(' ')
        .and_then(|(number, value)| Some((number.parse().ok()?, value.parse().ok()?)));
    parsed.unwrap_or_else(|| panic!("no numbered output: {line:?}"))
}
