//! A bench program against the judge: its answers to batches of random scripts, byte for byte, and to inputs that end
//! oddly.

use std::fs::{self, File};
use std::path::PathBuf;
use std::process::{Command, ExitStatus, Stdio};
use std::sync::mpsc::sync_channel;
use std::time::{Duration, Instant};
use std::{env, io, process, thread};

use super::batch::{self, Batch};
use super::figures::Figures;
use super::{judged, report, Clash};
use crate::judge::{Follow, Judge};
use crate::script::play::{self, RECORDED};

/// Where inputs can end, and what a filter may stumble over.
const ENDS: [&[u8]; 13] = [
    b"",
    b"\n",
    b"\n\n#",
    b"state",
    b"state\n\n",
    b"preset m328p.timer0\nstate # the last line has no line feed",
    b"preset m328p.timer0\r\nstate\r\n\r",
    b"preset m328p.timer0\nnext 5\x00 110\nstate\x00\n\x00",
    b"state\tstate\n\tstate\n \n  state  ",
    b"\xff\xfe\nstate \xc3\x28\n#\xff\nstate",
    b"sched at 1 1 5\nsched pop 00000000000000000000000000000000005",
    b"record",
    b"preset m328p.timer0\nwrite 45 1 0 0\nadvance 1 30\nrecord\nadvance 256 110\nwtimsk 1 256 0\nwrites 110 1180C0000000000001ff\nconfig id=1\nrecord 3",
];

/// A program that answers a script on its standard input, and the folder for what it reads and writes.
pub struct Program {
    path: PathBuf,
    arguments: Vec<String>,
    folder: PathBuf,
}

struct Ran {
    wrote: Vec<u8>,
    /// What it kept in door.log.
    recorded: Option<Vec<u8>>,
    status: ExitStatus,
    time: Duration,
}

impl Program {
    pub fn new(path: &str, arguments: &[&str]) -> Result<Self, String> {
        let found = fs::canonicalize(path).map_err(|e| format!("cannot run {path}: {e}"))?;
        let folder = env::temp_dir().join(format!("oracle-{}", process::id()));
        fs::create_dir(&folder).map_err(|e| format!("cannot make {}: {e}", folder.display()))?;
        Ok(Self { path: found, arguments: arguments.iter().map(|a| a.to_string()).collect(), folder })
    }

    /// From file to file, so that the time is the program's alone.
    fn run(&self, script: &[u8]) -> Result<Ran, String> {
        self.try_run(script).map_err(|e| format!("cannot run {}: {e}", self.path.display()))
    }

    fn try_run(&self, script: &[u8]) -> io::Result<Ran> {
        let (from, to) = (self.folder.join("script"), self.folder.join("answers"));
        fs::write(&from, script)?;
        let kept = self.folder.join(RECORDED);
        if kept.exists() {
            fs::remove_file(&kept)?;
        }
        let mut command = Command::new(&self.path);
        command.current_dir(&self.folder).args(&self.arguments);
        command.stdin(File::open(&from)?).stdout(File::create(&to)?).stderr(Stdio::null());
        let begun = Instant::now();
        let status = command.status()?;
        let time = begun.elapsed();
        Ok(Ran { wrote: fs::read(&to)?, recorded: fs::read(&kept).ok(), status, time })
    }

    /// What it answers to a script; an error where it ends in failure.
    pub fn answer(&self, script: &[u8]) -> Result<Vec<u8>, String> {
        let ran = self.run(script)?;
        match ran.status.success() {
            true => Ok(ran.wrote),
            false => Err(format!("{} ends with {}", self.path.display(), ran.status)),
        }
    }

    /// What it keeps of a script in door.log.
    pub fn recorded(&self, lines: &[String]) -> Result<Option<Vec<u8>>, String> {
        let script: String = lines.iter().map(|line| format!("{line}\n")).collect();
        self.run(script.as_bytes()).map(|ran| ran.recorded)
    }

    /// The time that a batch took; an error where its answers are not the judge's.
    fn answers(&self, batch: &Batch) -> Result<Duration, String> {
        let ran = self.run(&batch.input)?;
        if !ran.status.success() || ran.wrote != batch.answers {
            return Err(self.blame(batch));
        }
        if ran.recorded != batch.recorded {
            return Err(format!(
                "seeds from {}: the answers agree, but not what {RECORDED} holds",
                batch.scripts[0].seed
            ));
        }
        Ok(ran.time)
    }

    /// The first script of a batch that the program fails on by itself; else the batch as a whole.
    fn blame(&self, batch: &Batch) -> String {
        let find = |lines: &[String], judged: &[Option<String>]| self.clash(lines, judged);
        for script in &batch.scripts {
            let judged = judged(&script.lines, &mut Figures::default());
            if let Some(found) = find(&script.lines, &judged) {
                return report(&format!("seed {}", script.seed), "program", &script.lines[..=found.line], find);
            }
        }
        let lines = batch.lines();
        let seeds = batch.scripts.iter().map(|script| script.seed);
        let whose = format!("seeds {} to {} together", seeds.clone().min().unwrap_or(0), seeds.max().unwrap_or(0));
        match find(&lines, &judged(&lines, &mut Figures::default())) {
            Some(found) => report(&whose, "program", &lines[..=found.line], find),
            None => format!("{whose}: judge and program disagree, but not when asked again"),
        }
    }

    /// The first line of a script that the program does not answer as the judge; the last where it ends in failure,
    /// since what it wrote then need not reach as far as it came.
    pub fn clash(&self, lines: &[String], judged: &[Option<String>]) -> Option<Clash> {
        let script: String = lines.iter().map(|line| format!("{line}\n")).collect();
        let ran = self.run(script.as_bytes()).expect("a program that has run before");
        let last = lines.len().checked_sub(1)?;
        if !ran.status.success() {
            return Some(Clash::new(last, &judged[last], &Some(ran.status.to_string())));
        }
        let mut wrote = ran.wrote.split_inclusive(|&b| b == b'\n');
        for (line, judge) in judged.iter().enumerate() {
            let Some(answer) = judge else { continue };
            let other = wrote.by_ref().take(answer.lines().count()).collect::<Vec<_>>().concat();
            if other != format!("{answer}\n").as_bytes() {
                return Some(Clash::new(line, judge, &Some(shown(&other))));
            }
        }
        wrote.next().map(|more| Clash::new(last, &judged[last], &Some(format!("and then {}", shown(more)))))
    }

    /// The inputs that end oddly.
    fn ends(&self) -> Result<(), String> {
        let long = |size: usize| [vec![b'x'; size], b"\nstate".to_vec()].concat();
        let padded = [vec![b' '; 495], b"state".to_vec()].concat();
        let longest = [long(500), long(501), long(100_000), padded, vec![b'#'; 501], vec![b'7'; 5_000]];
        for input in ENDS.iter().map(|end| end.to_vec()).chain(longest) {
            let mut wanted = Vec::new();
            let judge = Judge::new(Follow::Sheet).counting();
            let recorded = play::answer_all(judge, &input[..], &mut wanted).expect("answers in memory");
            let ran = self.run(&input)?;
            if !ran.status.success() || ran.wrote != wanted || ran.recorded != recorded {
                let (input, wanted, wrote) = (shown(&input), shown(&wanted), shown(&ran.wrote));
                return Err(format!("on the input\n\n{input}\n\njudge: {wanted}\nprogram: {wrote} ({})", ran.status));
            }
        }
        Ok(())
    }
}

impl Drop for Program {
    fn drop(&mut self) {
        // What is left behind in the folder for temporary files does no harm.
        let _ = fs::remove_dir_all(&self.folder);
    }
}

/// Bytes as they can be read on a screen, without the last line feed, and no more than can be taken in.
fn shown(bytes: &[u8]) -> String {
    let text = bytes.strip_suffix(b"\n").unwrap_or(bytes).escape_ascii().to_string();
    match text.char_indices().nth(1000) {
        Some((end, _)) => format!("{} and so on", &text[..end]),
        None => text,
    }
}

/// Compares until so many calls are done. The next batch is made while the program works on the last.
pub fn run(program: &Program, wanted: usize, first: u64) -> Result<(), String> {
    program.ends()?;
    let (sender, batches) = sync_channel(1);
    let (figures, time, lines) = thread::scope(|scope| {
        let maker = scope.spawn(move || batch::make(sender, wanted, first));
        let (mut time, mut lines) = (Duration::ZERO, 0);
        for batch in batches {
            time += program.answers(&batch)?;
            lines += batch.scripts.iter().map(|script| script.lines.len()).sum::<usize>();
        }
        let figures = maker.join().map_err(|_| "a check of the judge failed")??;
        Ok::<_, String>((figures, time, lines))
    })?;
    println!("{figures}");
    println!("the program alone: {lines} lines in {:.1} s by the clock{}", time.as_secs_f64(), rate(figures.calls()));
    Ok(())
}

/// The program's rate by its own processor time, where Linux tells that; the clock counts what else the machine did.
fn rate(calls: usize) -> String {
    match processor_time() {
        Some(time) => format!(", {time:.1} s of processor time, {:.0} calls a second of it", calls as f64 / time),
        None => String::new(),
    }
}

/// Seconds that the processes started here have used: `cutime` and `cstime` of proc(5), in hundredths.
fn processor_time() -> Option<f64> {
    let stat = fs::read_to_string("/proc/self/stat").ok()?;
    let after_name = stat.rsplit(')').next()?;
    let hundredths: f64 = after_name.split_whitespace().skip(13).take(2).filter_map(|t| t.parse::<f64>().ok()).sum();
    (hundredths > 0.0).then_some(hundredths / 100.0)
}
