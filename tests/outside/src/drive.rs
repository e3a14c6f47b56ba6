//! Runs the program on each case in a folder of its own and judges what it writes: lamps are compared byte by byte, runs are checked.

use std::collections::{BTreeMap, BTreeSet};
use std::fs;
use std::os::unix::fs::{symlink, PermissionsExt};
use std::os::unix::process::CommandExt;
use std::path::{Path, PathBuf};
use std::process::{Command, Stdio};
use std::sync::atomic::{AtomicUsize, Ordering};
use std::sync::Mutex;
use std::time::{Duration, Instant};

use crate::cases::{case, forbidden, Case, FAMILIES};
use crate::watch::{output, File, Files};

/// The longest that the program may take for one case.
const PATIENCE: Duration = Duration::from_secs(60);

/// Puts a case's files into a folder.
pub fn lay_out(case: &Case, folder: &Path) {
    for (name, file) in case.files.each() {
        let path = folder.join(name);
        match file {
            File::Bytes(bytes) => fs::write(&path, bytes).unwrap(),
            File::Linked(bytes) => {
                fs::write(folder.join(format!("{}.elsewhere", name)), bytes).unwrap();
                symlink(format!("{}.elsewhere", name), &path).unwrap();
            }
            File::Missing => {}
            File::Folder => fs::create_dir(&path).unwrap(),
            File::Dangling => symlink("nowhere", &path).unwrap(),
            // Opens, and fails at the first byte.
            File::Failing => symlink("/proc/self/mem", &path).unwrap(),
            File::Forbidden(bytes) => {
                fs::write(&path, bytes).unwrap();
                fs::set_permissions(&path, fs::Permissions::from_mode(0)).unwrap();
            }
        }
    }
}

/// What the program wrote, or what else it did.
fn run(program: &[String], folder: &Path, user: Option<u32>) -> Result<String, String> {
    let (out, err) = (folder.with_extension("out"), folder.with_extension("err"));
    let mut command = Command::new(&program[0]);
    command.args(&program[1..]).current_dir(folder).stdin(Stdio::null());
    command.stdout(fs::File::create(&out).unwrap()).stderr(fs::File::create(&err).unwrap());
    if let Some(user) = user {
        command.uid(user);
    }
    let mut child = command.spawn().map_err(|e| format!("can't be started: {}", e))?;
    let began = Instant::now();
    let status = loop {
        if let Some(status) = child.try_wait().unwrap() {
            break status;
        }
        if began.elapsed() > PATIENCE {
            child.kill().unwrap();
            child.wait().unwrap();
            return Err(format!("still running after {} s", PATIENCE.as_secs()));
        }
        std::thread::sleep(Duration::from_micros(150));
    };
    let wrote = String::from_utf8_lossy(&fs::read(&out).unwrap()).into_owned();
    let said = String::from_utf8_lossy(&fs::read(&err).unwrap()).into_owned();
    fs::remove_file(&out).unwrap();
    fs::remove_file(&err).unwrap();
    if status.code() != Some(0) {
        return Err(format!("ended with {}, after {:?}; {}", status, wrote, said.trim()));
    }
    if !said.is_empty() {
        return Err(format!("wrote to the error stream: {}", said.trim()));
    }
    Ok(wrote)
}

/// What a program writes for some files, in a folder of their own.
pub fn wrote(program: &[String], files: Files) -> Result<String, String> {
    let room = Room::new();
    let folder = room.0.join("case");
    fs::create_dir(&folder).unwrap();
    lay_out(&Case { kind: "apart", files, given: None }, &folder);
    run(program, &folder, None)
}

/// The first line in which two outputs differ.
fn difference(wanted: &str, got: &str) -> String {
    let (a, b): (Vec<&str>, Vec<&str>) = (wanted.split_inclusive('\n').collect(), got.split_inclusive('\n').collect());
    let line = (0..a.len().max(b.len())).find(|i| a.get(*i) != b.get(*i)).unwrap_or(0);
    format!("line {}: wanted {:?}, got {:?}", line + 1, a.get(line).unwrap_or(&"nothing"), b.get(line).unwrap_or(&"nothing"))
}

/// What is wrong with what the program wrote for a case, if anything.
pub type Judge = fn(&Case, &str) -> Option<String>;

/// The lamps: the whole output is known.
pub fn lamps(case: &Case, got: &str) -> Option<String> {
    let wanted = output(&case.files);
    match case.given {
        Some(given) if given != wanted => Some(format!("our own reading is not the paper's: {}", difference(given, &wanted))),
        _ if got != wanted => Some(difference(&wanted, got)),
        _ => None,
    }
}

/// The table written anew: the whole output is known.
pub fn table(case: &Case, got: &str) -> Option<String> {
    let wanted = crate::watch::table(&case.files);
    (got != wanted).then(|| difference(&wanted, got))
}

/// How runs go on: each run is checked.
pub fn runs(case: &Case, got: &str) -> Option<String> {
    crate::runs::fault(&case.files, got)
}

/// For each family, how many cases it has, and the ways in which their texts are refused, each text by itself.
#[derive(Default)]
pub struct Tally(BTreeMap<&'static str, (usize, BTreeSet<[usize; 3]>)>);

impl Tally {
    fn add(&mut self, case: &Case) {
        let family = self.0.entry(case.kind).or_default();
        family.0 += 1;
        family.1.insert(case.files.refusals());
    }

    /// All families in a line, or the first that says too little.
    pub fn told(&self) -> Result<String, String> {
        let mut said = Vec::new();
        for (kind, least) in FAMILIES {
            let (cases, ways) = self.0.get(kind).map_or((0, 0), |(cases, ways)| (*cases, ways.len()));
            if ways < *least {
                return Err(format!("the {} cases of the family '{}' are refused in {} ways, and {} are wanted", cases, kind, ways, least));
            }
            said.push(format!("{} {} ({})", kind, cases, ways));
        }
        Ok(said.join(", "))
    }
}

pub struct Drive {
    pub program: Vec<String>,
    pub judge: Judge,
    pub seed: u64,
    pub cases: usize,
    /// Where a case that differs is kept.
    pub keep: PathBuf,
}

impl Drive {
    fn one(&self, name: &str, case: &Case, room: &Path, user: Option<u32>) -> Result<(), String> {
        let folder = room.join(name);
        fs::create_dir(&folder).unwrap();
        lay_out(case, &folder);
        let wrote = run(&self.program, &folder, user);
        let got = wrote.clone().and_then(|wrote| (self.judge)(case, &wrote).map_or(Ok(()), Err));
        if let Err(why) = &got {
            let kept = self.keep.join(name);
            let _ = fs::remove_dir_all(&kept);
            fs::create_dir_all(&kept).unwrap();
            lay_out(case, &kept);
            fs::write(kept.join("expected.txt"), output(&case.files)).unwrap();
            fs::write(kept.join("wrote.txt"), wrote.unwrap_or_default()).unwrap();
            return Err(format!("case {} ({}), kept in {}: {}", name, case.kind, kept.display(), why));
        }
        fs::remove_dir_all(&folder).unwrap();
        Ok(())
    }

    /// All cases, on as many threads as there are processors. Gives how many of each family agree, or up to ten differences.
    pub fn all(&self) -> Result<Tally, Vec<String>> {
        let room = Room::new();
        let next = AtomicUsize::new(0);
        let wrong: Mutex<Vec<String>> = Mutex::new(Vec::new());
        let tally: Mutex<Tally> = Mutex::new(Tally::default());
        let workers = std::thread::available_parallelism().map_or(1, |n| n.get()).min(8);
        std::thread::scope(|scope| {
            for _ in 0..workers {
                scope.spawn(|| loop {
                    let number = next.fetch_add(1, Ordering::SeqCst);
                    if number >= self.cases || wrong.lock().unwrap().len() >= 10 {
                        break;
                    }
                    let case = case(self.seed, number);
                    match self.one(&number.to_string(), &case, &room.0, None) {
                        Ok(()) => tally.lock().unwrap().add(&case),
                        Err(why) => wrong.lock().unwrap().push(why),
                    }
                });
            }
        });
        let wrong = wrong.into_inner().unwrap();
        if wrong.is_empty() { Ok(tally.into_inner().unwrap()) } else { Err(wrong) }
    }

    /// Files that may not be opened. A superuser may open all, so the program is then run as nobody, from a copy that nobody may run.
    pub fn forbidden(&self) -> Result<String, String> {
        let room = Room::new();
        let probe = room.0.join("probe");
        fs::write(&probe, b"x").unwrap();
        fs::set_permissions(&probe, fs::Permissions::from_mode(0)).unwrap();
        let user = if fs::read(&probe).is_ok() { Some(65534) } else { None };
        let mut drive = Drive { program: self.program.clone(), judge: self.judge, seed: self.seed, cases: 0, keep: self.keep.clone() };
        if user.is_some() {
            fs::set_permissions(&room.0, fs::Permissions::from_mode(0o755)).unwrap();
            for (k, word) in drive.program.iter_mut().enumerate() {
                if Path::new(word.as_str()).is_file() {
                    let copy = room.0.join(format!("program{}", k));
                    fs::copy(&word, &copy).unwrap();
                    fs::set_permissions(&copy, fs::Permissions::from_mode(0o755)).unwrap();
                    *word = copy.display().to_string();
                }
            }
            let trial = run(&drive.program, &room.0, user);
            if trial != Ok(String::from("refused=14 place=0\n")) {
                return Ok(format!("files that may not be opened are not tried here: as another user the program gives {:?}", trial));
            }
        }
        for number in 0..40 {
            drive.one(&format!("forbidden{}", number), &forbidden(number), &room.0, user)?;
        }
        Ok(String::from("40 cases with files that may not be opened agree"))
    }
}

/// A folder that is there only while it is used.
struct Room(PathBuf);

impl Room {
    fn new() -> Room {
        let path = std::env::temp_dir().join(format!("outside-{}-{:?}", std::process::id(), Instant::now()).replace(|c: char| !c.is_ascii_alphanumeric() && c != '/' && c != '-', ""));
        fs::create_dir_all(&path).unwrap();
        Room(path)
    }
}

impl Drop for Room {
    fn drop(&mut self) {
        let _ = fs::remove_dir_all(&self.0);
    }
}
