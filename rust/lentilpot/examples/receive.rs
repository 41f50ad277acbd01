//! receive TABLE FILE DATE TIME TYPE CLOCK REPLIES [later]: receives a payment file, writes the replies into REPLIES and lists them.
//! 'later' is asked for where DATE is more than 31 days after the table's day, to which the table could not go back.
//! Exit status 0: served, and every reply is K; 1: refused, or some reply is E; 2: trouble. Standard error says why.
//!
//! The order of writes, and what it is for, is that of `samples/receive.c`: TABLE.lock; TABLE.new, empty; REPLIES.new, its
//! name into the lock, the replies into it; the table into TABLE.new, which takes the name TABLE; REPLIES.new takes the name REPLIES
//! and the lock goes; the replies are told.
use lentilpot::{at, Failure, Opening, Table, TABLE_SIZE};
use std::fs::{self, File, Metadata, OpenOptions, Permissions};
use std::io::{self, BufRead, BufReader, BufWriter, Read, Seek, Write};
use std::os::unix::fs::{fchown, MetadataExt, OpenOptionsExt, PermissionsExt};
use std::path::Path;
use std::process::ExitCode;

/// An error with the file's name, or with what was expected.
fn told(name: &str, why: impl std::fmt::Display) -> io::Error {
    io::Error::other(format!("{name}: {why}"))
}

/// A result, its error with the file's name.
fn of<T>(name: &str, result: io::Result<T>) -> io::Result<T> {
    result.map_err(|e| told(name, e))
}

/// A name in a command to type: in quotes, a quote itself as '\\''.
fn quoted(name: &str) -> String {
    format!("'{}'", name.replace('\'', "'\\''"))
}

fn is_there(name: &str) -> bool {
    fs::symlink_metadata(name).is_ok()
}

/// What a run that was cut off left, told by its lock: whether it names replies, and whether TABLE.new is there.
fn mend(table: &str, process: u32, replies: &str) -> String {
    let (lock, next, written) = (format!("{table}.lock"), format!("{table}.new"), format!("{replies}.new"));
    if is_there(&next) {
        // TABLE.new goes last: without it the lock would say that the table was saved.
        let first = if replies.is_empty() { String::new() } else { format!("rm -f {} && ", quoted(&written)) };
        let last = format!("rm {} && rm {}", quoted(&lock), quoted(&next));
        return format!("the table was not changed: mend, then receive the file again. To mend: {first}{last}");
    }
    if replies.is_empty() {
        return format!("nothing was received. To mend: rm {}", quoted(&lock));
    }
    if !is_there(&written) {
        return format!(
            "the table was saved and the replies have their name; send them. To mend: rm {}",
            quoted(&lock)
        );
    }
    // An empty file of the name is the run's own.
    let is_other = fs::symlink_metadata(replies).is_ok_and(|m| m.len() != 0);
    let name = if is_other { format!("{replies}.{process}") } else { replies.to_string() };
    let (from, to) = (quoted(&written), quoted(&name));
    format!("the table was saved; send these replies. To mend: mv {from} {to} && rm {}", quoted(&lock))
}

/// The lock is there: who has the table, or what to type.
fn locked(table: &str) -> String {
    let lock = format!("{table}.lock");
    let text = fs::read_to_string(&lock).unwrap_or_else(|_| "?".into());
    if text.is_empty() {
        return format!("of a run that has just begun; if none runs it did nothing. To mend: rm {}", quoted(&lock));
    }
    let (first, rest) = text.split_once('\n').unwrap_or((&text, ""));
    let Some(process) = first.parse::<u32>().ok().filter(|_| !first.starts_with('+') && text.contains('\n')) else {
        return "a lock that this program did not write, lentilpot's perhaps: the program that wrote it tells its mend"
            .into();
    };
    if is_there(&format!("/proc/{process}")) {
        return format!("the table is in use by process {process}: try again when it has ended");
    }
    let replies = rest.split_once('\n').map_or("", |(name, _)| name);
    format!("left by process {process}, which runs no more: {}", mend(table, process, replies))
}

/// A whole name, right from any folder. Those beside it are up to 11 bytes longer, and a folder takes 255.
fn whole(name: &str) -> io::Result<String> {
    if name.is_empty() {
        return Err(told("TABLE and REPLIES", "expected files' names, not an empty word"));
    }
    if name.bytes().any(|b| b < b' ' || b == 127) {
        return Err(told("a file's name", "expected no control characters in it"));
    }
    let folder = if name.starts_with('/') { String::new() } else { format!("{}/", std::env::current_dir()?.display()) };
    if name.rsplit('/').next().map_or(0, str::len) > 244 || folder.len() + name.len() > 4000 {
        return Err(told(name, "expected a file's name of at most 244 bytes, and 4,000 with its folders"));
    }
    Ok(folder + name)
}

/// Days from 1 January 1980 on, or none where yymmdd is no date; the years are 1980 to 2079.
fn day_number(yymmdd: u32) -> Option<u32> {
    let (years, month, day) = ((yymmdd / 10000 + 20) % 100, yymmdd / 100 % 100, yymmdd % 100);
    let length =
        |m: u32| [31, 28, 31, 30, 31, 30, 31, 31, 30, 31, 30, 31][m as usize - 1] + u32::from(m == 2 && years % 4 == 0);
    if yymmdd > 999999 || !(1..=12).contains(&month) || day < 1 || day > length(month) {
        return None;
    }
    Some(365 * years + years.div_ceil(4) + (1..month).map(length).sum::<u32>() + day - 1)
}

/// The table's day: docs/FORMAT.md.
fn day_of(table: &Table) -> u32 {
    let b = table.as_bytes();
    u32::from_le_bytes([b[4], b[5], b[6], b[7]])
}

/// Of refusal 4, which half.
fn half(table: &Table, o: &Opening) -> String {
    let held = day_of(table);
    match day_number(o.today) {
        None => format!("{:06} isn't a real date; the table's day is {held:06}", o.today),
        given if given < day_number(held) => format!("{:06} is before the table's day {held:06}", o.today),
        _ => format!("{:06} isn't a real time; the table's day is {held:06}", o.time),
    }
}

fn flush_folder(name: &str) -> io::Result<()> {
    let folder = Path::new(name).parent().filter(|p| *p != Path::new("")).unwrap_or(Path::new("."));
    of(name, File::open(folder).and_then(|f| f.sync_all()))
}

/// A new file, for this user alone (a table holds keys); never one that is there, for a run that was cut off may have left it.
fn make(name: &str, there: &str) -> io::Result<File> {
    OpenOptions::new().read(true).write(true).create_new(true).mode(0o600).open(name).map_err(|e| match e.kind() {
        io::ErrorKind::AlreadyExists => told(name, there),
        _ => told(name, e),
    })
}

#[derive(PartialEq)]
enum Stage {
    Locked,
    Begun,
    Answering,
    Saved,
}

/// A run on a table. One that ends before the table is saved takes what it made away again, in its order.
struct Run<'a> {
    table: &'a str,
    replies: &'a str,
    lock: File,
    signed: u64,
    stage: Stage,
}

impl Drop for Run<'_> {
    fn drop(&mut self) {
        let written = format!("{}.new", self.replies);
        if self.stage == Stage::Answering && fs::remove_file(&written).and_then(|_| flush_folder(&written)).is_ok() {
            self.stage = Stage::Begun;
        }
        let emptied = |lock: &File| lock.set_len(self.signed).and_then(|_| lock.sync_all());
        let next = format!("{}.new", self.table);
        if self.stage == Stage::Begun && emptied(&self.lock).and_then(|_| fs::remove_file(next)).is_ok() {
            self.stage = Stage::Locked;
        }
        if self.stage == Stage::Locked {
            let _ = fs::remove_file(format!("{}.lock", self.table));
        }
    }
}

impl<'a> Run<'a> {
    fn new(table: &'a str, replies: &'a str) -> io::Result<Run<'a>> {
        let name = format!("{table}.lock");
        let lock = make(&name, "is there").map_err(|e| if is_there(&name) { told(&name, locked(table)) } else { e })?;
        let line = format!("{}\n", std::process::id());
        let mut run = Run { table, replies, lock, signed: line.len() as u64, stage: Stage::Locked };
        of(table, run.lock.write_all(line.as_bytes()))?;
        Ok(run)
    }

    /// TABLE.new and REPLIES.new.
    fn begin(&mut self) -> io::Result<(File, File)> {
        let next = format!("{}.new", self.table);
        let left = "left by a run that did not change the table, and whose lock was removed. To mend: rm";
        let next = make(&next, &format!("{left} {}", quoted(&next)))?;
        self.stage = Stage::Begun;
        flush_folder(self.table)?;
        if fs::symlink_metadata(self.replies).is_ok() {
            return Err(told(self.replies, "is there, and replies are never replaced: name another REPLIES"));
        }
        // Made before it is named: what the lock names is of this run.
        let written = format!("{}.new", self.replies);
        let written = make(&written, "is there: of another run, perhaps on another table. Name another REPLIES")?;
        self.stage = Stage::Answering;
        of(self.table, writeln!(self.lock, "{}", self.replies).and_then(|_| self.lock.sync_all()))?;
        Ok((next, written))
    }

    fn save(&mut self, table: &Table, mut next: File, old: &Metadata) -> io::Result<()> {
        // Where the owner can't be kept the mode stays 0600, for the group would be another one.
        if fchown(&next, Some(old.uid()), Some(old.gid())).is_ok() {
            of(self.table, next.set_permissions(Permissions::from_mode(old.mode() & 0o777)))?;
        }
        of(self.table, next.write_all(table.as_bytes()).and_then(|_| next.sync_all()))?;
        of(self.table, fs::rename(format!("{}.new", self.table), self.table))?;
        self.stage = Stage::Saved;
        let lock = format!("{}.lock", self.table);
        self.name_replies(&lock).map_err(|e| {
            let mend = mend(self.table, std::process::id(), self.replies);
            io::Error::other(format!("{e}\nreceive: type 'sync' first; then: {mend}"))
        })
    }

    fn name_replies(&self, lock: &str) -> io::Result<()> {
        flush_folder(self.table)?;
        // The name is made first, empty, for renaming alone would replace a file that came meanwhile.
        make(self.replies, "is there; the replies stand in REPLIES.new")?;
        of(self.replies, fs::rename(format!("{}.new", self.replies), self.replies))?;
        flush_folder(self.replies)?;
        of(lock, fs::remove_file(lock))
    }
}

/// Saving gives the name to a new file, so a link or a second name would be left with the old stamps.
fn read_table(name: &str) -> io::Result<(Table, Metadata)> {
    let named = of(name, fs::symlink_metadata(name))?;
    if !named.is_file() || named.nlink() != 1 {
        return Err(told(name, "expected a file with this one name, and no link"));
    }
    let file = of(name, File::open(name))?;
    let is = of(name, file.metadata())?;
    let same = (is.dev(), is.ino(), is.nlink()) == (named.dev(), named.ino(), 1);
    let mut bytes = Vec::new();
    if same {
        of(name, file.take(TABLE_SIZE as u64 + 1).read_to_end(&mut bytes))?;
    }
    let table = Table::from_bytes(&bytes).ok_or_else(|| told(name, "expected a table, 49,152 bytes"))?;
    Ok((table, is))
}

/// A word of digits alone: parsing by itself would take a sign, and other widths.
fn number(word: &str, digits: &str, least: usize, most: usize, expected: &str) -> io::Result<u64> {
    let is_right = (least..=most).contains(&word.len()) && word.chars().all(|c| digits.contains(c));
    let value = u64::from_str_radix(word, digits.len() as u32);
    value.ok().filter(|_| is_right).ok_or_else(|| told(word, expected))
}

/// Lists the replies as they were saved; gives whether every one is K. Where there are none, that is said.
fn tell(mut written: &File, file: &str, day: u32) -> io::Result<bool> {
    let mut out = io::stdout().lock();
    let mut is_all = true;
    let mut count = 0;
    written.rewind()?;
    for line in BufReader::new(written).split(b'\n') {
        let line = line?;
        count += 1;
        is_all &= line[at::VERDICT] == *b"K";
        out.write_all(&[&line[at::VERDICT], b" ", &line[at::CODE], b"\n"].concat())?;
    }
    out.flush()?;
    if count == 0 {
        eprintln!("receive: {file}: no message stood in it, so there is no reply; the table's day is now {day:06}");
    }
    Ok(is_all)
}

fn receive(words: &[String]) -> Result<bool, Failure> {
    let (words, is_meant) = match words.split_last() {
        Some((last, first)) if first.len() == 7 && last == "later" => (first, true),
        _ => (words, false),
    };
    let [name, file, date, time, data_type, clock, replies] = words else {
        return Err(told("expected", "receive TABLE FILE DATE TIME TYPE CLOCK REPLIES [later]").into());
    };
    let decimal = "0123456789";
    let opening = Opening {
        today: number(date, decimal, 6, 6, "expected DATE, 6 digits yymmdd")? as u32,
        time: number(time, decimal, 6, 6, "expected TIME, 6 digits hhmmss")? as u32,
        data_type: number(data_type, decimal, 1, 2, "expected TYPE, 1 to 16")? as u32,
        clock: number(clock, "0123456789ABCDEF", 16, 16, "expected CLOCK, 16 hex digits 0-9 A-F")?,
    };
    let (name, replies) = (&whole(name)?, &whole(replies)?);
    let input = of(file, File::open(file))?;
    let mut run = Run::new(name, replies)?;
    let (mut table, old) = read_table(name)?;
    // The table can't go back; the first day after the set-up, whose own is 800101, may be any.
    let limit = day_number(day_of(&table)).filter(|_| day_of(&table) != 800101).map(|d| d + 31);
    if !is_meant && limit.is_some() && day_number(opening.today) > limit {
        let what = "more than 31 days after the table's day: expected an earlier DATE, or the word later after REPLIES if it is meant";
        return Err(told(date, what).into());
    }
    let (next, written) = run.begin()?;
    let mut lines = BufWriter::new(&written);
    let received = table.receive(&opening, input, |_, reply| {
        lines.write_all(reply.as_bytes())?;
        lines.write_all(b"\n")
    });
    if let Err(Failure::Refused(r)) = &received {
        // told here, where the table is; only its status is left to tell
        let why = if r.number() == 4 { half(&table, &opening) } else { r.words().into() };
        eprintln!("receive: refused: {why}");
    }
    received?;
    of(replies, lines.flush().and_then(|_| written.sync_all()))?;
    flush_folder(replies)?;
    run.save(&table, next, &old)?;
    Ok(of("can't list the replies, which stand in REPLIES", tell(&written, file, day_of(&table)))?)
}

fn main() -> ExitCode {
    // Words that aren't UTF-8 are told as missing.
    let words: Result<Vec<String>, _> = std::env::args_os().skip(1).map(|w| w.into_string()).collect();
    match receive(&words.unwrap_or_default()) {
        Ok(is_all) => ExitCode::from(u8::from(!is_all)),
        Err(Failure::Refused(_)) => ExitCode::from(1),
        Err(e) => {
            eprintln!("receive: {e}");
            ExitCode::from(2)
        }
    }
}
