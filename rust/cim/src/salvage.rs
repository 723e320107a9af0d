//! `cim salvage`: what can be kept of a damaged snapshot, and a line for what is lost.

use crate::command::{Command, JSON, KEEP};
use crate::failure::{of_snapshot, Failure};
use crate::files;
use crate::json::Object;
use crate::lines::Lines;
use crate::place::Head;
use crate::words::Words;
use cimbrolau::snapshot::{self, Loss};
use cimbrolau::Kind;

pub const COMMAND: Command = Command {
    name: "salvage",
    usage: &["FILE OUT"],
    about: "keep what is whole of a damaged file, and say what is lost",
    help: "\
Writes to OUT what can be kept of the damaged snapshot FILE, in canonical form: each section that would
be accepted behind those kept before. Each other one that fits in the file is dropped; the first that
does not fit takes all bytes to the end of the file with it. OUT is always a snapshot that is accepted.

Then it prints a line for what is lost: where, how many bytes, why, and which section it was. Sections
side by side that are lost for one reason and have the same header are told on one line.

  222 bytes written to saved
  lost 136 bytes at 126 (0x7E): 13 KEY: key again: DEVICES, version 1, flags 0
  lost 52 bytes at 358 (0x166): 7 CUT: section passes the end: META, version 1, flags 0, with 36 of its 50 bytes
  188 of 410 bytes are lost

If OUT is `-`, these lines are on standard error. The status is 0 only if nothing is lost, and 4 if
something is. A file that is too long or whose header is wrong is refused with status 1, and nothing is
written. OUT may be FILE, but what is lost is then gone: keep the damaged file until all is looked at.
",
    options: &[KEEP, JSON],
    run,
};

/// The status where something is lost.
const LOST: u8 = 4;

fn run(words: &Words) -> Result<(), Failure> {
    let [name, out] = words.plain("FILE and OUT")?;
    let target = files::claim(words, out)?;
    let file = files::read(name, snapshot::MOST_BYTES)?;
    let rescued = snapshot::salvage(&file).map_err(of_snapshot(&file))?;
    target.put(&rescued.file)?;
    let mut lines = Lines::new(words);
    for run in runs(&file, &rescued.losses) {
        let lost = Lost::of(&file, run);
        lines.line(lost.object(), format_args!("{}", lost.words()));
    }
    let bytes: u64 = rescued.losses.iter().map(|loss| loss.bytes).sum();
    let whole = file.len() as u64;
    let object = Object::new("salvaged")
        .number("bytes", whole)
        .number("kept", whole - bytes)
        .number("lost", bytes)
        .number("losses", rescued.losses.len() as u64);
    match bytes {
        0 => lines.line(object, format_args!("nothing is lost")),
        _ => lines.line(object, format_args!("{bytes} of {whole} bytes are lost")),
    }
    lines.print_beside(out)?;
    match bytes {
        0 => Ok(()),
        _ => Err(Failure::Said(LOST)),
    }
}

/// The losses that stand side by side for one reason and have the same header, together.
fn runs<'a>(file: &'a [u8], losses: &'a [Loss]) -> impl Iterator<Item = &'a [Loss]> + use<'a> {
    let header = |loss: &Loss| loss.part(file).and_then(|part| part.first_chunk::<16>());
    losses.chunk_by(move |one, next| {
        let joins = one.start + one.bytes == next.start && one.kind == next.kind;
        joins && header(one).is_some() && header(one) == header(next) && one.kind != Kind::Cut
    })
}

/// What is told on one line.
struct Lost {
    first: Loss,
    /// How many sections there are, and how many bytes they have together.
    sections: u64,
    bytes: u64,
    /// What the header says, if there is a whole one.
    head: Option<Head>,
}

impl Lost {
    fn of(file: &[u8], run: &[Loss]) -> Lost {
        let first = run[0];
        Lost {
            first,
            sections: run.len() as u64,
            bytes: run.iter().map(|loss| loss.bytes).sum(),
            head: usize::try_from(first.start).ok().and_then(|start| Head::read(file, start)),
        }
    }

    fn words(&self) -> String {
        let Loss { start, kind, bytes: each } = self.first;
        let bytes = if self.bytes == 1 { "byte" } else { "bytes" };
        let mut words = format!("lost {} {bytes} at {start} (0x{start:X})", self.bytes);
        if self.sections > 1 {
            words += &format!(", {} sections of {each} bytes", self.sections);
        }
        words += &format!(": {} {}: {}", kind.number(), kind.name(), kind.meaning());
        match &self.head {
            None => words += &format!(": {each} of a header's 16 bytes"),
            Some(head) => {
                words += &format!(": {}", head.words());
                if kind == Kind::Cut {
                    words += &format!(", with {} of its {} bytes", each - 16, head.length);
                }
            }
        }
        words
    }

    fn object(&self) -> Object {
        let Loss { start, kind, .. } = self.first;
        let object = Object::new("loss")
            .number("start", start)
            .number("bytes", self.bytes)
            .number("sections", self.sections)
            .number("number", kind.number())
            .text("name", kind.name())
            .text("meaning", kind.meaning());
        match &self.head {
            None => object,
            Some(head) => object.object("header", head.object()),
        }
    }
}
