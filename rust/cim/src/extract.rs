//! `cim extract`: a part of a snapshot as a file of its own.

use crate::command::{with, Command, JSON, KEEP};
use crate::failure::{of_snapshot, Failure};
use crate::files;
use crate::select;
use crate::states;
use crate::words::Words;
use cimbrolau::snapshot;

pub const COMMAND: Command = Command {
    name: "extract",
    usage: &[
        "FILE OUT --device ID,VERSION,FLAGS",
        "FILE OUT --section ID|NAME",
        "FILE OUT --disk ID",
        "FILE OUT --cpu APIC",
    ],
    about: "write a device, a section, a disk's paths or a CPU's state",
    help: "\
Writes the payload of one device or of one section to OUT; `-` is standard output. Of a disk it writes two
lines, the names of its base and of its overlay image; of a CPU, by its APIC id, its state. VERSION and
FLAGS may be left out where only one device has that ID. Of several sections with one id, ID,NUMBER is the
one of that number among them, from 0. What is not there ends with status 1, and nothing is written.

  cim extract night.aerosnap - --section RAM | sha256sum
",
    options: &[
        with("--device", "ID,VERSION,FLAGS", "the payload of this device"),
        with("--section", "ID|NAME", "the payload of this section"),
        with("--disk", "ID", "the two names of this disk"),
        with("--cpu", "APIC", "the state of this CPU"),
        KEEP,
        JSON,
    ],
    run,
};

fn run(words: &Words) -> Result<(), Failure> {
    let [name, out] = words.plain("FILE and OUT")?;
    let [device, section, disk, cpu] =
        ["--device", "--section", "--disk", "--cpu"].map(|option| words.option(option));
    if [device, section, disk, cpu].iter().flatten().count() != 1 {
        let options = "`--device`, `--section`, `--disk` and `--cpu`";
        return Err(Failure::Usage(format!("takes one of {options}")));
    }
    let target = files::claim(words, out)?;
    let file = files::read(name, snapshot::MOST_BYTES)?;
    snapshot::check(&file).map_err(of_snapshot(&file))?;
    let named;
    let part = if let Some(word) = device {
        select::device(snapshot::devices(&file)?, word)?.payload(&file)
    } else if let Some(word) = section {
        select::section(snapshot::sections(&file)?, word)?.payload(&file)
    } else if let Some(word) = disk {
        let disk = select::disk(snapshot::disks(&file)?, word)?;
        let [base, overlay] =
            [disk.base(&file), disk.overlay(&file)].map(Option::unwrap_or_default);
        named = format!("{base}\n{overlay}\n");
        Some(named.as_bytes())
    } else {
        file.get(states::one(states::cpus(&file)?, "CPU", cpu)?.range())
    };
    target.put(part.expect("a record's part stands in the file that it came from"))
}
