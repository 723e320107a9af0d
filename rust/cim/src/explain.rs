//! `cim explain`: a row of the card of refusals.

use crate::command::{Command, JSON};
use crate::failure::Failure;
use crate::json::Object;
use crate::lines::Lines;
use crate::shown::name_of;
use crate::words::Words;

/// The card itself, so that the command says what stands there.
const CARD: &str = include_str!("../../../docs/REFUSALS.md");

pub const COMMAND: Command = Command {
    name: "explain",
    usage: &["NUMBER|NAME"],
    about: "what a refusal means, and what to do",
    help: "\
Prints a refusal's row of the card by the phone (docs/REFUSALS.md): when it is given, which place it
names, and what to do. It takes the number or the name, and no file.

  cim explain 13
  cim explain KEY
",
    options: &[JSON],
    run,
};

/// A row of the card.
struct Row {
    number: u64,
    name: &'static str,
    when: String,
    place: String,
    advice: String,
}

/// The rows of the card: lines of five cells whose first is a number.
fn rows() -> Vec<Row> {
    let cells = |line: &'static str| -> Option<Row> {
        let cells: Vec<&str> =
            line.strip_prefix("| ")?.strip_suffix(" |")?.split(" | ").map(str::trim).collect();
        let [number, name, when, place, advice] = cells[..] else { return None };
        let [when, place, advice] = [when, place, advice].map(|cell| cell.replace('`', ""));
        Some(Row { number: number.parse().ok()?, name, when, place, advice })
    };
    CARD.lines().filter_map(cells).collect()
}

fn run(words: &Words) -> Result<(), Failure> {
    let [word] = words.plain("one NUMBER or NAME")?;
    let text = word.to_str().unwrap_or("?");
    let is_meant =
        |row: &Row| row.name.eq_ignore_ascii_case(text) || text.parse() == Ok(row.number);
    let Some(row) = rows().into_iter().find(is_meant) else {
        let fault = format!("`{}` is the number or the name of no refusal", name_of(word));
        return Err(Failure::Usage(fault));
    };
    let Row { number, name, when, place, advice } = row;
    let object = Object::new("refusal")
        .number("number", number)
        .text("name", name)
        .text("when", &when)
        .text("place", &place)
        .text("advice", &advice);
    let mut lines = Lines::new(words);
    lines.line(
        object,
        format_args!("{number} {name}: {when}\nplace: {place}\nwhat to do: {advice}"),
    );
    lines.print()
}

#[cfg(test)]
mod tests {
    use super::*;
    use cimbrolau::Kind;

    #[test]
    fn the_card_has_a_row_for_each_refusal_and_no_other() {
        let card: Vec<(u64, &str)> = rows().iter().map(|row| (row.number, row.name)).collect();
        let kinds: Vec<(u64, &str)> =
            Kind::all().map(|kind| (kind.number().into(), kind.name())).collect();
        assert_eq!(card, kinds);
    }
}
