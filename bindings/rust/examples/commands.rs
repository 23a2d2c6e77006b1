//! Carries out the commands of `rope-search` by calls of the library: reads them from standard input, and
//! writes their replies to standard output. It stops at a line that is no command.
use rope_search::{Error, Match, Session};
use std::io::{self, Read, Write};

/// How many bytes a command's line may have before its LF.
const LONGEST: usize = 128;

/// A command: its word, its numbers, and its payload.
struct Command<'a> {
    word: &'a str,
    numbers: Vec<usize>,
    payload: &'a [u8],
}

/// A number of a command, of at most 20 digits.
fn number(word: &str) -> Option<usize> {
    let is_number = word.len() <= 20 && word.bytes().all(|byte| byte.is_ascii_digit());
    is_number.then(|| word.parse().ok()).flatten()
}

/// Reads the next command, or returns nothing at the end, or where the input is no whole command.
fn command<'a>(input: &mut &'a [u8]) -> Option<Command<'a>> {
    let end = input.iter().position(|&byte| byte == b'\n')?;
    let line = std::str::from_utf8(&input[..end]).ok()?;
    let mut words = line.split(' ');
    let word = words.next()?;
    let numbers: Vec<usize> = words.map(number).collect::<Option<_>>()?;
    let due = match (word, numbers.as_slice()) {
        ("text" | "pattern" | "replace", &[len]) | ("edit", &[_, _, _, _, len]) => len,
        ("undo" | "redo" | "print" | "off" | "list" | "fork", []) => 0,
        ("next", [_, _]) | ("use", [_]) => 0,
        _ => return None,
    };
    let rest = &input[end + 1..];
    if end > LONGEST || rest.len() < due {
        return None;
    }
    let (payload, rest) = rest.split_at(due);
    *input = rest;
    Some(Command {
        word,
        numbers,
        payload,
    })
}

fn shown(found: Option<Match>) -> String {
    match found {
        Some(Match { start, stop }) => {
            format!(
                "m {} {} {} {}\n",
                start.line, start.column, stop.line, stop.column
            )
        }
        None => "no match\n".into(),
    }
}

fn listed(session: &Session) -> Result<String, Error> {
    if session.rows() == 0 {
        return Err(Error::Nothing);
    }
    let mut lines = String::new();
    for span in session.matches(..) {
        lines += &format!("m {} {} {}\n", span.line, span.start, span.stop);
    }
    Ok(lines + &format!("ok {}\n", session.count_matches(..)))
}

fn printed(session: &Session) -> Result<String, Error> {
    Ok(format!(
        "text {}\n{}\n",
        session.text_len(),
        session.text(..)?
    ))
}

fn carry_out(session: &mut Session, command: &Command<'_>) -> Result<String, Error> {
    let Command {
        word,
        numbers,
        payload,
    } = command;
    let ok = |()| "ok\n".to_string();
    match (*word, numbers.as_slice()) {
        ("text", _) => session.set_text(payload).map(ok),
        ("edit", &[l1, c1, l2, c2, _]) => session.edit((l1, c1)..(l2, c2), payload).map(ok),
        ("undo", _) => session.undo().map(ok),
        ("redo", _) => session.redo().map(ok),
        ("print", _) => printed(session),
        ("pattern", _) => session.set_pattern(payload).map(ok),
        ("off", _) => {
            session.off();
            Ok(ok(()))
        }
        ("list", _) => listed(session),
        ("next", &[line, column]) => session.next((line, column)).map(shown),
        ("replace", _) => session
            .replace(payload)
            .map(|count| format!("ok {count}\n")),
        ("fork", _) => session.fork().map(|number| format!("ok {number}\n")),
        ("use", &[number]) => session.choose(number).map(ok),
        _ => panic!("the page has a command {word} {numbers:?}"),
    }
}

/// What the commands of an input are answered, and whether it ends after a whole command.
pub fn replies(mut input: &[u8]) -> (String, bool) {
    let mut session = Session::new().unwrap();
    let mut told = String::new();
    while let Some(command) = command(&mut input) {
        match carry_out(&mut session, &command) {
            Ok(reply) => told += &reply,
            Err(error) => told += &format!("error {}\n", error.word()),
        }
    }
    (told, input.is_empty())
}

fn main() -> io::Result<()> {
    let mut input = Vec::new();
    io::stdin().read_to_end(&mut input)?;
    let (told, _) = replies(&input);
    io::stdout().write_all(told.as_bytes())
}
