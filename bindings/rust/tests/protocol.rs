//! The worked inputs of docs/protocol.md, carried out by calls: each command is answered as the page says.
use commands::replies;
use std::path::Path;

#[allow(dead_code)]
#[path = "../examples/commands.rs"]
mod commands;

/// The bytes that a spelling of the page is: `\n`, `\r` and `\xHH` are escapes.
fn bytes_of(spelling: &str) -> Vec<u8> {
    let (mut bytes, mut rest) = (Vec::new(), spelling.as_bytes());
    while let [byte, after @ ..] = rest {
        let (byte, after) = match (byte, after) {
            (b'\\', [b'n', after @ ..]) => (b'\n', after),
            (b'\\', [b'r', after @ ..]) => (b'\r', after),
            (b'\\', [b'x', high, low, after @ ..]) => {
                let digits = [*high, *low];
                let digits = std::str::from_utf8(&digits).unwrap();
                (u8::from_str_radix(digits, 16).unwrap(), after)
            }
            _ => (*byte, after),
        };
        bytes.push(byte);
        rest = after;
    }
    bytes
}

/// The cells of the page's table of examples: input, output and status.
fn examples(page: &str) -> Vec<(Vec<u8>, Vec<u8>, bool)> {
    let section = page
        .split("\n## Examples\n")
        .nth(1)
        .expect("the page has examples");
    let rows = section.lines().filter(|line| line.starts_with("| `"));
    rows.map(|row| {
        let cells: Vec<&str> = row
            .trim_matches(|c| c == '|' || c == ' ')
            .split(" | ")
            .collect();
        let spelled = |cell: &str| bytes_of(cell.trim_matches('`'));
        (spelled(cells[0]), spelled(cells[1]), cells[2] == "0")
    })
    .collect()
}

#[test]
fn worked_inputs_of_the_protocol() {
    let path = Path::new(env!("CARGO_MANIFEST_DIR")).join("../../docs/protocol.md");
    let page = if let Ok(page) = std::fs::read_to_string(&path) {
        page
    } else {
        println!(
            "there is no {}: its worked inputs are not run",
            path.display()
        );
        return;
    };
    let examples = examples(&page);
    assert!(
        examples.len() >= 10,
        "the page has {} examples",
        examples.len()
    );
    for (input, output, is_whole) in &examples {
        let (mut told, ended) = replies(input);
        assert_eq!(ended, *is_whole, "{}", input.escape_ascii());
        if !ended {
            // What the program reports of a line that is no command, or of an input that is cut short, is
            // not the library's.
            let due = std::str::from_utf8(output).unwrap();
            let last = due.lines().last().unwrap_or_default();
            assert!(["error command", "error end"].contains(&last), "{last}");
            told += last;
            told += "\n";
        }
        assert_eq!(
            told.as_bytes(),
            output.as_slice(),
            "{}",
            input.escape_ascii()
        );
    }
    println!("{} worked inputs", examples.len());
}
