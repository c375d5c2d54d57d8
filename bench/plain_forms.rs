//! The least that a script of short forms takes: a plain loop that reads `(goto-char N)` and `(insert "TEXT")` from standard
//! input into a `Vec` of forms, makes each on a `Vec` of characters, and writes the lines that the kernel writes, the dump too.
use std::io::{Read, Write};

enum Form {
    GotoChar(usize),
    Insert(Vec<char>),
}

/// The forms of a script that has these two alone.
fn read(script: &str) -> Vec<Form> {
    let mut forms = Vec::new();
    let mut rest = script.trim_start();
    while let Some(form) = rest.strip_prefix('(') {
        let end = form.find(')').expect("a form that is closed");
        let (word, argument) = form[..end].split_once(' ').expect("an argument");
        forms.push(match word {
            "goto-char" => Form::GotoChar(argument.parse().expect("a number")),
            "insert" => Form::Insert(argument.trim_matches('"').chars().collect()),
            other => panic!("{other}"),
        });
        rest = form[end + 1..].trim_start();
    }
    forms
}

fn main() {
    let mut script = String::new();
    std::io::stdin().read_to_string(&mut script).unwrap();
    let forms = read(&script);
    let mut out = std::io::BufWriter::with_capacity(65_536, std::io::stdout().lock());
    let (mut text, mut point) = (Vec::<char>::new(), 0);
    for form in &forms {
        match form {
            Form::GotoChar(place) => {
                point = (place.max(&1) - 1).min(text.len());
                writeln!(out, "= {place}").unwrap();
            }
            Form::Insert(piece) => {
                text.splice(point..point, piece.iter().copied());
                point += piece.len();
                writeln!(out, "= nil").unwrap();
            }
        }
    }
    let (end, at) = (text.len() + 1, point + 1);
    let modified = if text.is_empty() { "nil" } else { "t" };
    writeln!(out, "buffer *scratch* point {at} min 1 max {end} modified {modified} current").unwrap();
    writeln!(out, "text {:?}", text.iter().collect::<String>()).unwrap();
}
