//! What insertions by a hook function take in a plain loop, which reads the scripts of `whole.py`, makes each form of the handler
//! on characters with one gap, keeps markers in a `Vec` and a record of each insertion, and writes the lines that the kernel writes.
//! It knows `(goto-char N)`, `(insert "TEXT")` and `(copy-marker N)` alone, and tests nothing.
use std::io::{Read, Write};

enum Form {
    GotoChar(usize),
    Insert(Vec<u32>),
    CopyMarker(usize),
}

/// The form of a line, if it is one of the three.
fn form(line: &str) -> Option<Form> {
    let (word, argument) = line.trim_start_matches('(').trim_end_matches(')').split_once(' ')?;
    match word {
        "goto-char" => argument.parse().ok().map(Form::GotoChar),
        "insert" => Some(Form::Insert(argument.trim_matches('"').chars().map(u32::from).collect())),
        "copy-marker" => argument.parse().ok().map(Form::CopyMarker),
        _ => None,
    }
}

/// A text with one gap, point, its markers, and a record for each insertion that isn't behind the last one.
struct Buffer {
    cells: Vec<u32>,
    gap: usize,
    room: usize,
    point: usize,
    markers: Vec<usize>,
    records: Vec<(usize, usize)>,
}

impl Buffer {
    fn len(&self) -> usize {
        self.cells.len() - self.room
    }

    fn move_gap(&mut self, at: usize) {
        if at < self.gap {
            self.cells.copy_within(at..self.gap, at + self.room);
        } else {
            self.cells.copy_within(self.gap + self.room..at + self.room, self.gap);
        }
        self.gap = at;
    }

    fn widen(&mut self) {
        let (end, more) = (self.cells.len(), self.cells.len().max(64));
        self.cells.resize(end + more, 0);
        self.cells.copy_within(self.gap + self.room..end, self.gap + self.room + more);
        self.room += more;
    }

    fn insert(&mut self, text: &[u32]) {
        let (at, n) = (self.point, text.len());
        while self.room < n {
            self.widen();
        }
        self.move_gap(at);
        self.cells[at..at + n].copy_from_slice(text);
        (self.gap, self.room, self.point) = (at + n, self.room - n, at + n);
        for marker in &mut self.markers {
            *marker += if *marker > at { n } else { 0 };
        }
        match self.records.last_mut() {
            Some(last) if last.1 == at => last.1 += n,
            _ => self.records.push((at, at + n)),
        }
    }

    fn make(&mut self, form: &Form, out: &mut impl Write, indent: &str) {
        match form {
            Form::GotoChar(place) => {
                self.point = (place.max(&1) - 1).min(self.len());
                writeln!(out, "{indent}= {place}").unwrap();
            }
            Form::Insert(text) => {
                self.insert(text);
                writeln!(out, "{indent}= nil").unwrap();
            }
            Form::CopyMarker(place) => {
                self.markers.push(place - 1);
                writeln!(out, "{indent}= #<marker at {place} in *scratch*>").unwrap();
            }
        }
    }
}

fn main() {
    let mut script = String::new();
    std::io::stdin().read_to_string(&mut script).unwrap();
    let mut out = std::io::BufWriter::with_capacity(65_536, std::io::stdout().lock());
    let mut buffer = Buffer { cells: Vec::new(), gap: 0, room: 0, point: 0, markers: Vec::new(), records: Vec::new() };
    let (mut handler, mut is_heard, mut in_handler) = (Vec::new(), false, false);
    for line in script.lines() {
        if line.starts_with("(defhandler") {
            in_handler = true;
        } else if line.starts_with("(add-hook") {
            (is_heard, in_handler) = (true, false);
            writeln!(out, "= (h)").unwrap();
        } else if let Some(made) = form(line) {
            if in_handler {
                handler.push(made);
                continue;
            }
            let (at, before) = (buffer.point + 1, buffer.len());
            let mut told = Vec::new();
            buffer.make(&made, &mut told, "");
            if is_heard {
                writeln!(out, "> after h {at} {} 0", at + buffer.len() - before).unwrap();
                handler.iter().for_each(|form| buffer.make(form, &mut out, "  "));
                writeln!(out, "< h").unwrap();
            }
            out.write_all(&told).unwrap();
        }
    }
    buffer.move_gap(0);
    let text: String = buffer.cells[buffer.room..].iter().map(|code| char::from_u32(*code).unwrap()).collect();
    let (at, end) = (buffer.point + 1, buffer.len() + 1);
    writeln!(out, "buffer *scratch* point {at} min 1 max {end} modified t current\ntext {text:?}").unwrap();
}
