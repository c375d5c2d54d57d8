//! What a child's output takes in a plain loop, which starts the same child, reads at most 4,096 bytes at a time, keeps
//! them as a record of the run would, makes characters of them, and writes the lines that the kernel writes. With the word `kept` the
//! characters stay in a `Vec` up to the limit of a text, with `unkept` they go, and with `loud` a filter's seven calls are told, too,
//! which put the characters in and take them away again. It tests nothing, and has no properties, records of undo or handlers.
use std::io::{Read, Write};
use std::process::{Command, Stdio};

const MOST: usize = 4_194_303;

/// The characters between quotes, as a line shows them.
fn shown(out: &mut Vec<u8>, text: &str) {
    out.push(b'"');
    for c in text.chars() {
        match c {
            '"' | '\\' => out.extend([b'\\', c as u8]),
            '\n' => out.extend(b"\\n"),
            _ => out.extend(c.encode_utf8(&mut [0; 4]).as_bytes()),
        }
    }
    out.push(b'"');
}

/// The lines of a filter that inserts its text, marks it and erases it.
fn tell_calls(out: &mut Vec<u8>, at: usize, end: usize) {
    writeln!(out, "  = 1\n  = nil\n  = {end}\n  = nil\n  = #<marker at {at} in *scratch*>").unwrap();
    writeln!(out, "  = #<marker at {end} in *scratch*>\n  = nil").unwrap();
}

fn main() {
    let words: Vec<String> = std::env::args().skip(1).collect();
    let [mode, command] = words.as_slice() else { panic!("kept, unkept or loud, and a command of the shell") };
    let name = if mode == "loud" { "f" } else { "default" };
    let mut child = Command::new("sh").args(["-c", command]).stdin(Stdio::piped()).stdout(Stdio::piped()).spawn().unwrap();
    let mut output = child.stdout.take().unwrap();
    let mut out = std::io::BufWriter::with_capacity(65_536, std::io::stdout().lock());
    let (mut piece, mut line) = ([0; 4096], Vec::new());
    let (mut record, mut text) = (Vec::<Vec<u8>>::new(), Vec::<u32>::new());
    loop {
        let n = output.read(&mut piece).unwrap();
        if n == 0 {
            break;
        }
        record.push(piece[..n].to_vec());
        let said = std::str::from_utf8(&piece[..n]).unwrap();
        line.clear();
        write!(line, "> filter {name} #<process c> ").unwrap();
        shown(&mut line, said);
        line.push(b'\n');
        if mode != "unkept" && text.len() + n <= MOST {
            text.extend(said.chars().map(u32::from));
        }
        if mode == "loud" {
            tell_calls(&mut line, 1, text.len() + 1);
            text.clear();
        }
        writeln!(line, "< {name}\n= t").unwrap();
        out.write_all(&line).unwrap();
    }
    child.wait().unwrap();
    let kept: String = text.iter().map(|code| char::from_u32(*code).unwrap()).collect();
    line.clear();
    shown(&mut line, &kept);
    out.write_all(&line).unwrap();
    assert!(!record.is_empty());
}
