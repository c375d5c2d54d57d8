//! The least that a drill takes: a plain loop that cuts the same output into the same pieces, puts each at the end of a `Vec`, keeps
//! one undo record and one run of properties, and puts the lines of the run together, which it counts and drops.
use std::io::Write;

struct Count {
    lines: usize,
    bytes: usize,
}

impl Write for Count {
    fn write(&mut self, bytes: &[u8]) -> std::io::Result<usize> {
        self.lines += bytes.iter().filter(|b| **b == b'\n').count();
        self.bytes += bytes.len();
        Ok(bytes.len())
    }
    fn flush(&mut self) -> std::io::Result<()> {
        Ok(())
    }
}

fn line(sink: &mut Count, room: &mut Vec<u8>, fill: impl FnOnce(&mut Vec<u8>)) {
    room.clear();
    fill(room);
    room.push(b'\n');
    sink.write_all(room).unwrap();
}

fn marker(out: &mut Vec<u8>, at: usize) {
    write!(out, "  = #<marker at {at} in out>").unwrap();
}

fn main() {
    let lines: usize = std::env::args().nth(1).map_or(9999, |it| it.parse().unwrap());
    let output: Vec<u8> = (0..lines).flat_map(|k| format!("é {k}\n").into_bytes()).collect();
    let mut sink = Count { lines: 0, bytes: 0 };
    let (mut text, mut runs, mut undo) = (Vec::<u32>::new(), Vec::<(usize, u32)>::new(), Vec::<(usize, usize)>::new());
    let (mut at, mut size, mut entries, mut held) = (0, 1, 0usize, Vec::<u8>::new());
    let mut room = Vec::with_capacity(512);
    while at < output.len() {
        let end = (at + size).min(output.len());
        held.extend_from_slice(&output[at..end]);
        (at, size) = (end, 1 + size % 7);
        let whole = held.len() - usize::from(held.last() == Some(&0xC3));
        let piece = std::str::from_utf8(&held[..whole]).unwrap().to_owned();
        held.drain(..whole);
        if piece.is_empty() {
            line(&mut sink, &mut room, |out| out.extend_from_slice(b"= nil"));
            continue;
        }
        entries += 1;
        let from = text.len() + 1;
        line(&mut sink, &mut room, |out| {
            out.extend_from_slice(b"> filter f #<process p> \"");
            for c in piece.chars() {
                match c {
                    '\n' => out.extend_from_slice(b"\\n"),
                    '"' | '\\' => out.extend_from_slice(&[b'\\', c as u8]),
                    c => out.extend_from_slice(c.encode_utf8(&mut [0; 4]).as_bytes()),
                }
            }
            out.push(b'"');
        });
        line(&mut sink, &mut room, |out| out.extend_from_slice(b"  = #<buffer out>"));
        line(&mut sink, &mut room, |out| out.extend_from_slice(b"  = #<buffer out>"));
        line(&mut sink, &mut room, |out| marker(out, from));
        line(&mut sink, &mut room, |out| marker(out, from));
        text.extend(piece.chars().map(u32::from));
        let to = text.len() + 1;
        undo.push((from, to));
        match runs.last_mut() {
            Some(run) => run.0 = to,
            None => runs.push((to, 1)),
        }
        line(&mut sink, &mut room, |out| out.extend_from_slice(b"  = nil"));
        line(&mut sink, &mut room, |out| write!(out, "  = {to}").unwrap());
        line(&mut sink, &mut room, |out| out.extend_from_slice(b"  = nil"));
        line(&mut sink, &mut room, |out| marker(out, to));
        line(&mut sink, &mut room, |out| out.extend_from_slice(b"  = nil"));
        line(&mut sink, &mut room, |out| out.extend_from_slice(b"< f"));
        line(&mut sink, &mut room, |out| out.extend_from_slice(b"= t"));
    }
    println!("{lines}: {} lines, {} bytes, {entries} entries, {} characters, {} runs, {} records", sink.lines, sink.bytes, text.len(), runs.len(), undo.len());
}
