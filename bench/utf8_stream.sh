#!/bin/sh
# The processor time of bytes decoded in pieces of 4,096 into a list, by each coding, beside `bstr`'s own decoding of the same
# bytes as UTF-8 in one piece, which keeps nothing: ASCII, lines that end as in DOS, characters of two and of four bytes, and
# bytes that are no UTF-8. The ratios are what counts: utf-8-unix should stay below 2 times `bstr`, utf-8-dos below 1.5 times
# utf-8-unix, and latin-1-unix below both. The program is proved and built first, which takes a minute.
#
#     bench/utf8_stream.sh [ROUNDS]        (of 256 KiB each; 200 if none is given)
set -eu

. "$(dirname "$0")/common.sh"
rounds=${1:-200}

scratch_program bench_decoding ek_types utf8_stream bstr <<'PROGRAM'
//! The time of decoding in pieces by each coding, and of `bstr`'s decoding.
#![tactic(auto)]

use bench_clock::used;
use bstr::ByteSlice;
use ek_types::{Ch, Chars, Mem};
use std::alloc::Global;
use std::env;
use std::io;
use utf8_stream::{Coding, Decoder};

const LENGTH: usize = 262_144;

const PIECE: usize = 4096;

fn in_pieces(alloc: Global, coding: Coding, bytes: &[u8]) -> Mem<usize> {
    let mut out = Chars::new(alloc);
    out.reserve(bytes.len())?;
    let mut decoder = Decoder::with(coding);
    for piece in bytes.chunks(PIECE) {
        if piece.len() <= PIECE {
            out.reserve(decoder.held().len() + piece.len())?;
            decoder.feed(piece, &mut out);
        }
    }
    out.reserve(decoder.held().len())?;
    decoder.finish(&mut out);
    Ok(out.len())
}

fn in_one_piece(bytes: &[u8]) -> u32 {
    let mut all = 0;
    for c in bytes.chars() {
        all ^= u32::from(c);
    }
    all
}

fn text_of(alloc: Global, unit: &[u8]) -> Mem<Vec<u8>> {
    let mut text = Vec::new(alloc);
    for _ in 0..LENGTH {
        if text.len() < LENGTH {
            text.extend_from_slice(unit)?;
        }
    }
    Ok(text)
}

/// The microseconds that so many rounds take by a coding, and how many characters they gave.
fn time_of(rt: &HostRuntime, coding: Coding, text: &[u8], rounds: u32) -> io::Result<(u64, usize)> {
    let mut characters = 0usize;
    let start = used(rt)?;
    for _ in 0..rounds {
        characters = characters.wrapping_add(in_pieces(rt.alloc(), coding, text).unwrap_or(0));
    }
    Ok((used(rt)?.saturating_sub(start) / 1000, characters))
}

fn compare(rt: &HostRuntime, name: &str, unit: &[u8], rounds: u32) -> io::Result<()> {
    let Ok(text) = text_of(rt.alloc(), unit) else {
        return Ok(());
    };
    let (unix, some) = time_of(rt, Coding::Utf8, text.as_slice(), rounds)?;
    let (dos, more) = time_of(rt, Coding::Utf8Dos, text.as_slice(), rounds)?;
    let (latin, most) = time_of(rt, Coding::Latin1, text.as_slice(), rounds)?;
    let mut codes = 0;
    let start = used(rt)?;
    for _ in 0..rounds {
        codes ^= in_one_piece(text.as_slice());
    }
    let whole = used(rt)?.saturating_sub(start) / 1000;
    let length = text.len();
    println!(rt; "{name}: {rounds} times {length} bytes: {unix} {dos} {latin} {whole} microseconds ({some} {more} {most} {codes})")
}

fn main(rt: HostRuntime) -> io::Result<()> {
    for word in env::args(&rt)? {
        if let Ok(rounds) = word.parse::<u32>() {
            compare(&rt, "ASCII", b"a letter to no one, ", rounds)?;
            compare(&rt, "DOS lines", b"a letter to no one\r\n", rounds)?;
            compare(&rt, "two bytes", b"\xC3\xA9\xCE\xBB\xD0\x96", rounds)?;
            compare(&rt, "four bytes", b"\xF0\x9F\x98\x80\xF0\x90\x8D\x88", rounds)?;
            compare(&rt, "malformed", b"\xFF\xE2\x82\xC0\x80\xF0\x9F\x98", rounds)?;
        }
    }
    Ok(())
}
PROGRAM

proved "$rounds" > "$work/times"

# NAME: ROUNDS times LENGTH bytes: UNIX DOS LATIN BSTR microseconds (..)
sed -nE 's/^(.*): ([0-9]+) times ([0-9]+) bytes: ([0-9]+) ([0-9]+) ([0-9]+) ([0-9]+) microseconds.*/\1:\2:\3:\4:\5:\6:\7/p' "$work/times" |
awk -F: '{
    bytes = $2 * $3 * 1e6
    printf "%s: %.0f bytes per second by utf-8-unix (%.2f times as long as bstr), %.0f by utf-8-dos (%.2f times as long as utf-8-unix), %.0f by latin-1-unix (%.2f times)\n", $1, bytes / $4, $4 / $7, bytes / $5, $5 / $4, bytes / $6, $6 / $4
}'
