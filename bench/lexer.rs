//! A plain lexer, written by hand and without proofs. `bench/run` compares its times with those of the proved program.
//!
//!     rustc -O lexer.rs && ./lexer FILE        prints the median seconds of 15 rounds, and the number of tokens
use std::hint::black_box;
use std::time::Instant;

#[derive(Clone, Copy, PartialEq)]
#[allow(dead_code)]
enum Kind {
    Word,
    Number,
    Symbol,
    Other,
}

#[derive(Clone, Copy)]
#[allow(dead_code)]
struct Token {
    kind: Kind,
    start: u32,
    end: u32,
    line: u32,
    column: u32,
}

/// Returns the end of the comment that begins here, or `start` if none does.
fn behind_comment(text: &[u8], start: usize) -> usize {
    let find = |from: usize, end: &[u8]| text[from..].windows(end.len()).position(|it| it == end).map(|at| from + at);
    match text.get(start + 1) {
        Some(b'/') => find(start, b"\n").unwrap_or(text.len()),
        Some(b'*') => find(start + 2, b"*/").map_or(text.len(), |at| at + 2),
        _ => start,
    }
}

/// Returns the kind and the end of the token that begins here.
fn token(text: &[u8], start: usize) -> (Kind, usize) {
    let run = |of: fn(&u8) -> bool| start + text[start..].iter().take_while(|it| of(it)).count();
    match text[start] {
        b'a'..=b'z' | b'A'..=b'Z' | b'_' => (Kind::Word, run(|it| it.is_ascii_alphanumeric() || *it == b'_')),
        b'0'..=b'9' => (Kind::Number, run(u8::is_ascii_digit)),
        b'!'..=b'~' => {
            let two: &[u8] = text.get(start..start + 2).unwrap_or(&[]);
            let pair = matches!(two, b"==" | b"!=" | b"<=" | b">=" | b"&&" | b"||" | b"->");
            (Kind::Symbol, start + 1 + pair as usize)
        }
        _ => (Kind::Other, start + 1),
    }
}

/// Lists the tokens. The list keeps its memory from round to round, so that its allocation takes no time.
fn lex(text: &[u8], tokens: &mut Vec<Token>) {
    tokens.clear();
    let (mut at, mut line, mut begin) = (0, 1, 0);
    while at < text.len() {
        if text[at] == b'\n' {
            line += 1;
            begin = at + 1;
        }
        if matches!(text[at], b' ' | b'\t' | b'\r' | b'\n') {
            at += 1;
            continue;
        }
        if text[at] == b'/' {
            let end = behind_comment(text, at);
            if end > at {
                for (place, byte) in text[at..end].iter().enumerate() {
                    if *byte == b'\n' {
                        line += 1;
                        begin = at + place + 1;
                    }
                }
                at = end;
                continue;
            }
        }
        let (kind, end) = token(text, at);
        tokens.push(Token {
            kind,
            start: at as u32,
            end: end as u32,
            line,
            column: (at - begin + 1) as u32,
        });
        at = end;
    }
}

fn main() {
    let text = std::fs::read(std::env::args().nth(1).expect("a file")).expect("a file that can be read");
    let mut tokens = Vec::new();
    let mut times: Vec<f64> = (0..15)
        .map(|_| {
            let start = Instant::now();
            lex(black_box(&text), black_box(&mut tokens));
            start.elapsed().as_secs_f64()
        })
        .collect();
    times.sort_by(f64::total_cmp);
    println!("{} {}", times[7], tokens.len());
}
