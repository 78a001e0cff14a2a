//! A plain program with one thread and without proofs that does the work of `singcheck bounds FILE`, for comparison with the times of the
//! proved program. It uses owned trees, vectors, sorted tables and only std. It has the same stages as the proved program: tokens, the
//! whole tree, names and types of contracts, structs and method bodies, the conditions on contracts, their bounds.
//!
//!     rustc -O --edition 2021 -o plain main.rs && ./plain bounds FILE
//!
//! It prints the findings in the text (exit status 1), or the bounds of the queues of each contract (exit status 0).
mod contracts;
mod lexer;
mod names;
mod parser;
mod report;
mod tree;
mod walks;

use contracts::Graph;
use report::{Code, Finding, Findings, Place};
use std::io::{Read, Write};
use std::process::ExitCode;
use walks::Walks;

const LONGEST_TEXT: usize = 4_194_304;

/// The whole answer, and whether nothing was found.
type Answer = (String, bool);

fn found(findings: Findings) -> Answer {
    (findings.report(), false)
}

/// Returns a report with one finding, such as that of a text fault.
fn found_one(text: &[u8], finding: Finding) -> Answer {
    let mut findings = Findings::new(text);
    findings.push(finding);
    found(findings)
}

fn answer(text: &[u8]) -> Answer {
    if text.len() > LONGEST_TEXT {
        return found_one(text, Finding::new(Place { line: 1, column: 1 }, Code::S03, "text too long"));
    }
    let tokens = match lexer::tokens(text) {
        Ok(tokens) => tokens,
        Err(finding) => return found_one(text, finding),
    };
    let program = match parser::parse(&tokens) {
        Ok(program) => program,
        Err(finding) => return found_one(text, finding),
    };
    let mut findings = Findings::new(text);
    let contracts = names::resolve(&program, &mut findings);
    if !findings.is_empty() {
        return found(findings);
    }
    let graphs: Vec<_> = contracts.into_iter().map(Graph::new).collect();
    let walks: Vec<_> = graphs.iter().map(Walks::new).collect();
    for (graph, walks) in graphs.iter().zip(&walks) {
        contracts::check(graph, walks, &mut findings);
    }
    if !findings.is_empty() {
        return found(findings);
    }
    (bounds(text, &graphs, &walks), true)
}

fn bounds(text: &[u8], graphs: &[Graph], walks: &[Walks]) -> String {
    let mut lines = String::new();
    for (graph, walks) in graphs.iter().zip(walks) {
        let (to_exporter, to_importer) = walks.bounds(graph);
        let name = String::from_utf8_lossy(graph.contract.name.word(text));
        lines += &format!("{name}: to Exp {to_exporter}, to Imp {to_importer}\n");
    }
    lines + &format!("ok: {} contracts\n", graphs.len())
}

/// Reads at most one byte more than a text may have, enough to recognise a longer one.
fn read(name: &str) -> std::io::Result<Vec<u8>> {
    let mut text = Vec::new();
    std::fs::File::open(name)?.take(LONGEST_TEXT as u64 + 1).read_to_end(&mut text)?;
    Ok(text)
}

fn main() -> ExitCode {
    let words: Vec<String> = std::env::args().skip(1).collect();
    let name = match &words[..] {
        [command, name] if command == "bounds" => name,
        _ => {
            eprintln!("Usage: plain bounds FILE");
            return ExitCode::from(2);
        }
    };
    let Ok(text) = read(name) else {
        eprintln!("singcheck: cannot read {name}");
        return ExitCode::from(3);
    };
    let (lines, empty) = answer(&text);
    if std::io::stdout().lock().write_all(lines.as_bytes()).is_err() {
        eprintln!("singcheck: cannot write");
        return ExitCode::from(3);
    }
    ExitCode::from(if empty { 0 } else { 1 })
}
