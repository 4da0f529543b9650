//! The commands of the reference.

use reference::answering::Question;
use reference::{answer_to, answers, generate, stream};
use std::collections::BTreeMap;
use std::io::{self, Read, Write};
use std::process::ExitCode;

const HELP: &str = "\
reference: a second checker of merging certificates, and certificates to try

  reference answer < FILE             prints the whole verdict on one certificate
  reference sharing < FILE            prints whether a final pair shares a tree
  reference closure < FILE            prints whether there is a critical pair within
                                      the budget, also where the merging is unsuitable
  reference answers < STREAM          prints all three for each of a packed stream
  reference corpus OUT_DIR            writes the corpus to OUT_DIR/stdin, its answers
                                      to OUT_DIR/stdout, and prints what is in it
  reference pack SEED COUNT [FIRST]   writes a packed stream of random certificates,
                                      those from number FIRST (0 if left out) on
  reference show SEED INDEX           writes one certificate of `pack SEED`
  reference compare STREAM ANSWERS [FIRST]
                                      compares answers made elsewhere with its own,
                                      prints how many there were of each kind, and
                                      numbers the certificates from FIRST on
  reference help                      prints this text

A packed stream has each certificate after its length in two bytes, the higher byte
first. Answers stand one behind the other, 24 lines for each certificate: the whole
verdict, sharing and closure, of eight lines each.
Exit status: 0 when all went well (compare: no difference), 1 for differences,
2 for wrong use or a file that cannot be read or written.
";

/// How many differences are written out.
const SHOWN: usize = 5;

fn main() -> ExitCode {
    let arguments: Vec<String> = std::env::args().skip(1).collect();
    let words: Vec<&str> = arguments.iter().map(String::as_str).collect();
    let result = match words[..] {
        ["help" | "--help" | "-h"] => write_out(HELP.as_bytes()),
        ["answer"] => answer_one(Question::Verdict),
        ["sharing"] => answer_one(Question::Sharing),
        ["closure"] => answer_one(Question::Closure),
        ["answers"] => answer_stream(),
        ["corpus", folder] => write_corpus(folder),
        ["pack", seed, count] => pack(seed, count, "0"),
        ["pack", seed, count, first] => pack(seed, count, first),
        ["show", seed, index] => show(seed, index),
        ["compare", certificates, answers] => return compare(certificates, answers, "0"),
        ["compare", certificates, answers, first] => return compare(certificates, answers, first),
        [] => Err("a command is wanted".to_string()),
        [command, ..] => Err(format!(
            "`{command}` is no command, or its arguments do not fit"
        )),
    };
    finish(result.map(|()| ExitCode::SUCCESS))
}

fn finish(result: Result<ExitCode, String>) -> ExitCode {
    result.unwrap_or_else(|message| {
        eprintln!("reference: {message}\n`reference help` lists the commands");
        ExitCode::from(2)
    })
}

fn number(text: &str, what: &str) -> Result<u64, String> {
    text.parse()
        .map_err(|_| format!("{what} must be a whole number, not `{text}`"))
}

fn read_file(path: &str) -> Result<Vec<u8>, String> {
    std::fs::read(path).map_err(|error| format!("cannot read {path}: {error}"))
}

fn read_in(limit: u64) -> Result<Vec<u8>, String> {
    let mut bytes = Vec::new();
    let read = io::stdin().lock().take(limit).read_to_end(&mut bytes);
    read.map_err(|error| format!("cannot read standard input: {error}"))?;
    Ok(bytes)
}

fn write_out(bytes: &[u8]) -> Result<(), String> {
    let mut out = io::stdout().lock();
    out.write_all(bytes)
        .and_then(|()| out.flush())
        .map_err(|error| format!("cannot write to standard output: {error}"))
}

fn answer_one(question: Question) -> Result<(), String> {
    // One byte more than allowed shows that a file is too long.
    let file = read_in(reference::reading::LARGEST_FILE as u64 + 1)?;
    write_out(&answer_to(question, &file).1)
}

fn answer_stream() -> Result<(), String> {
    let input = read_in(u64::MAX)?;
    let mut output = Vec::new();
    for file in stream::split(&input)? {
        output.extend_from_slice(&answers(file).1);
    }
    write_out(&output)
}

fn pack(seed: &str, count: &str, first: &str) -> Result<(), String> {
    let seed = number(seed, "SEED")?;
    let count = number(count, "COUNT")?;
    let first = number(first, "FIRST")?;
    let mut packed = Vec::new();
    for index in 0..count {
        stream::push(
            &mut packed,
            &generate::packed(seed, first.wrapping_add(index)),
        );
        if packed.len() > 1 << 20 {
            write_out(&packed)?;
            packed.clear();
        }
    }
    write_out(&packed)
}

fn show(seed: &str, index: &str) -> Result<(), String> {
    write_out(&generate::packed(
        number(seed, "SEED")?,
        number(index, "INDEX")?,
    ))
}

/// How many certificates had each verdict and refusal, each answer to the two
/// questions, and each pair of answers that the whole verdict hides or needs.
#[derive(Default)]
struct Counts {
    kinds: BTreeMap<String, u64>,
    /// The sum of the counts in all answers about closure.
    examined: u64,
}

impl Counts {
    /// Takes up the three answers to one certificate.
    fn add(&mut self, refusal: u8, answers: &[u8]) {
        let lines: Vec<&[u8]> = answers.split(|&byte| byte == b'\n').collect();
        let [verdict, sharing, closure] = [0, 1, 2].map(|n| value(lines[n * stream::ANSWER_LINES]));
        if refusal > 0 {
            self.count(format!("malformed {refusal:2}"));
        } else {
            self.count(verdict);
        }
        self.count(format!("sharing {sharing}"));
        self.count(format!("closure {closure}"));
        match (&sharing[..], &closure[..]) {
            ("shared", _) => self.count(format!("unsuitable and {closure}")),
            ("none", "stopped") => self.count("suitable and stopped".to_string()),
            _ => {}
        }
        let examined = value(lines[stream::LINES - 1]);
        self.examined += examined.parse::<u64>().unwrap_or(0);
    }

    fn count(&mut self, kind: String) {
        *self.kinds.entry(kind).or_default() += 1;
    }

    fn text(&self) -> String {
        self.kinds
            .iter()
            .map(|(kind, count)| format!("{kind:<24}{count:>8}\n"))
            .collect()
    }
}

/// What stands behind the `=` of a line.
fn value(line: &[u8]) -> String {
    let line = String::from_utf8_lossy(line);
    line.split('=').nth(1).unwrap_or_default().to_string()
}

fn write_corpus(folder: &str) -> Result<(), String> {
    let files = generate::corpus();
    let (mut input, mut output) = (Vec::new(), Vec::new());
    let mut counts = Counts::default();
    for file in &files {
        let (refusal, text) = answers(file);
        counts.add(refusal, &text);
        stream::push(&mut input, file);
        output.extend_from_slice(&text);
    }
    let failed = |error: io::Error| format!("cannot write to {folder}: {error}");
    std::fs::create_dir_all(folder).map_err(failed)?;
    let folder_path = std::path::Path::new(folder);
    std::fs::write(folder_path.join("stdin"), &input).map_err(failed)?;
    std::fs::write(folder_path.join("stdout"), &output).map_err(failed)?;
    let sum = format!("examined for closure: {} substitutions", counts.examined);
    let sizes = format!("{} bytes, answers of {} bytes", input.len(), output.len());
    let summary = format!("{sum}\n{} certificates, {sizes}\n", files.len());
    write_out(format!("{}{summary}", counts.text()).as_bytes())
}

/// A certificate written out, one line behind the other, with the answers of both.
fn difference(number: u64, file: &[u8], own: &[u8], other: &[u8]) -> String {
    let lines = file.split_inclusive(|&byte| byte == b'\n');
    let text: String = lines
        .map(|line| format!("  {}\n", line.escape_ascii()))
        .collect();
    format!(
        "difference at certificate {number}, {} bytes:\n{text}the reference answers:\n{}the other answers:\n{}\n",
        file.len(),
        String::from_utf8_lossy(own),
        String::from_utf8_lossy(other)
    )
}

fn compare(certificates: &str, others: &str, first: &str) -> ExitCode {
    finish(compare_files(certificates, others, first))
}

fn compare_files(certificates: &str, others: &str, first: &str) -> Result<ExitCode, String> {
    let first = number(first, "FIRST")?;
    let input = read_file(certificates)?;
    let theirs = read_file(others)?;
    let mut rest = &theirs[..];
    let files = stream::split(&input)?;
    let mut counts = Counts::default();
    let mut differences = 0;
    let mut report = String::new();
    for (index, file) in files.iter().enumerate() {
        let (refusal, own) = answers(file);
        counts.add(refusal, &own);
        let other = stream::take_answers(&mut rest);
        if own != other {
            differences += 1;
            if differences <= SHOWN {
                let number = first.wrapping_add(index as u64);
                report += &difference(number, file, &own, other);
            }
        }
    }
    if !rest.is_empty() {
        differences += 1;
        report += &format!(
            "{} bytes stand behind the last of the other answers\n",
            rest.len()
        );
    }
    report += &counts.text();
    report += &format!("{} certificates, {differences} differences\n", files.len());
    write_out(report.as_bytes())?;
    Ok(if differences == 0 {
        ExitCode::SUCCESS
    } else {
        ExitCode::from(1)
    })
}
