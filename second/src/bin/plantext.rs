//! Text to blocks and back; `TEXT-FORM.md` has the grammar.

use second::desk::Call;
use second::draw::draw;
use second::text::{show_blocks, Packer, Part};
use std::io::{self, Read, Write};
use std::process::ExitCode;

const USAGE: &str = "usage: plantext pack FILE.. | calls FILE.. | model-calls FILE.. | show | draw";

fn main() -> ExitCode {
    let arguments: Vec<String> = std::env::args().skip(1).collect();
    let words: Vec<&str> = arguments.iter().map(String::as_str).collect();
    let done = match words.as_slice() {
        ["pack", files @ ..] if !files.is_empty() => {
            pack_files(files).and_then(|packer| write_out(&packer.blocks()))
        }
        ["calls", files @ ..] if !files.is_empty() => calls(files),
        ["model-calls", files @ ..] if !files.is_empty() => model_calls(files),
        ["show"] => show(),
        ["draw"] => draw_picture(),
        _ => Err(USAGE.to_string()),
    };
    match done {
        Ok(()) => ExitCode::SUCCESS,
        Err(reason) => {
            eprintln!("{reason}");
            ExitCode::FAILURE
        }
    }
}

/// Packs files in order. Nothing is written unless all can be packed.
fn pack_files(files: &[&str]) -> Result<Packer, String> {
    let mut packer = Packer::default();
    for file in files {
        let text = std::fs::read_to_string(file).map_err(|e| format!("{file}: {e}"))?;
        let added = packer.add(&text);
        added.map_err(|error| format!("{error} (in {file})"))?;
    }
    Ok(packer)
}

/// Writes calls: each model is loaded, each question put and judged, each
/// sheet checked.
fn calls(files: &[&str]) -> Result<(), String> {
    let mut stream = Vec::new();
    for (part, bytes) in pack_files(files)?.parts() {
        let calls = match part {
            Part::Model => vec![Call::Load(bytes.clone())],
            Part::Question => vec![Call::Put(bytes.clone()), Call::Judge],
            Part::Sheet => vec![Call::Check(bytes.clone())],
            Part::Bytes => Vec::new(),
        };
        stream.extend(calls.iter().flat_map(Call::record));
    }
    write_out(&stream)
}

/// Writes calls: each model is loaded, written into a buffer of its own length
/// and into a longer one, both full of marks, and loaded again.
fn model_calls(files: &[&str]) -> Result<(), String> {
    let mut stream = Vec::new();
    for (_, bytes) in pack_files(files)?.parts() {
        let marks = |more: usize| Call::WriteModel(vec![MARK; bytes.len() + more]);
        let load = || Call::Load(bytes.clone());
        let calls = [load(), marks(0), marks(BEHIND), load()];
        stream.extend(calls.iter().flat_map(Call::record));
    }
    write_out(&stream)
}

/// A byte that tells whether it was touched, and how many of them stand behind
/// the model.
const MARK: u8 = 165;
const BEHIND: usize = 700;

fn show() -> Result<(), String> {
    write_out(show_blocks(&read_input()?).as_bytes())
}

/// Draws a model followed by a question.
fn draw_picture() -> Result<(), String> {
    let picture = draw(&read_input()?);
    let picture = picture.map_err(|ground| format!("refused {}", ground.number()))?;
    write_out(picture.as_bytes())
}

fn read_input() -> Result<Vec<u8>, String> {
    let mut input = Vec::new();
    let read = io::stdin().lock().read_to_end(&mut input);
    read.map_err(|error| error.to_string())?;
    Ok(input)
}

fn write_out(bytes: &[u8]) -> Result<(), String> {
    let written = io::stdout().lock().write_all(bytes);
    written.map_err(|error| error.to_string())
}
