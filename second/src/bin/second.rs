//! The second implementation's commands; `README.md` describes each.

use second::compare::compare;
use second::desk::{c_calls, next_call, pairs, reason_calls, verdict_line};
use second::desk::{whynot_lines, Call, Desk, JudgeKind};
use second::generate::{bench_cases, stream};
use second::tally::{reason_tally, tally};
use second::timing::time;
use second::{faults, floats, gain_faults, lamp_faults, leftover_faults};
use second::{model_faults, reason_faults, sum_faults};
use std::io::{self, Read, Write};
use std::process::ExitCode;

const USAGE: &str = "usage: second [--plain] COMMAND
  verdict                    a model and a question to their verdict line
  whynot                     a model and a question to what could have been had instead
  replay                     a stream of calls to a line for each
  ccalls                     the C call on what a stream of calls loads and puts
  pairs DIR COUNT            the models and questions of a stream of calls as files for verdict
  reason-calls FILE..        what whynot printed for such files, in FILE.whynot, to calls that check the plans
  reason-tally FILE..        such files to counts of what whynot tells about them
  tally                      a stream of calls to counts of its answers
  floats                     a stream of calls to counts of the answers that judges in floats get wrong
  faults                     a stream of calls to counts of the answers that judges that err about silent states get wrong
  gain-faults                a stream of calls to counts of the answers that judges that err about expected gains get wrong
  lamp-faults                a stream of calls to counts of the answers that judges that err about lamps get wrong
  leftover-faults            a stream of calls to counts of the answers that judges that err about leftover nodes get wrong
  model-faults               a stream of calls to counts of the answers that desks that err about writing models get wrong
  reason-faults COUNT        as many pairs of a stream of calls to counts of the lines that wrong explainers print
  sum-faults                 a stream of calls to counts of the answers that judges with wrong word sums get wrong
  generate KIND SEED COUNT   a stream of models, questions, judges, small, sheets, lists, tight, words, reasons or stored
  compare SEED COUNT         the fast judge against the plain one
  bench-cases DIR            everyday questions and worst cases as DIR/NAME.bin
  bench FILE..               the time of each case in microseconds";

fn main() -> ExitCode {
    let mut arguments: Vec<String> = std::env::args().skip(1).collect();
    let mut kind = JudgeKind::Fast;
    if arguments.first().map(String::as_str) == Some("--plain") {
        arguments.remove(0);
        kind = JudgeKind::Plain;
    }
    let words: Vec<&str> = arguments.iter().map(String::as_str).collect();
    match run(kind, &words) {
        Ok(code) => code,
        // A reader that has had enough is no fault of ours.
        Err(error) if error.kind() == io::ErrorKind::BrokenPipe => ExitCode::SUCCESS,
        Err(error) => {
            eprintln!("second: {error}");
            ExitCode::FAILURE
        }
    }
}

fn run(kind: JudgeKind, words: &[&str]) -> io::Result<ExitCode> {
    match words {
        ["verdict"] => print_line(&verdict_line(&read_input()?, kind))?,
        ["whynot"] => print_line(&whynot_lines(&read_input()?, kind).join("\n"))?,
        ["replay"] => replay(kind, &read_input()?)?,
        ["ccalls"] => ccalls(kind, &read_input()?)?,
        ["pairs", folder, count] => return write_pairs(folder, count),
        ["reason-calls", files @ ..] => print_reason_calls(files)?,
        ["reason-tally", files @ ..] => print_reason_tally(files)?,
        ["tally"] => print_tally(&read_input()?)?,
        ["floats"] => print_floats(&read_input()?)?,
        ["faults"] => print_faults(&read_input()?)?,
        ["leftover-faults"] => print_leftover_faults(&read_input()?)?,
        ["gain-faults"] => print_gain_faults(&read_input()?)?,
        ["lamp-faults"] => print_lamp_faults(&read_input()?)?,
        ["model-faults"] => print_model_faults(&read_input()?)?,
        ["reason-faults", count] => return print_reason_faults(count),
        ["sum-faults"] => print_sum_faults(&read_input()?)?,
        ["generate", kind, seed, count] => return generate(kind, seed, count),
        ["compare", seed, count] => return compare_judges(seed, count),
        ["bench-cases", folder] => write_cases(folder)?,
        ["bench", files @ ..] => bench(files)?,
        _ => return Ok(usage()),
    }
    Ok(ExitCode::SUCCESS)
}

fn usage() -> ExitCode {
    eprintln!("{USAGE}");
    ExitCode::from(2)
}

fn read_input() -> io::Result<Vec<u8>> {
    let mut input = Vec::new();
    io::stdin().lock().read_to_end(&mut input)?;
    Ok(input)
}

fn print_line(line: &str) -> io::Result<()> {
    writeln!(io::stdout().lock(), "{line}")
}

/// Makes a stream of calls from the empty desk on, a line for each.
fn replay(kind: JudgeKind, stream: &[u8]) -> io::Result<()> {
    let mut rest = stream;
    let mut desk = Desk::new(kind);
    let mut out = io::BufWriter::new(io::stdout().lock());
    while let Some(call) = next_call(&mut rest) {
        writeln!(out, "{}", call.make(&mut desk))?;
    }
    out.flush()
}

fn ccalls(kind: JudgeKind, stream: &[u8]) -> io::Result<()> {
    let mut out = io::BufWriter::new(io::stdout().lock());
    for line in c_calls(kind, stream) {
        writeln!(out, "{line}")?;
    }
    out.flush()
}

fn write_pairs(folder: &str, count: &str) -> io::Result<ExitCode> {
    let Ok(count) = count.parse() else {
        return Ok(usage());
    };
    std::fs::create_dir_all(folder)?;
    for (number, pair) in pairs(&read_input()?, count).iter().enumerate() {
        std::fs::write(format!("{folder}/{number:04}.bin"), pair)?;
    }
    Ok(ExitCode::SUCCESS)
}

/// For each file with a model and a question, what was printed for it stands
/// beside it.
fn print_reason_calls(files: &[&str]) -> io::Result<()> {
    let mut out = io::BufWriter::new(io::stdout().lock());
    for file in files {
        let printed = std::fs::read_to_string(format!("{file}.whynot"))?;
        let calls = reason_calls(&std::fs::read(file)?, &printed);
        for record in calls.iter().map(Call::record) {
            out.write_all(&record)?;
        }
    }
    out.flush()
}

fn print_reason_tally(files: &[&str]) -> io::Result<()> {
    let pairs: io::Result<Vec<Vec<u8>>> = files.iter().map(std::fs::read).collect();
    for (words, count) in reason_tally(&pairs?) {
        print_line(&format!("{count:8} {words}"))?;
    }
    Ok(())
}

fn print_tally(stream: &[u8]) -> io::Result<()> {
    for ((call, _, words), count) in tally(stream) {
        print_line(&format!("{count:8} {call} {words}"))?;
    }
    Ok(())
}

fn print_floats(stream: &[u8]) -> io::Result<()> {
    for ((arithmetic, asked, operator, relation, right), count) in floats::differences(stream) {
        let right = if right { "yes" } else { "no" };
        let asked = format!("{asked:?}, operator {operator} {relation:?}, rightly {right}");
        let words = format!("{arithmetic:?} wrong on {asked}");
        print_line(&format!("{count:8} {words}"))?;
    }
    Ok(())
}

fn print_faults(stream: &[u8]) -> io::Result<()> {
    for ((fault, call), count) in faults::differences(stream) {
        print_line(&format!("{count:8} {call} {fault:?}"))?;
    }
    Ok(())
}

fn print_leftover_faults(stream: &[u8]) -> io::Result<()> {
    for ((fault, call), count) in leftover_faults::differences(stream) {
        print_line(&format!("{count:8} {call} {fault:?}"))?;
    }
    Ok(())
}

fn print_model_faults(stream: &[u8]) -> io::Result<()> {
    for ((fault, call), count) in model_faults::differences(stream) {
        print_line(&format!("{count:8} {call} {fault:?}"))?;
    }
    Ok(())
}

fn print_gain_faults(stream: &[u8]) -> io::Result<()> {
    for ((fault, call), count) in gain_faults::differences(stream) {
        print_line(&format!("{count:8} {call} {fault:?}"))?;
    }
    Ok(())
}

fn print_lamp_faults(stream: &[u8]) -> io::Result<()> {
    for ((fault, call, operator), count) in lamp_faults::differences(stream) {
        print_line(&format!("{count:8} {call}, operator {operator}: {fault:?}"))?;
    }
    Ok(())
}

fn print_reason_faults(count: &str) -> io::Result<ExitCode> {
    let Ok(count) = count.parse() else {
        return Ok(usage());
    };
    let pairs = pairs(&read_input()?, count);
    for ((fault, line, operator), count) in reason_faults::differences(&pairs) {
        print_line(&format!("{count:8} {line}, operator {operator}: {fault:?}"))?;
    }
    Ok(ExitCode::SUCCESS)
}

fn print_sum_faults(stream: &[u8]) -> io::Result<()> {
    for ((sum, call), count) in sum_faults::differences(stream) {
        print_line(&format!("{count:8} {call} {sum:?}"))?;
    }
    Ok(())
}

fn generate(kind: &str, seed: &str, count: &str) -> io::Result<ExitCode> {
    let (Ok(seed), Ok(count)) = (seed.parse(), count.parse()) else {
        return Ok(usage());
    };
    let Some(bytes) = stream(kind, seed, count) else {
        return Ok(usage());
    };
    io::stdout().lock().write_all(&bytes)?;
    Ok(ExitCode::SUCCESS)
}

fn compare_judges(seed: &str, count: &str) -> io::Result<ExitCode> {
    let (Ok(seed), Ok(count)) = (seed.parse(), count.parse()) else {
        return Ok(usage());
    };
    match compare(seed, count) {
        Ok(compared) => {
            print_line(&format!("{compared} questions, no difference"))?;
            Ok(ExitCode::SUCCESS)
        }
        Err(found) => {
            print_line(&found.text)?;
            print_line(&format!("# fast  {}\n# plain {}", found.fast, found.plain))?;
            Ok(ExitCode::FAILURE)
        }
    }
}

fn write_cases(folder: &str) -> io::Result<()> {
    std::fs::create_dir_all(folder)?;
    for case in bench_cases() {
        let path = format!("{folder}/{}.bin", case.name);
        std::fs::write(&path, [case.model, case.question].concat())?;
        print_line(&path)?;
    }
    Ok(())
}

fn bench(files: &[&str]) -> io::Result<()> {
    for file in files {
        let (best, line) = time(&std::fs::read(file)?);
        let shown: String = line.chars().take(60).collect();
        let best = best.as_secs_f64() * 1e6;
        print_line(&format!("{best:10.1} us {file}: {shown}"))?;
    }
    Ok(())
}
