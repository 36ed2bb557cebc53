//! The command `reference`: reports of sheets, answers to queues, roundings of values, readings of vectors, and generated sheets and queues.

use std::fs;
use std::io::{self, BufRead, Read, Write};
use std::path::Path;
use std::process::ExitCode;

use reference::bigint::Integer;
use reference::generate;
use reference::kinds::UNIT_POWER;
use reference::play;
use reference::queues;
use reference::rounding::{long_reading, short_reading, Direction, Exact, BINARY32, BINARY64};
use reference::run::CAPACITY;
use reference::sheet;
use reference::vector::{self, Vector};

const USAGE: &str = "usage:
  reference sheet < FILE     the report of a sheet
  reference sheets DIR       for each file of DIR, by name: '== NAME' and its report
  reference names DIR        the names of these files, one to a line
  reference generate NAME    a generated sheet: wide, near, cancelling-wide, cancelling-near,
                             boundaries, damaged or bytes
  reference queues           the queues that are played: cases, refusals and generated mixes
  reference play < FILE      the answers to the steps of a queue
  reference round DIRECTION WIDTH
                             reads lines 'HEX POWER', an integer times 2^POWER, and prints
                             the pattern of each. DIRECTION: nearest, zero, up, down.
                             WIDTH: long, short (readings of totals in whole units of
                             2^-1074), binary64, binary32 (one rounding of any value)
  reference readings < FILE  reads vectors 'DIRECTION WIDTH' and pairs of patterns, and prints
                             the reading of the sum of their products, twice
  reference published PATTERNS < FILE
                             holds the readings of these vectors to the published patterns,
                             and lists those that differ with the reason";

type Answer = Result<Vec<u8>, String>;

fn main() -> ExitCode {
    let arguments: Vec<String> = std::env::args().skip(1).collect();
    let words: Vec<&str> = arguments.iter().map(String::as_str).collect();
    let answer = match words[..] {
        ["sheet"] => report_of_input(),
        ["sheets", folder] => reports_of_folder(Path::new(folder)),
        ["names", folder] => names(Path::new(folder)).map(|names| lines(&names)),
        ["generate", name] => generate::sheet(name).ok_or(format!("no sheet is called {name}")),
        ["queues"] => Ok(queues::text().into_bytes()),
        ["play"] => answers_to_input(),
        ["round", direction, width] => rounded_input(direction, width),
        ["readings"] => readings_of_input(),
        ["published", file] => published_of_input(Path::new(file)),
        _ => Err(USAGE.to_string()),
    };
    let written =
        answer.and_then(|bytes| io::stdout().write_all(&bytes).map_err(|e| e.to_string()));
    match written {
        Ok(()) => ExitCode::SUCCESS,
        Err(why) => {
            eprintln!("reference: {why}");
            ExitCode::FAILURE
        }
    }
}

fn lines(texts: &[String]) -> Vec<u8> {
    texts
        .iter()
        .map(|text| format!("{text}\n"))
        .collect::<String>()
        .into_bytes()
}

fn report_of_input() -> Answer {
    let mut bytes = Vec::new();
    io::stdin()
        .read_to_end(&mut bytes)
        .map_err(|e| e.to_string())?;
    Ok(sheet::report(&bytes, CAPACITY).into_bytes())
}

fn answers_to_input() -> Answer {
    let text = io::read_to_string(io::stdin()).map_err(|e| e.to_string())?;
    Ok(play::answers(&text).into_bytes())
}

/// The names of the files of a folder, in byte order.
fn names(folder: &Path) -> Result<Vec<String>, String> {
    let at = |e: io::Error| format!("{}: {e}", folder.display());
    let mut names = Vec::new();
    for entry in fs::read_dir(folder).map_err(at)? {
        let entry = entry.map_err(at)?;
        if entry.file_type().map_err(at)?.is_file() {
            let name = entry.file_name().into_string();
            names.push(name.map_err(|name| format!("{name:?} is no text"))?);
        }
    }
    names.sort();
    Ok(names)
}

fn reports_of_folder(folder: &Path) -> Answer {
    let mut text = String::new();
    for name in names(folder)? {
        let bytes = fs::read(folder.join(&name)).map_err(|e| format!("{name}: {e}"))?;
        text += &format!("== {name}\n{}", sheet::report(&bytes, CAPACITY));
    }
    Ok(text.into_bytes())
}

fn rounded_input(direction: &str, width: &str) -> Answer {
    let direction = Direction::named(direction)?;
    let mut patterns = Vec::new();
    for line in input_lines()? {
        patterns.push(rounded_line(&line, direction, width)?);
    }
    Ok(lines(&patterns))
}

fn input_lines() -> Result<Vec<String>, String> {
    let read: io::Result<Vec<String>> = io::stdin().lock().lines().collect();
    read.map_err(|e| e.to_string())
}

fn vectors_of_input() -> Result<Vec<Vector>, String> {
    input_lines()?
        .iter()
        .map(|line| Vector::read(line))
        .collect()
}

fn readings_of_input() -> Answer {
    let printed: Vec<String> = vectors_of_input()?.iter().map(Vector::readings).collect();
    Ok(lines(&printed))
}

fn published_of_input(file: &Path) -> Answer {
    let text = fs::read_to_string(file).map_err(|e| format!("{}: {e}", file.display()))?;
    let published: Result<Vec<u64>, String> = text.lines().map(vector::pattern).collect();
    let report = vector::compare(&vectors_of_input()?, &published?)?;
    Ok(lines(&report))
}

fn rounded_line(line: &str, direction: Direction, width: &str) -> Result<String, String> {
    let value = line.split_once([' ', '\t']).and_then(|(integer, power)| {
        Some((
            Integer::from_hexadecimal(integer)?,
            power.parse::<i32>().ok()?,
        ))
    });
    let (integer, power) = value.ok_or(format!("no value: {line}"))?;
    let total = || match power >= UNIT_POWER {
        true => Ok(integer.shifted_left((power - UNIT_POWER) as u32)),
        false => Err(format!("not in whole units: {line}")),
    };
    Ok(match width {
        "long" => format!("{:016x}", long_reading(&total()?, direction)),
        "short" => match short_reading(&total()?, direction) {
            Ok(pattern) => format!("{pattern:016x}"),
            Err(refusal) => format!(
                "refused {} {} {}",
                refusal.code, refusal.place, refusal.side
            ),
        },
        "binary64" => format!(
            "{:016x}",
            BINARY64.round(&Exact::new(integer, power), direction)
        ),
        "binary32" => format!(
            "{:08x}",
            BINARY32.round(&Exact::new(integer, power), direction)
        ),
        _ => return Err(format!("{width} is no width")),
    })
}
