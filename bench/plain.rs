// The same job by a plain program: `run` over std alone. It is what the proved program is timed beside.
use std::collections::BTreeMap;
use std::io::{self, Read, Write};

const MAX_BYTES: usize = 16_777_216;
const MAX_COMMANDS: usize = 2_048;
const MAX_ROWS: usize = 65_536;

struct Row<'a> {
    time: u64,
    diff: i64,
    datum: &'a [u8],
}

enum Command<'a> {
    Append { lower: u64, upper: Option<u64>, rows: Vec<Row<'a>> },
    Snapshot { t: u64 },
    Listen { t: u64 },
    Since { to: u64 },
    Compact,
}

fn number(word: &[u8]) -> Option<u64> {
    if word.is_empty() || (word[0] == b'0' && word.len() > 1) || !word.iter().all(u8::is_ascii_digit) {
        return None;
    }
    std::str::from_utf8(word).ok()?.parse().ok()
}

fn difference(word: &[u8]) -> Option<i64> {
    match word.strip_prefix(b"-") {
        None => i64::try_from(number(word)?).ok(),
        Some(digits) => match number(digits)? {
            0 => None,
            n if n <= 1 << 63 => Some((n as i64).wrapping_neg()),
            _ => None,
        },
    }
}

fn frontier(word: &[u8]) -> Option<Option<u64>> {
    if word == b"closed" { Some(None) } else { number(word).map(Some) }
}

fn cut(line: &[u8]) -> Option<(&[u8], &[u8])> {
    let place = line.iter().position(|b| *b == b' ')?;
    Some((&line[..place], &line[place + 1..]))
}

fn row(line: &[u8]) -> Option<Row<'_>> {
    let (time, rest) = cut(line)?;
    let (diff, datum) = cut(rest)?;
    if datum.is_empty() || datum.len() > 255 {
        return None;
    }
    Some(Row { time: number(time)?, diff: difference(diff)?, datum })
}

fn head(line: &[u8]) -> Option<Command<'_>> {
    if let Some(rest) = line.strip_prefix(b"append ") {
        let (lower, upper) = cut(rest)?;
        return Some(Command::Append { lower: number(lower)?, upper: frontier(upper)?, rows: Vec::new() });
    }
    if line == b"compact" {
        return Some(Command::Compact);
    }
    let (word, time) = cut(line)?;
    let time = number(time)?;
    match word {
        b"snapshot" => Some(Command::Snapshot { t: time }),
        b"listen" => Some(Command::Listen { t: time }),
        b"since" => Some(Command::Since { to: time }),
        _ => None,
    }
}

// The commands, or the first line at fault.
fn parse(text: &[u8]) -> Result<Vec<Command<'_>>, usize> {
    let long = text.len() > MAX_BYTES;
    let text = &text[..text.len().min(MAX_BYTES + 1)];
    let mut commands = Vec::new();
    let mut open: Option<Command<'_>> = None;
    let mut number = 0;
    for line in text.strip_suffix(b"\n").unwrap_or(text).split(|b| *b == b'\n') {
        if text.is_empty() {
            break;
        }
        number += 1;
        open = match open {
            Some(Command::Append { lower, upper, mut rows }) => {
                if line == b"." {
                    commands.push(Command::Append { lower, upper, rows });
                    None
                } else {
                    match row(line) {
                        Some(row) if rows.len() < MAX_ROWS => rows.push(row),
                        _ => return Err(number),
                    }
                    Some(Command::Append { lower, upper, rows })
                }
            }
            _ if commands.len() >= MAX_COMMANDS => return Err(number),
            _ => match head(line).ok_or(number)? {
                append @ Command::Append { .. } => Some(append),
                other => {
                    commands.push(other);
                    None
                }
            },
        };
    }
    if long || open.is_some() { Err(number) } else { Ok(commands) }
}

fn covers(upper: Option<u64>, t: u64) -> bool {
    upper.is_none_or(|upper| t < upper)
}

fn shown(frontier: Option<u64>) -> String {
    frontier.map_or("closed".to_string(), |t| t.to_string())
}

fn execute(commands: Vec<Command<'_>>, out: &mut impl Write) -> io::Result<()> {
    let mut accepted: Vec<(Vec<u8>, u64, i64)> = Vec::new();
    let mut since = 0;
    let mut upper = Some(0);
    let mut weight = 0u128;
    for command in commands {
        match command {
            Command::Append { lower, upper: new, rows } => {
                let outside = rows.iter().position(|r| r.time < lower || !covers(new, r.time));
                let more: u128 = rows.iter().map(|r| u128::from(r.diff.unsigned_abs())).sum();
                if !covers(new, lower) {
                    writeln!(out, "empty")?;
                } else if let Some(place) = outside {
                    writeln!(out, "range {}", place + 1)?;
                } else if upper != Some(lower) {
                    writeln!(out, "mismatch {}", shown(upper))?;
                } else if weight + more > 1 << 62 {
                    writeln!(out, "heavy {weight}")?;
                } else {
                    let mut rows: Vec<_> = rows.into_iter().map(|r| (r.datum.to_vec(), r.time, r.diff)).collect();
                    rows.sort_by(|a, b| (&a.0, a.1).cmp(&(&b.0, b.1)));
                    for (datum, time, diff) in rows {
                        match accepted.last_mut() {
                            Some(last) if last.0 == datum && last.1 == time => last.2 += diff,
                            _ => accepted.push((datum, time, diff)),
                        }
                        if accepted.last().is_some_and(|last| last.2 == 0) {
                            accepted.pop();
                        }
                    }
                    upper = new;
                    weight += more;
                    writeln!(out, "ok")?;
                }
            }
            Command::Since { to } => {
                if to < since {
                    writeln!(out, "back {since}")?;
                } else {
                    since = to;
                    writeln!(out, "ok")?;
                }
            }
            Command::Compact => writeln!(out, "ok")?,
            Command::Listen { t } => {
                let Some(from) = t.checked_add(1) else {
                    match upper {
                        None => writeln!(out, "ended")?,
                        Some(upper) => writeln!(out, "quiet {upper}")?,
                    }
                    continue;
                };
                if from <= since {
                    writeln!(out, "early {since}")?;
                    continue;
                }
                if !covers(upper, from) {
                    writeln!(out, "quiet {}", shown(upper))?;
                    continue;
                }
                let mut step: Vec<_> = accepted.iter().filter(|row| row.1 >= from).collect();
                step.sort_by(|a, b| (a.1, &a.0).cmp(&(b.1, &b.0)));
                for (datum, time, diff) in step {
                    write!(out, "{time} {diff} ")?;
                    out.write_all(datum)?;
                    out.write_all(b"\n")?;
                }
                writeln!(out, "upto {}", shown(upper))?;
            }
            Command::Snapshot { t } => {
                if t < since {
                    writeln!(out, "early {since}")?;
                    continue;
                }
                if !covers(upper, t) {
                    writeln!(out, "late {}", shown(upper))?;
                    continue;
                }
                let mut sums: BTreeMap<&[u8], i64> = BTreeMap::new();
                for (datum, time, diff) in &accepted {
                    if *time <= t {
                        *sums.entry(datum).or_insert(0) += diff;
                    }
                }
                for (datum, diff) in sums {
                    if diff != 0 {
                        write!(out, "{diff} ")?;
                        out.write_all(datum)?;
                        out.write_all(b"\n")?;
                    }
                }
                writeln!(out, ".")?;
            }
        }
    }
    Ok(())
}

fn main() -> io::Result<()> {
    let mut text = Vec::new();
    io::stdin().lock().take(MAX_BYTES as u64 + 1).read_to_end(&mut text)?;
    let mut out = io::BufWriter::new(io::stdout().lock());
    match parse(&text) {
        Ok(commands) => execute(commands, &mut out)?,
        Err(line) => {
            writeln!(out, "line {line}")?;
            out.flush()?;
            std::process::exit(3);
        }
    }
    out.flush()
}
