//! A folder of cases with their right answers, through both implementations.

use crate::subject;
use std::error::Error;
use std::fs;
use std::path::Path;

#[derive(Default)]
struct Count {
    equal: usize,
    different: usize,
}

impl Count {
    fn compare(&mut self, name: &str, expected: u64, answer: u64) {
        if answer == expected {
            self.equal += 1;
        } else {
            self.different += 1;
            println!("{name}: expected {expected:#x}, got {answer:#x}");
        }
    }
}

/// True if every answer is the expected one.
pub fn run(folder: &Path) -> Result<bool, Box<dyn Error>> {
    let mut proved = Count::default();
    let mut native = Count::default();
    let mut compare = |name: &str, table: &[u8], set: &[u8], expected: u64| {
        proved.compare(&format!("proved, {name}"), expected, subject::check(table, set));
        native.compare(&format!("native, {name}"), expected, native::queue_check(table, set));
    };
    for line in fs::read_to_string(folder.join("packed.txt"))?.lines() {
        let (name, expected) = line.split_once(' ').ok_or("packed.txt: a line is not a name and a number")?;
        let case = folder.join("verdict").join(name);
        compare(name, &fs::read(case.join("table"))?, &fs::read(case.join("set"))?, expected.trim().parse()?);
    }
    for (index, line) in fs::read_to_string(folder.join("edges.txt"))?.lines().enumerate() {
        let mut words = line.splitn(3, ' ');
        let mut word = || words.next().ok_or("edges.txt: a line has under three parts");
        let (table, set, expected) = (from_hex(word()?)?, from_hex(word()?)?, packed(word()?)?);
        compare(&format!("edges.txt:{}", index + 1), &table, &set, expected);
    }
    println!("proved: {} equal, {} different", proved.equal, proved.different);
    println!("native: {} equal, {} different", native.equal, native.different);
    Ok(proved.different == 0 && native.different == 0)
}

fn from_hex(text: &str) -> Result<Vec<u8>, Box<dyn Error>> {
    let digits = if text == "-" { "" } else { text };
    if digits.len() % 2 != 0 || !digits.is_ascii() {
        return Err("edges.txt: not whole bytes in hexadecimal".into());
    }
    (0..digits.len()).step_by(2).map(|at| Ok(u8::from_str_radix(&digits[at..at + 2], 16)?)).collect()
}

/// `pass`, or `refused` and four numbers, as one number.
fn packed(line: &str) -> Result<u64, Box<dyn Error>> {
    if line == "pass" {
        return Ok(0);
    }
    let numbers = line.strip_prefix("refused ").ok_or("neither pass nor refused")?;
    let parts: Vec<u64> = numbers.split(' ').map(str::parse).collect::<Result<_, _>>()?;
    match parts[..] {
        [number, a, b, c] => Ok(number + (a << 8) + (b << 32) + (c << 48)),
        _ => Err("refused has four numbers".into()),
    }
}
