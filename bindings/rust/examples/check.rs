//! Checks a sheet on standard input and prints what its labels say: for each RP its number and how its drugs are taken, then each drug's name,
//! amount and unit; or the refusal. Texts come out as they stand in the sheet, in Shift_JIS.

use std::io::{self, Read, Write};
use std::process::ExitCode;

use yawsimbel::{check, Record, Sheet, SheetRefusal, LONGEST_FILE};

fn main() -> ExitCode {
    match run() {
        Ok(true) => ExitCode::SUCCESS,
        Ok(false) => ExitCode::from(1),
        Err(error) => {
            eprintln!("check: {}", error);
            ExitCode::from(2)
        }
    }
}

fn run() -> io::Result<bool> {
    let mut file = Vec::new();
    // One byte more than a sheet can have is enough to see that it is too long.
    io::stdin().take(LONGEST_FILE as u64 + 1).read_to_end(&mut file)?;
    let mut out = Vec::new();
    // The whole sheet first: no label of a sheet that is refused further on.
    let taken = match check(&file) {
        Ok(_) => {
            labels(&file, &mut out)?;
            true
        }
        Err(refusal) => {
            refused(&refusal, &mut out)?;
            false
        }
    };
    io::stdout().write_all(&out)?;
    Ok(taken)
}

fn labels(file: &[u8], out: &mut Vec<u8>) -> io::Result<()> {
    for record in Sheet::open(file) {
        match record {
            Ok(Record::Usage(usage)) => {
                write!(out, "RP {}: ", usage.rp)?;
                out.extend(usage.name.as_bytes());
                out.push(b'\n');
            }
            Ok(Record::Drug(drug)) => {
                out.extend(b"  ");
                // A drug that has no name has a code.
                out.extend(if drug.name.is_empty() { drug.code.text() } else { drug.name }.as_bytes());
                write!(out, ", {} ", drug.amount)?;
                out.extend(drug.unit.as_bytes());
                out.push(b'\n');
            }
            _ => {}
        }
    }
    Ok(())
}

fn refused(refusal: &SheetRefusal, out: &mut Vec<u8>) -> io::Result<()> {
    let number = refusal.reason.number();
    let place = if number <= 22 { "offset" } else { "record" };
    write!(out, "refused {} {} {}", number, place, refusal.offset)?;
    if let Some(field) = refusal.field {
        write!(out, " field {}", field)?;
    }
    if let Some(code) = refusal.code {
        write!(out, " code {} place {}", code.reason.number(), code.place)?;
    }
    writeln!(out)
}
