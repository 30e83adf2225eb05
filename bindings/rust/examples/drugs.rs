//! Lists the drugs of a sheet on standard input: RP, name, amount and unit, a line each; or the refusal. Texts come out as they stand in the sheet, in
//! Shift_JIS.

use std::error::Error;
use std::io::{self, Read, Write};
use std::process::ExitCode;

use yawsimbel::{check, DrugRecord, Record, Sheet, LONGEST_FILE};

fn main() -> Result<ExitCode, Box<dyn Error>> {
    let mut file = Vec::new();
    // One byte more than a sheet can have is enough to see that it is too long.
    io::stdin().take(LONGEST_FILE as u64 + 1).read_to_end(&mut file)?;
    // The whole sheet first: a refusal may stand at its last record.
    if let Err(refusal) = check(&file) {
        println!("refused: {refusal}");
        return Ok(ExitCode::FAILURE);
    }
    for record in Sheet::open(&file) {
        if let Record::Drug(drug) = record? {
            io::stdout().write_all(&line(&drug))?;
        }
    }
    Ok(ExitCode::SUCCESS)
}

fn line(drug: &DrugRecord) -> Vec<u8> {
    // A drug that has no name has a code.
    let name = if drug.name.is_empty() { drug.code.text() } else { drug.name };
    let (rp, amount) = (format!("RP {}: ", drug.rp), format!(", {} ", drug.amount));
    [rp.as_bytes(), name.as_bytes(), amount.as_bytes(), drug.unit.as_bytes(), b"\n"].concat()
}
