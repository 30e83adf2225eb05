//! Writes a new sheet with two RPs, the second taken on the days of a set, to standard output; then reads it back and says on standard error what it
//! read.

use std::error::Error;
use std::io::{self, Write};

use yawsimbel::*;

/// 8FF9h is the kanji for tablets (錠).
const TABLETS: &[u8] = b"\x8f\xf9";

fn main() -> Result<(), Box<dyn Error>> {
    let days = [(7, 10), (7, 20), (7, 30), (8, 15), (8, 30)];
    let days: DaySet = days.into_iter().map(Day::try_from).collect::<Result<_, _>>()?;
    let mut room = [0; LONGEST_FILE];
    let file = written(&days, &mut room)?;
    io::stdout().write_all(&file)?;
    eprintln!("{} lines, RP 2 on {:?}", check(&file)?, read_back(&file)?);
    Ok(())
}

/// The new sheet.
fn written(days: &DaySet, room: &mut [u8]) -> Result<Vec<u8>, Box<dyn Error>> {
    let issue = Date::make(2018, 7, 2, Style::Western)?;
    let mut writer = Writer::open(room)?;
    put_head(&mut writer)?;
    writer.put(issue)?;
    // A code from its characters.
    let after_meals: Usage = "1013044400000000".parse()?;
    writer.put(RpRecord::new(1, Form::Oral, 14))?;
    writer.put(UsageRecord::new(1, b"AFTER MEALS").code(after_meals).times(3))?;
    writer.put(DrugRecord::new(1, 1, Amount::from(3), TABLETS).kind(DrugKind::Medicine).name(b"TABLET A"))?;
    // And one from what it says.
    let (supper, lunch, breakfast) = (None, None, None);
    let on_waking = Timing::Meals { bedtime: false, supper, lunch, breakfast, waking: true, at_fifteen: false };
    writer.put(RpRecord::new(2, Form::Oral, 5))?;
    writer.put(UsageRecord::new(2, b"ON WAKING").code(Usage::new(Detail::Swallowed, on_waking)).times(1))?;
    put_days(&mut writer, 2, issue.month(), days)?;
    writer.put(DrugRecord::new(2, 1, Amount::from(1), TABLETS).kind(DrugKind::Medicine).name(b"TABLET B"))?;
    writer.close()?;
    Ok(writer.written().to_vec())
}

/// The records before the date of issue: clinic, doctor, patient, sex, birth, insurer and insured.
fn put_head(writer: &mut Writer) -> Result<(), WriteRefusal> {
    writer.put(KeptRecord::new(1, b"1,7654321,13,KITA CLINIC"))?;
    writer.put(KeptRecord::new(5, b",,SATO"))?;
    writer.put(KeptRecord::new(11, b",YAMADA JIRO,"))?;
    writer.put(KeptRecord::new(12, b"1"))?;
    writer.put(KeptRecord::new(13, b"19700203"))?;
    writer.put(KeptRecord::new(22, b""))?;
    writer.put(KeptRecord::new(23, b",,1"))
}

/// The run of date codes for a set of days, a record for each code.
fn put_days(writer: &mut Writer, rp: u16, issue_month: u8, days: &DaySet) -> Result<(), Box<dyn Error>> {
    let mut run = [0; DaySet::LONGEST_RUN];
    for (code, serial) in days.write(issue_month, &mut run)?.chunks(8).zip(1..) {
        let kind = SupplementKind::Code(Supplement::read(code)?);
        writer.put(SupplementRecord::new(rp, serial, b"BY DATE").kind(kind))?;
    }
    Ok(())
}

/// The days that a sheet's supplementary codes name.
fn read_back(file: &[u8]) -> Result<DaySet, Box<dyn Error>> {
    let (mut run, mut issue_month) = (Vec::new(), 0);
    for record in Sheet::open(file) {
        match record? {
            Record::Issue(date) => issue_month = date.month(),
            Record::Supplement(supplement) => {
                if let SupplementKind::Code(code) = supplement.kind {
                    run.extend(code.write()?.as_bytes());
                }
            }
            _ => {}
        }
    }
    Ok(DaySet::read(issue_month, &run)?)
}
