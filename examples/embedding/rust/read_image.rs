//! Reads a journal image: its slots, blocks and records, whether the kernel agrees, and why each brake command was given.
//!
//!     ETCS_UNIT_LIB=PREFIX/lib cargo run --offline --bin read_image IMAGE
use etcs_unit::{Brake, Error, Image, Reason, Recorded, Refused, Replayed, Status};

/// Prints an error that is about one block or life only; returns any other one.
fn print_refusal(refused: Refused) -> Result<(), Refused> {
    match refused {
        Error::Refused(status @ (Status::ImageDamaged | Status::NotReplayed)) => println!("  {}", status.name()),
        other => return Err(other),
    }
    Ok(())
}

fn print_record(record: &Recorded) {
    let Recorded { kind, mode, level, brake, raw } = record;
    let payload: String = record.payload().iter().map(|byte| format!("{byte:02x}")).collect();
    print!("event {} block {} life {} at {} ms: {} {payload}: ", raw.event, raw.block, raw.life, raw.moment_ms, kind.name());
    println!("mode {} level {} brake {} indications {}", mode.name(), level.name(), brake.name(), raw.indications);
    if raw.has_place != 0 {
        println!("  front {} cm, uncertainty {} cm, limit {} m/h", raw.front_cm, raw.uncertainty_cm, raw.limit_m_per_h);
    }
}

fn print_replayed(line: &Replayed) {
    let Replayed { verdict, record_field, kept_field, raw } = line;
    if let Some(field) = kept_field {
        println!("head of block {}: {} in {}", raw.block, verdict.name(), field.name());
    } else {
        let field = record_field.map_or(String::new(), |field| format!(" in {}", field.name()));
        println!("life {} events {}..{}: {}{field}", raw.life, raw.first_event, raw.last_event, verdict.name());
    }
}

fn print_reason(reason: &Reason) {
    let Reason { brake, causes, trip_cause, limit_cause, raw } = reason;
    println!("why {}: brake {}, limit {} m/h by {}, trip {}", raw.event, brake.name(), raw.limit_m_per_h, limit_cause.name(), trip_cause.name());
    for (cause, since) in causes {
        println!("  {} since {since}", cause.name());
    }
}

fn run(bytes: &[u8]) -> Result<(), Refused> {
    let image = Image::open(bytes)?;
    println!("{} sectors, {} slots, newest block {}", image.sectors(), image.slots(), image.newest().unwrap_or(0));
    for number in 0..image.whole() {
        let slot = image.slot(number)?;
        println!("slot {number}: {} {}{}", slot.state.name(), slot.raw.number, if slot.is_sound { "" } else { " not sound" });
    }
    for block in image.blocks() {
        let block = block?;
        println!("block {} format {} events {}..{} lives {}", block.number, block.format, block.first_event, block.events - 1, block.lives);
    }
    for record in image.records()? {
        match record {
            Ok(record) => {
                print_record(&record);
                if record.brake != Brake::None {
                    image.why(record.raw.block, record.raw.event).map(|reason| print_reason(&reason)).or_else(print_refusal)?;
                }
            }
            Err(refused) => print_refusal(refused)?,
        }
    }
    for line in image.replay()? {
        line.map(|line| print_replayed(&line)).or_else(print_refusal)?;
    }
    Ok(())
}

fn main() {
    let path = std::env::args().nth(1).expect("usage: read_image IMAGE");
    let bytes = std::fs::read(&path).unwrap_or_else(|why| panic!("{path}: {why}"));
    if let Err(refused) = run(&bytes) {
        println!("{refused}");
        std::process::exit(1);
    }
}
