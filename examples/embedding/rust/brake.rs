//! The train of brake.c in Rust, over sectors in memory, which a maker's own driver would stand for. It prints the same.
//!
//!     ETCS_UNIT_LIB=PREFIX/lib cargo run --offline --bin brake
use std::convert::Infallible;

use etcs_unit::{
    command, format, Action, Brake, Cold, Error, Journal, Medium, Mode, Output, Refused, Status, TrainData, Unit, CATEGORY_NONE, SECTOR,
};

const SLOTS: u32 = 64;
const CYCLE_MS: u64 = 500;
const MOST_CYCLES: u32 = 1000;

/// A medium: here sectors in memory, which need no sync.
struct Memory {
    bytes: Vec<u8>,
}

impl Medium for Memory {
    type Error = Infallible;

    fn sectors(&self) -> u64 {
        (self.bytes.len() / SECTOR) as u64
    }

    fn read(&mut self, sector: u64, bytes: &mut [u8; SECTOR]) -> Result<(), Infallible> {
        bytes.copy_from_slice(&self.bytes[SECTOR * sector as usize..][..SECTOR]);
        Ok(())
    }

    fn write(&mut self, sector: u64, bytes: &[u8]) -> Result<(), Infallible> {
        self.bytes[SECTOR * sector as usize..][..bytes.len()].copy_from_slice(bytes);
        Ok(())
    }

    fn sync(&mut self) -> Result<(), Infallible> {
        Ok(())
    }
}

/// The train of brake.c.
struct Train {
    moment_ms: u64,
    speed_m_per_h: i64,
    /// Of a movement, in 1/36,000 cm: it is carried over to the next one.
    rest: i64,
    brake: Brake,
    mode: Mode,
    last_event: u64,
}

impl Train {
    /// How far it goes in a cycle, in whole centimetres.
    fn go_on(&mut self) -> i64 {
        let gained = [900, -1260, -1800][self.brake as usize];
        self.speed_m_per_h = (self.speed_m_per_h + gained).clamp(0, 100_000);
        self.moment_ms += CYCLE_MS;
        let way = self.speed_m_per_h * CYCLE_MS as i64 + self.rest;
        self.rest = way % 36_000;
        way / 36_000
    }

    fn obey(&mut self, output: Output) {
        if (output.brake, output.mode) != (self.brake, self.mode) {
            let Output { event, mode, brake, limit_m_per_h: limit, .. } = output;
            println!("event {event}: mode {}, brake {}, limit {limit} m/h, speed {} m/h", mode.name(), brake.name(), self.speed_m_per_h);
        }
        (self.brake, self.mode, self.last_event) = (output.brake, output.mode, output.event);
    }
}

fn make_ready(unit: &mut Unit<Memory>) -> Result<(), Refused> {
    unit.telegram(&[
        0x90, 0x00, 0x7F, 0x80, 0x20, 0x01, 0x43, 0x20, 0x24, 0xA8, 0x00, 0x7F, 0xE0, 0x07, 0xD0, 0x02, 0xB0, 0x0D, 0x90, 0x00, 0x10,
        0x00, 0x0D, 0xC0, 0x3A, 0x40, 0x00, 0x20, 0x80, 0x1F, 0xE0,
    ])?;
    unit.identity("IC 704")?;
    unit.action(Action::ChooseLevel1)?;
    // (the reaction time is 0 only here: no real brakes act at once)
    let (reaction_ms, category) = (0, CATEGORY_NONE);
    unit.train_data(&TrainData { length_cm: 20_000, maximum_m_per_h: 160_000, deceleration_cm_per_s2: 70, reaction_ms, category })?;
    unit.action(Action::Start)
}

fn run() -> Result<(), Refused> {
    let mut medium = Memory { bytes: vec![0; SECTOR * (1 + 6 * SLOTS as usize)] };
    format(&mut medium, SLOTS)?;
    let (mut unit, _) = Unit::open(medium, Cold::Unknown)?;
    let mut train = Train { moment_ms: 0, speed_m_per_h: 0, rest: 0, brake: Brake::Emergency, mode: Mode::StandBy, last_event: 0 };
    make_ready(&mut unit)?;
    for cycle in 0..MOST_CYCLES {
        if let Some(command) = command(&unit.flush()?) {
            train.obey(command);
        }
        let movement_cm = train.go_on();
        if train.speed_m_per_h == 0 && cycle > 0 {
            break;
        }
        unit.odometer(movement_cm, train.speed_m_per_h as u32)?;
        unit.clock(train.moment_ms)?;
    }
    let last = Journal::open(&unit.medium().bytes)?.last().ok_or(Error::Refused(Status::End))??;
    assert_eq!(last.event, train.last_event, "the journal ends with another event");
    println!("the train stands after {} ms", train.moment_ms);
    Ok(())
}

fn main() {
    if let Err(refused) = run() {
        println!("emergency brake: {refused}");
        std::process::exit(1);
    }
}
