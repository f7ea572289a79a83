//! What a unit answers that is called wrongly, or whose medium fails; and what its build says of itself.
use etcs_unit::{build_info, build_proof, command, format, wipe, Action, Brake, Cold, Error, Level, Medium, Mode, Output, Proof, Status, Unit, SECTOR};

const SLOTS: u32 = 4;

/// Sectors in memory, of which so many reads and writes succeed.
struct Failing {
    bytes: Vec<u8>,
    left: u32,
}

#[derive(Debug, PartialEq)]
struct Failed;

impl Failing {
    fn zeros() -> Failing {
        Failing { bytes: vec![0; SECTOR * (1 + 6 * SLOTS as usize)], left: u32::MAX }
    }

    fn formatted(left: u32) -> Failing {
        let mut medium = Failing::zeros();
        format(&mut medium, SLOTS).unwrap();
        Failing { left, ..medium }
    }

    fn count(&mut self) -> Result<(), Failed> {
        self.left = self.left.checked_sub(1).ok_or(Failed)?;
        Ok(())
    }
}

impl Medium for Failing {
    type Error = Failed;

    fn sectors(&self) -> u64 {
        (self.bytes.len() / SECTOR) as u64
    }

    fn read(&mut self, sector: u64, bytes: &mut [u8; SECTOR]) -> Result<(), Failed> {
        self.count()?;
        bytes.copy_from_slice(&self.bytes[SECTOR * sector as usize..][..SECTOR]);
        Ok(())
    }

    fn write(&mut self, sector: u64, bytes: &[u8]) -> Result<(), Failed> {
        self.count()?;
        self.bytes[SECTOR * sector as usize..][..bytes.len()].copy_from_slice(bytes);
        Ok(())
    }

    fn sync(&mut self) -> Result<(), Failed> {
        Ok(())
    }
}

fn status<T>(answer: Result<T, Error<Failed>>) -> Option<Status> {
    match answer {
        Err(Error::Refused(status)) => Some(status),
        _ => None,
    }
}

#[test]
fn wrong_calls() {
    assert_eq!(status(Unit::open(Failing::zeros(), Cold::Unknown)), Some(Status::OpenNotFormatted));
    assert_eq!(status(format(&mut Failing::zeros(), 1)), Some(Status::BadSlots));
    let (mut unit, outputs) = Unit::open(Failing::formatted(u32::MAX), Cold::Unknown).unwrap();
    assert!(outputs.is_empty());
    assert_eq!(status(unit.telegram(&[])), Some(Status::OutOfRange));
    assert_eq!(status(unit.telegram(&[0; 105])), Some(Status::OutOfRange));
    assert_eq!(status(unit.identity("ABCDEFGHIJKLMNOPQ")), Some(Status::OutOfRange));
    assert_eq!(status(unit.running_number(100_000_000)), Some(Status::OutOfRange));
    assert_eq!(status(unit.odometer(0, 600_001)), Some(Status::OutOfRange));
    unit.clock(5).unwrap();
    assert_eq!(status(unit.clock(4)), Some(Status::ClockBack));
    let outputs = unit.flush().unwrap();
    assert_eq!((outputs.len(), outputs[0].event, outputs[0].brake, outputs[0].mode), (1, 1, Brake::Emergency, Mode::StandBy));
    assert_eq!(unit.state().unwrap().moment_ms, 5);
    for _ in 0..8 {
        unit.action(Action::Start).unwrap();
    }
    assert_eq!(status(unit.action(Action::Start)), Some(Status::PendingFull));
}

#[test]
fn a_format_leaves_a_journal() {
    let mut medium = Failing::formatted(u32::MAX);
    let (mut unit, _) = Unit::open(Failing { bytes: medium.bytes.clone(), left: u32::MAX }, Cold::Unknown).unwrap();
    unit.clock(5).unwrap();
    assert_eq!(unit.flush().unwrap()[0].event, 1);
    medium.bytes = unit.medium().bytes.clone();
    let before = medium.bytes.clone();
    assert!(matches!(format(&mut medium, SLOTS), Err(Error::HasJournal)));
    assert!(medium.bytes == before);
    wipe(&mut medium, SLOTS).unwrap();
    let (mut unit, _) = Unit::open(medium, Cold::Unknown).unwrap();
    unit.clock(5).unwrap();
    assert_eq!(unit.flush().unwrap()[0].event, 1);
    assert!(matches!(format(&mut Failing { bytes: before, left: 0 }, SLOTS), Err(Error::Medium(Failed))));
}

#[test]
fn a_medium_that_fails() {
    assert!(matches!(Unit::open(Failing::formatted(3), Cold::Unknown), Err(Error::Medium(Failed))));
    let mut failed = 0;
    for left in 0..200 {
        let mut unit = match Unit::open(Failing::formatted(left), Cold::Unknown) {
            Ok((unit, _)) => unit,
            Err(_) => continue,
        };
        unit.clock(5).unwrap();
        match unit.flush() {
            Ok(outputs) => assert_eq!(outputs.len(), 1),
            Err(Error::Medium(Failed)) => {
                failed += 1;
                assert_eq!(status(unit.flush()), Some(Status::Failed));
            }
            Err(other) => panic!("{other:?}"),
        }
    }
    assert!(failed > 0);
}

#[test]
fn the_command_has_the_most_restrictive_brake() {
    let output = |event, brake| Output { event, mode: Mode::Trip, level: Level::Level1, brake, limit_m_per_h: 0, indications: 0 };
    assert_eq!(command(&[]), None);
    let outputs = [output(1, Brake::Service), output(2, Brake::Emergency), output(3, Brake::None)];
    assert_eq!(command(&outputs), Some(output(3, Brake::Emergency)));
    assert_eq!(Mode::Trip.name(), "TR");
}

#[test]
fn the_build() {
    let info = build_info();
    assert!(info.starts_with("Gaknifur ") && info.contains(", sources "), "{info}");
    assert_eq!(build_proof() == Proof::Proved, info.ends_with(", proved"));
}
