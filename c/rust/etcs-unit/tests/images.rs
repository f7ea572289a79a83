//! What an image answers that is damaged, cut off, or asked for what it hasn't.
use std::convert::Infallible;

use etcs_unit::{format, slot_start, Cold, Error, Image, Kind, Medium, Refused, SlotState, Status, Unit, Verdict, SECTOR};

const SLOTS: u64 = 6;

/// Sectors in memory.
struct Memory(Vec<u8>);

impl Medium for &mut Memory {
    type Error = Infallible;

    fn sectors(&self) -> u64 {
        (self.0.len() / SECTOR) as u64
    }

    fn read(&mut self, sector: u64, bytes: &mut [u8; SECTOR]) -> Result<(), Infallible> {
        bytes.copy_from_slice(&self.0[SECTOR * sector as usize..][..SECTOR]);
        Ok(())
    }

    fn write(&mut self, sector: u64, bytes: &[u8]) -> Result<(), Infallible> {
        self.0[SECTOR * sector as usize..][..bytes.len()].copy_from_slice(bytes);
        Ok(())
    }

    fn sync(&mut self) -> Result<(), Infallible> {
        Ok(())
    }
}

/// An image of two lives: a power-up and two moments each, in two blocks each.
fn two_lives() -> Vec<u8> {
    let mut memory = Memory(vec![0; SECTOR * (1 + 6 * SLOTS as usize)]);
    format(&mut &mut memory, SLOTS as u32).unwrap();
    for _ in 0..2 {
        let (mut unit, _) = Unit::open(&mut memory, Cold::Unknown).unwrap();
        unit.clock(5).unwrap();
        unit.clock(6).unwrap();
        assert_eq!(unit.flush().unwrap().len(), 2);
    }
    memory.0
}

fn status<T>(answer: Result<T, Refused>) -> Option<Status> {
    match answer {
        Err(Error::Refused(status)) => Some(status),
        _ => None,
    }
}

/// The byte at which a sector of a slot begins: 0 is its gate, 1 its head.
fn place(slot: usize, sector: usize) -> usize {
    SECTOR * (1 + 6 * slot + sector)
}

#[test]
fn a_whole_image() {
    let bytes = two_lives();
    let image = Image::open(&bytes).unwrap();
    assert_eq!((image.sectors(), image.slots(), image.whole(), image.newest()), (37, 6, 6, Some(4)));
    let states: Vec<_> = (0..SLOTS).map(|slot| image.slot(slot).unwrap()).map(|slot| (slot.state, slot.raw.number, slot.is_sound)).collect();
    let block = |number| (SlotState::Block, number, true);
    assert_eq!(states, [(SlotState::Empty, 0, true), block(1), block(2), block(3), block(4), (SlotState::Empty, 0, true)]);
    let heads: Vec<_> = image.blocks().map(Result::unwrap).map(|block| (block.number, block.first_event, block.events, block.lives)).collect();
    assert_eq!(heads, [(1, 0, 1, 1), (2, 1, 3, 1), (3, 3, 4, 2), (4, 4, 6, 2)]);
    let records: Vec<_> = image.records().unwrap().map(Result::unwrap).collect();
    let lines: Vec<_> = records.iter().map(|record| (record.raw.event, record.raw.life, record.kind, record.raw.moment_ms)).collect();
    let life = |first, life| [(first, life, Kind::PowerUp, 0), (first + 1, life, Kind::Clock, 5), (first + 2, life, Kind::Clock, 6)];
    assert_eq!(lines, [life(0, 1), life(3, 2)].concat());
    assert_eq!(image.record(2, 1).unwrap().raw.event, 2);
    assert_eq!(records[1].payload().len(), usize::from(records[1].raw.payload_len));
    let replayed: Vec<_> = image.replay().unwrap().map(Result::unwrap).map(|line| (line.verdict, line.raw.first_event, line.raw.last_event)).collect();
    assert_eq!(replayed, [(Verdict::Agrees, 0, 2), (Verdict::Agrees, 3, 5)]);
    let start = &bytes[place(1, 0)..][..2 * SECTOR];
    assert_eq!(slot_start(start, SLOTS, 1).unwrap().number, 1);
    assert_eq!(slot_start(start, SLOTS, 2).unwrap().number, 0);
}

#[test]
fn what_it_has_not() {
    let bytes = two_lives();
    let image = Image::open(&bytes).unwrap();
    assert_eq!(status(image.slot(SLOTS)), Some(Status::NoSuchSlot));
    for number in [0, 5, 7, u64::MAX] {
        assert_eq!(status(image.block(number)), Some(Status::NoSuchBlock), "{number}");
        assert_eq!(status(image.why(number, 0)), Some(Status::NoSuchBlock), "{number}");
    }
    assert_eq!(status(image.record(1, 1)), Some(Status::NoSuchRecord));
    assert_eq!(status(image.why(1, 5)), Some(Status::NoSuchRecord));
    assert_eq!(status(Image::open(&[])), Some(Status::ImageNotFormatted));
    assert_eq!(status(Image::open(&[0; 2 * SECTOR])), Some(Status::ImageNotFormatted));
    assert_eq!(status(slot_start(&bytes[..SECTOR], SLOTS, 0)), Some(Status::OutOfRange));
    assert_eq!(status(slot_start(&bytes[..2 * SECTOR], SLOTS, SLOTS)), Some(Status::NoSuchSlot));
}

#[test]
fn a_damaged_image() {
    let mut bytes = two_lives();
    bytes[place(2, 1) + 3] ^= 1; // (the mark of block 2)
    let image = Image::open(&bytes).unwrap();
    assert_eq!(image.slot(2).map(|slot| slot.state).ok(), Some(SlotState::Foreign));
    let heads: Vec<_> = image.blocks().map(|block| block.unwrap().number).collect();
    assert_eq!(heads, [1, 3, 4]);
    assert_eq!(image.records().unwrap().map(|record| record.unwrap().raw.event).collect::<Vec<_>>(), [3, 4, 5]);
    bytes[place(2, 1) + 3] ^= 1;
    bytes[place(2, 2)] ^= 0xFF; // (the kind of its first record)
    let image = Image::open(&bytes).unwrap();
    let events: Vec<_> = image.records().unwrap().map(|record| record.map(|record| record.raw.event).map_err(|refused| refused.to_string())).collect();
    assert_eq!(events, [Ok(0), Err("the unit answered IMAGE_DAMAGED".to_string()), Ok(3), Ok(4), Ok(5)]);
    let verdicts: Vec<_> = image.replay().unwrap().map(|line| line.map(|line| line.verdict).ok()).collect();
    // (what life 2 kept of life 1 was in that block)
    assert_eq!(verdicts, [Some(Verdict::Agrees), None, Some(Verdict::AfterGap)]);
    let cut = Image::open(&bytes[..place(2, 3)]).unwrap();
    assert_eq!((cut.whole(), cut.newest()), (2, Some(1)));
    assert_eq!(status(cut.records().map(|_| ())), Some(Status::ImageDamaged));
    assert_eq!(status(cut.replay().map(|_| ())), Some(Status::ImageDamaged));
}
