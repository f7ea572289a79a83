//! A journal image: the bytes of a unit's medium (c/include/etcs_image.h). Each struct has what C returned in `raw`.
use etcs_unit_sys as sys;

use crate::{
    check, Brake, BrakeCause, Error, Journal, KeptField, Kind, Level, LimitCause, Mode, Record, RecordField, Refused, SlotState, Status,
    TripCause, Verdict,
};

pub use sys::etcs_block as Block;
pub use sys::etcs_slot_start as SlotStart;

/// An image: a file that was read or mapped, or a copy of the medium. It may be cut off, or damaged at any place.
#[derive(Clone, Copy)]
pub struct Image<'a> {
    bytes: &'a [u8],
    facts: sys::etcs_image,
}

/// What a slot holds.
#[derive(Clone, Copy, Debug)]
pub struct Slot {
    pub state: SlotState,
    /// Whether it is as a unit leaves it.
    pub is_sound: bool,
    pub raw: sys::etcs_slot,
}

/// A record of the journal.
#[derive(Clone, Copy, Debug)]
pub struct Recorded {
    pub kind: Kind,
    pub mode: Mode,
    pub level: Level,
    pub brake: Brake,
    pub raw: Record,
}

/// A line of a replay.
#[derive(Clone, Copy, Debug)]
pub struct Replayed {
    pub verdict: Verdict,
    /// What of a record differs first.
    pub record_field: Option<RecordField>,
    /// What of a head differs first.
    pub kept_field: Option<KeptField>,
    pub raw: sys::etcs_replay,
}

/// Why an event was answered as it was.
#[derive(Clone, Debug)]
pub struct Reason {
    pub brake: Brake,
    /// The causes of the brake command, each with the first event of the unbroken run after which it has held.
    pub causes: Vec<(BrakeCause, u64)>,
    pub trip_cause: TripCause,
    pub limit_cause: LimitCause,
    pub raw: sys::etcs_why,
}

fn known<T>(value: Option<T>, number: impl Into<u32>) -> Result<T, Refused> {
    value.ok_or(Error::Unknown(number.into()))
}

impl Recorded {
    fn of(raw: Record) -> Result<Recorded, Refused> {
        Ok(Recorded {
            kind: known(Kind::of(raw.kind.into()), raw.kind)?,
            mode: known(Mode::of(raw.mode.into()), raw.mode)?,
            level: known(Level::of(raw.level.into()), raw.level)?,
            brake: known(Brake::of(raw.brake.into()), raw.brake)?,
            raw,
        })
    }

    /// The data of the event (docs/reference/format.md).
    pub fn payload(&self) -> &[u8] {
        &self.raw.payload[..self.raw.payload.len().min(self.raw.payload_len.into())]
    }
}

impl Replayed {
    fn of(raw: sys::etcs_replay) -> Result<Replayed, Refused> {
        let verdict = known(Verdict::of(raw.verdict), raw.verdict)?;
        let (mut record_field, mut kept_field) = (None, None);
        match verdict {
            Verdict::RecordDiffers => record_field = Some(known(RecordField::of(raw.field), raw.field)?),
            Verdict::HeadDiffers => kept_field = Some(known(KeptField::of(raw.field), raw.field)?),
            _ => {}
        }
        Ok(Replayed { verdict, record_field, kept_field, raw })
    }
}

impl Reason {
    fn of(raw: sys::etcs_why) -> Result<Reason, Refused> {
        let mut causes = Vec::new();
        for (number, since) in (0..).zip(raw.since).filter(|&(number, _)| raw.holds[number as usize] != 0) {
            causes.push((known(BrakeCause::of(number), number)?, since));
        }
        Ok(Reason {
            brake: known(Brake::of(raw.brake.into()), raw.brake)?,
            causes,
            trip_cause: known(TripCause::of(raw.trip_cause.into()), raw.trip_cause)?,
            limit_cause: known(LimitCause::of(raw.limit_cause.into()), raw.limit_cause)?,
            raw,
        })
    }
}

impl<'a> Image<'a> {
    /// Reads the first sector, each gate, and the head after each open one.
    pub fn open(bytes: &'a [u8]) -> Result<Image<'a>, Refused> {
        let mut facts = sys::etcs_image::default();
        // SAFETY: the image is good for its length, which nobody writes to while it is borrowed.
        check(unsafe { sys::etcs_image_facts_(bytes.as_ptr(), bytes.len() as u64, sys::ETCS_UNIT_ABI, &mut facts) })?;
        Ok(Image { bytes, facts })
    }

    /// How many whole sectors it has.
    pub fn sectors(&self) -> u64 {
        self.facts.sectors
    }

    /// The number of slots in its first sector.
    pub fn slots(&self) -> u64 {
        self.facts.slots
    }

    /// How many slots are there with all their sectors.
    pub fn whole(&self) -> u64 {
        self.facts.whole
    }

    /// The number of the newest block; none where no slot holds one.
    pub fn newest(&self) -> Option<u64> {
        Some(self.facts.newest).filter(|&number| number > 0)
    }

    /// What a slot holds, counted from 0.
    pub fn slot(&self, slot: u64) -> Result<Slot, Refused> {
        let (bytes, mut raw) = (self.bytes, sys::etcs_slot::default());
        // SAFETY: as above.
        check(unsafe { sys::etcs_image_slot_(bytes.as_ptr(), bytes.len() as u64, sys::ETCS_UNIT_ABI, self.facts.newest, slot, &mut raw) })?;
        Ok(Slot { state: known(SlotState::of(raw.state), raw.state)?, is_sound: raw.is_sound != 0, raw })
    }

    /// The head of the block of this number.
    pub fn block(&self, number: u64) -> Result<Block, Refused> {
        let mut block = Block::default();
        // SAFETY: as above.
        check(unsafe { sys::etcs_image_block_(self.bytes.as_ptr(), self.bytes.len() as u64, sys::ETCS_UNIT_ABI, number, &mut block) })?;
        Ok(block)
    }

    /// The heads of the blocks that slots hold, the oldest first, also of those before a gap.
    pub fn blocks(&self) -> impl Iterator<Item = Result<Block, Refused>> + '_ {
        let newest = self.facts.newest;
        let oldest = newest.saturating_sub(self.facts.slots - 1).max(1);
        let held = move |number| Some(self.block(number)).filter(|block| !matches!(block, Err(Error::Refused(Status::NoSuchBlock))));
        (oldest..=newest).filter_map(held)
    }

    /// A record of a block, counted from 0.
    pub fn record(&self, block: u64, index: u32) -> Result<Recorded, Refused> {
        let (bytes, mut raw) = (self.bytes, Record::default());
        // SAFETY: as above.
        check(unsafe { sys::etcs_image_record_(bytes.as_ptr(), bytes.len() as u64, sys::ETCS_UNIT_ABI, block, index, &mut raw) })?;
        Recorded::of(raw)
    }

    /// The records of the journal, the oldest first. After a block that can't be read, which is an error, they go on.
    pub fn records(&self) -> Result<impl Iterator<Item = Result<Recorded, Refused>> + 'a, Refused> {
        Ok(Journal::open(self.bytes)?.map(|raw| Recorded::of(raw?)))
    }

    /// Replays the journal through the kernel, life by life. It allocates memory.
    pub fn replay(&self) -> Result<Replay<'a>, Refused> {
        let mut at = sys::etcs_journal::default();
        // SAFETY: as above.
        check(unsafe { sys::etcs_journal_open_(self.bytes.as_ptr(), self.bytes.len() as u64, sys::ETCS_UNIT_ABI, &mut at) })?;
        Ok(Replay { image: self.bytes, at, has_ended: false })
    }

    /// Why the event of this number in the block of this number was answered as it was. It allocates memory.
    pub fn why(&self, block: u64, event: u64) -> Result<Reason, Refused> {
        let (bytes, mut raw) = (self.bytes, sys::etcs_why::default());
        // SAFETY: as above.
        check(unsafe { sys::etcs_image_why_(bytes.as_ptr(), bytes.len() as u64, sys::ETCS_UNIT_ABI, block, event, &mut raw) })?;
        Reason::of(raw)
    }
}

/// The lines of a replay. They go on after a block that can't be read, and end after any other error.
pub struct Replay<'a> {
    image: &'a [u8],
    at: sys::etcs_journal,
    has_ended: bool,
}

impl Iterator for Replay<'_> {
    type Item = Result<Replayed, Refused>;

    fn next(&mut self) -> Option<Result<Replayed, Refused>> {
        if self.has_ended {
            return None;
        }
        let mut raw = sys::etcs_replay::default();
        // SAFETY: as above.
        let status = unsafe { sys::etcs_image_replay_(self.image.as_ptr(), self.image.len() as u64, sys::ETCS_UNIT_ABI, &mut self.at, &mut raw) };
        self.has_ended = !matches!(status, sys::ETCS_UNIT_OK | sys::ETCS_UNIT_IMAGE_DAMAGED);
        match status {
            sys::ETCS_UNIT_END => None,
            status => Some(check(status).and_then(|()| Replayed::of(raw))),
        }
    }
}

/// Which block a slot holds, by its first two sectors. `slots` is how many the ring has, `slot` which of them it is.
pub fn slot_start(start: &[u8], slots: u64, slot: u64) -> Result<SlotStart, Refused> {
    let mut found = SlotStart::default();
    // SAFETY: as above.
    check(unsafe { sys::etcs_image_slot_start_(start.as_ptr(), start.len() as u64, sys::ETCS_UNIT_ABI, slots, slot, &mut found) })?;
    Ok(found)
}
