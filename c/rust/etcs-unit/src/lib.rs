//! The onboard unit of ETCS level 1 from Rust, over a medium of your own. A program that calls this crate needs no `unsafe`.
//!
//! Any [`Error`] means the emergency brake until the unit was dropped and opened again. Only [`Unit::open`] and [`Unit::flush`] return
//! outputs, and only after all of them are on the medium. Obey the [`command`] of them until the next one. What else the program
//! has to guarantee is in c/include/etcs_unit.h and docs/explain/integration.md.
mod guard;
mod image;
mod journal;
mod numbers;

use std::ffi::CStr;
use std::fmt;
use std::os::raw::c_char;

use etcs_unit_sys as sys;

pub use guard::{Demand, Guard, Situation};
pub use image::{slot_start, Block, Image, Reason, Recorded, Replay, Replayed, Slot, SlotStart};
pub use journal::{Journal, Record};
pub use numbers::*;
pub use sys::etcs_train_data as TrainData;
pub use sys::etcs_unit_driver_info as Driver;
pub use sys::etcs_unit_group as ClosedGroup;
pub use sys::etcs_unit_preview_info as Preview;
pub use sys::etcs_unit_refusals_info as Refusals;
pub use sys::etcs_unit_state_info as State;
pub use sys::etcs_unit_why_info as Why;

/// The bytes of a sector.
pub const SECTOR: usize = sys::ETCS_UNIT_SECTOR as usize;
/// The category of a train that is of none; 0 is a category.
pub const CATEGORY_NONE: u32 = sys::ETCS_CATEGORY_NONE;
const OUTPUTS: usize = sys::ETCS_UNIT_OUTPUTS as usize;
const REQUEST_BYTES: usize = sys::ETCS_UNIT_REQUEST_BYTES as usize;

/// The text that a call for a name returns: it is the library's, and never ends.
fn text(name: *const c_char) -> &'static str {
    // SAFETY: these calls return texts of ASCII that end with a zero.
    unsafe { CStr::from_ptr(name) }.to_str().unwrap_or("unknown")
}

/// Why a call failed.
#[derive(Debug)]
pub enum Error<E> {
    /// The unit answered this.
    Refused(Status),
    /// The medium failed.
    Medium(E),
    /// The medium has a journal: a format leaves it as it is.
    HasJournal,
    /// The unit answered a number that this crate doesn't know.
    Unknown(u32),
}

impl<E: fmt::Display> fmt::Display for Error<E> {
    fn fmt(&self, to: &mut fmt::Formatter<'_>) -> fmt::Result {
        match self {
            Error::Refused(status) => write!(to, "the unit answered {}", status.name()),
            Error::Medium(why) => write!(to, "the medium failed: {why}"),
            Error::HasJournal => write!(to, "the medium has a journal, and was left as it is"),
            Error::Unknown(number) => write!(to, "the unit answered {number}, which is unknown"),
        }
    }
}

impl<E: fmt::Debug + fmt::Display> std::error::Error for Error<E> {}

/// An error without a medium.
pub type Refused = Error<std::convert::Infallible>;

fn check<E>(status: u32) -> Result<(), Error<E>> {
    match Status::of(status) {
        Some(Status::Ok) => Ok(()),
        Some(status) => Err(Error::Refused(status)),
        None => Err(Error::Unknown(status)),
    }
}

/// Version, commit and digest of the sources of the library, and whether it is proved.
pub fn build_info() -> String {
    let (mut bytes, mut len) = ([0; sys::ETCS_BUILD_INFO_BYTES as usize], 0);
    // SAFETY: there is room for the whole text.
    let status = unsafe { sys::etcs_build_info_(bytes.as_mut_ptr(), bytes.len() as u64, &mut len) };
    String::from_utf8_lossy(if status == 0 { &bytes[..len as usize] } else { b"unknown" }).into_owned()
}

/// Whether the library was proved, as whoever built it knew.
pub fn build_proof() -> Proof {
    // SAFETY: it takes nothing.
    Proof::of(unsafe { sys::etcs_build_proof() }).unwrap_or(Proof::Unknown)
}

/// An output that may reach the train.
#[derive(Clone, Copy, Debug, Eq, PartialEq)]
pub struct Output {
    pub event: u64,
    pub mode: Mode,
    pub level: Level,
    pub brake: Brake,
    pub limit_m_per_h: u32,
    /// A bit for each of `enum etcs_indication`.
    pub indications: u8,
}

impl Output {
    /// An output, or the number of it that is unknown.
    fn of(raw: &sys::etcs_unit_output) -> Result<Output, u8> {
        Ok(Output {
            event: raw.event,
            mode: Mode::of(raw.mode.into()).ok_or(raw.mode)?,
            level: Level::of(raw.level.into()).ok_or(raw.level)?,
            brake: Brake::of(raw.brake.into()).ok_or(raw.brake)?,
            limit_m_per_h: raw.limit_m_per_h,
            indications: raw.indications,
        })
    }
}

/// What is obeyed until the next release: the newest output, with the most restrictive brake of all; none where there is no output.
pub fn command(outputs: &[Output]) -> Option<Output> {
    let brake = outputs.iter().map(|output| output.brake).max()?;
    outputs.last().map(|newest| Output { brake, ..*newest })
}

/// A medium of sectors. Each call returns only when it is done; a sync also when the medium lost no earlier write.
pub trait Medium {
    type Error;
    /// How many sectors it has: 1 and 6 for each slot.
    fn sectors(&self) -> u64;
    fn read(&mut self, sector: u64, bytes: &mut [u8; SECTOR]) -> Result<(), Self::Error>;
    /// Writes whole sectors.
    fn write(&mut self, sector: u64, bytes: &[u8]) -> Result<(), Self::Error>;
    fn sync(&mut self) -> Result<(), Self::Error>;
}

fn carry_out<M: Medium>(medium: &mut M, request: &sys::etcs_unit_request_info, bytes: &[u8]) -> Result<(), Error<M::Error>> {
    let done = if request.kind == u64::from(sys::ETCS_REQUEST_WRITE) {
        medium.write(request.sector, &bytes[..SECTOR * request.sectors as usize])
    } else {
        medium.sync()
    };
    done.map_err(Error::Medium)
}

/// Makes an empty journal of so many slots on a medium of 1 + 6 * slots sectors. Where its first sector is that of a journal it
/// answers [`Error::HasJournal`], and nothing was changed: so it may be called before each power-up.
pub fn format<M: Medium>(medium: &mut M, slots: u32) -> Result<(), Error<M::Error>> {
    let (mut first, mut facts) = ([0; SECTOR], sys::etcs_image::default());
    medium.read(0, &mut first).map_err(Error::Medium)?;
    // SAFETY: both places are good for what they point to.
    match unsafe { sys::etcs_image_facts_(first.as_ptr(), first.len() as u64, sys::ETCS_UNIT_ABI, &mut facts) } {
        sys::ETCS_UNIT_OK => Err(Error::HasJournal),
        sys::ETCS_UNIT_IMAGE_NOT_FORMATTED => wipe(medium, slots),
        status => check(status),
    }
}

/// The same, whatever the medium holds: all events of a journal there are lost. Never call it at a power-up.
pub fn wipe<M: Medium>(medium: &mut M, slots: u32) -> Result<(), Error<M::Error>> {
    let (mut request, mut bytes) = (sys::etcs_unit_request_info::default(), [0; SECTOR]);
    for index in 0.. {
        // SAFETY: both places are good for what they point to.
        match unsafe { sys::etcs_unit_format_request_(slots, index, &mut request, bytes.as_mut_ptr(), bytes.len() as u64) } {
            sys::ETCS_UNIT_NO_SUCH_REQUEST => break,
            status => check(status)?,
        }
        carry_out(medium, &request, &bytes)?;
    }
    Ok(())
}

/// A unit over a medium, of which it holds 16 sectors. It stays in its thread: a raw pointer is not `Send`.
pub struct Unit<M: Medium> {
    handle: Box<sys::etcs_unit>,
    medium: M,
}

impl<M: Medium> Unit<M> {
    /// Powers up, and returns the outputs of what the last life left. In doubt a train may have been moved: `Cold::Unknown`.
    pub fn open(medium: M, cold: Cold) -> Result<(Unit<M>, Vec<Output>), Error<M::Error>> {
        let mut unit = Unit { handle: Box::default(), medium };
        // SAFETY: the handle is all zeros, and stays where it is.
        check(unsafe { sys::etcs_unit_begin_(&mut *unit.handle, unit.medium.sectors(), cold as u32, sys::ETCS_UNIT_ABI) })?;
        let outputs = unit.release()?;
        Ok((unit, outputs))
    }

    pub fn medium(&self) -> &M {
        &self.medium
    }

    pub fn telegram(&mut self, bytes: &[u8]) -> Result<(), Error<M::Error>> {
        // SAFETY: the handle holds what the library left there, and the bytes are good for their length.
        check(unsafe { sys::etcs_unit_telegram_(&mut *self.handle, bytes.as_ptr(), bytes.len() as u64) })
    }

    pub fn odometer(&mut self, movement_cm: i64, speed_m_per_h: u32) -> Result<(), Error<M::Error>> {
        // SAFETY: as above.
        check(unsafe { sys::etcs_unit_odometer_(&mut *self.handle, movement_cm, speed_m_per_h) })
    }

    pub fn clock(&mut self, moment_ms: u64) -> Result<(), Error<M::Error>> {
        // SAFETY: as above.
        check(unsafe { sys::etcs_unit_clock_(&mut *self.handle, moment_ms) })
    }

    pub fn action(&mut self, action: Action) -> Result<(), Error<M::Error>> {
        // SAFETY: as above.
        check(unsafe { sys::etcs_unit_action_(&mut *self.handle, action as u32) })
    }

    pub fn identity(&mut self, identity: &str) -> Result<(), Error<M::Error>> {
        // SAFETY: as above.
        check(unsafe { sys::etcs_unit_identity_(&mut *self.handle, identity.as_ptr(), identity.len() as u64) })
    }

    pub fn running_number(&mut self, number: u32) -> Result<(), Error<M::Error>> {
        // SAFETY: as above.
        check(unsafe { sys::etcs_unit_running_number_(&mut *self.handle, number) })
    }

    pub fn train_data(&mut self, data: &TrainData) -> Result<(), Error<M::Error>> {
        // SAFETY: as above.
        check(unsafe { sys::etcs_unit_train_data_(&mut *self.handle, data) })
    }

    /// Writes the pending events to the medium, and returns what may reach the train.
    pub fn flush(&mut self) -> Result<Vec<Output>, Error<M::Error>> {
        // SAFETY: as above.
        check(unsafe { sys::etcs_unit_prepare_(&mut *self.handle) })?;
        self.release()
    }

    /// A request that fails makes the unit fail: it releases nothing more.
    fn release(&mut self) -> Result<Vec<Output>, Error<M::Error>> {
        let carried_out = self.carry_out_requests();
        if carried_out.is_err() {
            // SAFETY: as above.
            unsafe { sys::etcs_unit_fail_(&mut *self.handle) };
        }
        carried_out?;
        let (mut outputs, mut count) = ([sys::etcs_unit_output::default(); OUTPUTS], 0);
        // SAFETY: as above; there is room for all outputs.
        check(unsafe { sys::etcs_unit_release_(&mut *self.handle, outputs.as_mut_ptr(), OUTPUTS as u64, &mut count) })?;
        outputs[..count as usize].iter().map(|raw| Output::of(raw).map_err(|number| Error::Unknown(number.into()))).collect()
    }

    /// At power-up and in each flush: reads are handed in, and of writes and syncs it is said that they are done.
    fn carry_out_requests(&mut self) -> Result<(), Error<M::Error>> {
        let (mut request, mut bytes) = (sys::etcs_unit_request_info::default(), [0; REQUEST_BYTES]);
        loop {
            // SAFETY: as above; there is room for the bytes of each request.
            match unsafe { sys::etcs_unit_request_(&mut *self.handle, &mut request, bytes.as_mut_ptr(), bytes.len() as u64) } {
                sys::ETCS_UNIT_NO_SUCH_REQUEST => return Ok(()),
                status => check(status)?,
            }
            if request.kind == u64::from(sys::ETCS_REQUEST_READ) {
                let mut sector = [0; SECTOR];
                self.medium.read(request.sector, &mut sector).map_err(Error::Medium)?;
                // SAFETY: as above; the bytes are a sector.
                check(unsafe { sys::etcs_unit_provide_(&mut *self.handle, request.sector, sector.as_ptr(), SECTOR as u64) })?;
            } else {
                carry_out(&mut self.medium, &request, &bytes)?;
                // SAFETY: as above.
                check(unsafe { sys::etcs_unit_done_(&mut *self.handle) })?;
            }
        }
    }

    /// The state of the unit.
    pub fn state(&mut self) -> Result<State, Error<M::Error>> {
        let mut state = State::default();
        // SAFETY: as above.
        check(unsafe { sys::etcs_unit_state_(&mut *self.handle, &mut state) })?;
        Ok(state)
    }

    /// Why the newest released output is what it is, and what a display shows.
    pub fn why(&mut self) -> Result<Why, Error<M::Error>> {
        let mut why = Why::default();
        // SAFETY: as above.
        check(unsafe { sys::etcs_unit_why_(&mut *self.handle, &mut why) })?;
        Ok(why)
    }

    /// What the driver entered, and which actions of the driver the unit would accept now.
    pub fn driver(&mut self) -> Result<Driver, Error<M::Error>> {
        let mut driver = Driver::default();
        // SAFETY: as above.
        check(unsafe { sys::etcs_unit_driver_(&mut *self.handle, &mut driver) })?;
        Ok(driver)
    }

    /// Why each action of the driver wouldn't be accepted as the next input, after all inputs that were taken, released or not.
    pub fn refusals(&mut self) -> Result<Refusals, Error<M::Error>> {
        let mut refusals = Refusals::default();
        // SAFETY: as above.
        check(unsafe { sys::etcs_unit_refusals_(&mut *self.handle, &mut refusals) })?;
        Ok(refusals)
    }

    /// What becomes of the bytes of a balise, and of the groups that they close, if they are the next input. Show it only after the
    /// release of that input.
    pub fn preview_telegram(&mut self, bytes: &[u8]) -> Result<Preview, Error<M::Error>> {
        let mut preview = Preview::default();
        // SAFETY: as above; the pointer is good for the bytes.
        check(unsafe { sys::etcs_unit_preview_telegram_(&mut *self.handle, bytes.as_ptr(), bytes.len() as u64, &mut preview) })?;
        Ok(preview)
    }

    /// What becomes of the group that a reading closes, if it is the next input, as for `preview_telegram`.
    pub fn preview_odometer(&mut self, movement_cm: i64, speed_m_per_h: u32) -> Result<Preview, Error<M::Error>> {
        let mut preview = Preview::default();
        // SAFETY: as above.
        check(unsafe { sys::etcs_unit_preview_odometer_(&mut *self.handle, movement_cm, speed_m_per_h, &mut preview) })?;
        Ok(preview)
    }
}

impl<M: Medium> Drop for Unit<M> {
    fn drop(&mut self) {
        // SAFETY: as above; a unit that isn't open may be closed.
        unsafe { sys::etcs_unit_close_(&mut *self.handle) };
    }
}
