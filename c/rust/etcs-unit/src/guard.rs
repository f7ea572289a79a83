//! The guard next to the unit (c/include/etcs_guard.h).
use etcs_unit_sys as sys;

use crate::{check, Brake, Demanded, Direction, Error, GuardPolicy, Mode, Refused, Sureness};

/// The train as a telegram finds it.
#[derive(Clone, Copy, Debug)]
pub struct Situation {
    pub mode: Mode,
    pub direction: Direction,
    pub overridden: bool,
}

/// What a telegram demands.
#[derive(Clone, Copy, Debug)]
pub struct Demand {
    pub demanded: Demanded,
    pub sureness: Sureness,
    /// All of it, with the packet, its bits and the section of SUBSET-026.
    pub raw: sys::etcs_demand,
}

/// The guard of a unit, begun anew at each power-up.
pub struct Guard(sys::etcs_guard);

impl Guard {
    pub fn begin(policy: GuardPolicy) -> Result<Guard, Refused> {
        let mut guard = sys::etcs_guard::default();
        // SAFETY: the guard is all zeros, and the library keeps no pointer.
        check(unsafe { sys::etcs_guard_begin_(&mut guard, policy as u32) })?;
        Ok(Guard(guard))
    }

    /// Takes a telegram before the unit gets it, and returns its demands.
    pub fn hear(&mut self, bytes: &[u8], situation: Situation) -> Result<Vec<Demand>, Refused> {
        let situation = sys::etcs_situation {
            mode: situation.mode as u32,
            direction: situation.direction as u32,
            overridden: situation.overridden.into(),
        };
        let (len, mut count) = (bytes.len() as u64, 0);
        // SAFETY: the bytes are good for their length.
        check(unsafe { sys::etcs_guard_hear_(&mut self.0, bytes.as_ptr(), len, &situation, &mut count) })?;
        let demand = |index| {
            let mut raw = sys::etcs_demand::default();
            // SAFETY: as above.
            check(unsafe { sys::etcs_guard_demand_(bytes.as_ptr(), len, &situation, index, &mut raw) })?;
            let demanded = Demanded::of(raw.demanded).ok_or(Error::Unknown(raw.demanded))?;
            Ok(Demand { demanded, sureness: Sureness::of(raw.sureness).ok_or(Error::Unknown(raw.sureness))?, raw })
        };
        (0..count).map(demand).collect()
    }

    /// Hands in that the driver acknowledges the guard's brake, at this speed.
    pub fn acknowledge(&mut self, speed_m_per_h: u32) -> Result<(), Refused> {
        // SAFETY: as above.
        check(unsafe { sys::etcs_guard_acknowledge_(&mut self.0, speed_m_per_h) })
    }

    /// The brake to obey where the unit commands this one.
    pub fn command(&self, unit_brake: Brake) -> Result<Brake, Refused> {
        let mut brake = 0;
        // SAFETY: as above.
        check(unsafe { sys::etcs_guard_command_(&self.0, unit_brake as u32, &mut brake) })?;
        Brake::of(brake).ok_or(Error::Unknown(brake))
    }
}
