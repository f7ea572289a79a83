//! The guard in Rust. It prints what guard.c prints.
//!
//!     ETCS_UNIT_LIB=PREFIX/lib cargo run --offline --bin guard
use etcs_unit::{Brake, Direction, Guard, GuardPolicy, Mode, Refused, Situation};

const MODES: [Mode; 5] = [Mode::FullSupervision, Mode::OnSight, Mode::StaffResponsible, Mode::Shunting, Mode::Unfitted];

/// A packet 137 for both directions with Q_SRSTOP 0.
const STOP: [u8; 11] = [0x90, 0x00, 0x7F, 0x80, 0x20, 0x01, 0x62, 0x60, 0x0C, 0x3F, 0xC0];

fn run() -> Result<(), Refused> {
    let mut demands = Vec::new();
    for mode in MODES {
        let mut guard = Guard::begin(GuardPolicy::Strict)?;
        demands.extend(guard.hear(&STOP, Situation { mode, direction: Direction::Nominal, overridden: false })?);
        println!("{}: {}", mode.name(), guard.command(Brake::None)?.name());
    }
    for demand in demands {
        let raw = demand.raw;
        let (demanded, sureness) = (demand.demanded.name(), demand.sureness.name());
        println!("packet {}: {demanded}, {}.{}.{}, {sureness}", raw.packet, raw.chapter, raw.section, raw.clause);
    }
    Ok(())
}

fn main() {
    if let Err(refused) = run() {
        println!("emergency brake: {refused}");
        std::process::exit(1);
    }
}
