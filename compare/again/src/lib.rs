// The original a second time, behind the C functions that the port exports,
// so that the whole comparison runs before and without the port. MODEM_SLIP
// builds a slip into this copy or into what stands before it, which the
// comparison must then find.

// `settings.rs` asks for a feature that only the comparison has.
#![allow(unexpected_cfgs)]

include!(concat!(env!("OUT_DIR"), "/lib.rs"));

// `oracle.rs` says `original::..` and finds this copy here.
extern crate self as original;

// What stands before the original, as the build script copied it.
#[allow(dead_code)]
mod hearing {
    include!(concat!(env!("OUT_DIR"), "/hearing.rs"));
}
#[allow(dead_code)]
mod judge {
    include!(concat!(env!("OUT_DIR"), "/judge.rs"));
}
#[path = "../../src/layout.rs"]
#[allow(dead_code)]
mod layout;
mod oracle {
    include!(concat!(env!("OUT_DIR"), "/oracle.rs"));
}

// The original has no settings: their judge stands in for the port's.
#[path = "../../src/random.rs"]
#[allow(dead_code)]
mod random;
#[path = "../../src/settings.rs"]
mod settings;

mod exports;
