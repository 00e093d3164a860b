/// The level of the C interface that this crate calls, as the header has it. A library of another level stops the build,
/// or, where the build can't ask it, makes the first call panic.
pub const MESHEM_ABI: u32 = 5;
