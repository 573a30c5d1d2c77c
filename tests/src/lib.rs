//! Tests of the gauge's board through its exported C calls, with an independent board to compare with.

pub mod board;
#[cfg(feature = "library")]
pub mod boundary;
pub mod independent;
pub mod model;
pub mod plain;
pub mod random;
pub mod trace;

/// The board under test: the exported calls, or the independent board where there is no library.
#[cfg(feature = "library")]
pub fn subject() -> boundary::Exported {
    boundary::Exported::new()
}

/// The board under test: the exported calls, or the independent board where there is no library.
#[cfg(not(feature = "library"))]
pub fn subject() -> independent::Model<model::fault::Sound> {
    independent::Model(model::fault::Sound)
}
