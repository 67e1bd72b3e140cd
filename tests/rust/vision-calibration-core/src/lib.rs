//! This is not vision-calibration-core. It has the three aliases of that crate's math/mod.rs that extrinsics.rs imports, over whatever nalgebra it is built with: here one that is not nalgebra but written from document 01's reading.

/// Scalar type used throughout the library (currently `f64`).
pub type Real = f64;
/// 3D vector with [`Real`] components.
pub type Vec3 = nalgebra::Vector3<Real>;
/// 3D rigid transform (SE(3)) using [`Real`].
pub type Iso3 = nalgebra::Isometry3<Real>;
