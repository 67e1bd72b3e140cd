//! This is not nalgebra. It stands in for the few types of nalgebra that extrinsics.rs uses, written from document 01's reading of nalgebra's rounding order ("Poses and roots", "Averaging").
//!
//! Each operation rounds in the order that the paper gives, and in no other place does anything here decide an answer.

use std::ops::{Add, AddAssign, Deref, Div, Mul, Neg};

#[derive(Debug, Clone, Copy, PartialEq)]
pub struct Vector3<T> {
    pub x: T,
    pub y: T,
    pub z: T,
}

impl Vector3<f64> {
    #[inline]
    pub fn new(x: f64, y: f64, z: f64) -> Self {
        Self { x, y, z }
    }

    #[inline]
    pub fn zeros() -> Self {
        Self::new(0.0, 0.0, 0.0)
    }

    #[inline]
    pub fn cross(&self, b: &Self) -> Self {
        Self::new(
            self.y * b.z - self.z * b.y,
            self.z * b.x - self.x * b.z,
            self.x * b.y - self.y * b.x,
        )
    }
}

impl Add for Vector3<f64> {
    type Output = Self;
    #[inline]
    fn add(self, b: Self) -> Self {
        Self::new(self.x + b.x, self.y + b.y, self.z + b.z)
    }
}

impl AddAssign for Vector3<f64> {
    #[inline]
    fn add_assign(&mut self, b: Self) {
        *self = *self + b;
    }
}

impl Mul<f64> for Vector3<f64> {
    type Output = Self;
    #[inline]
    fn mul(self, s: f64) -> Self {
        Self::new(self.x * s, self.y * s, self.z * s)
    }
}

/// "the sum is divided by the count, one rounding for each number"
impl Div<f64> for Vector3<f64> {
    type Output = Self;
    #[inline]
    fn div(self, n: f64) -> Self {
        Self::new(self.x / n, self.y / n, self.z / n)
    }
}

impl Neg for Vector3<f64> {
    type Output = Self;
    #[inline]
    fn neg(self) -> Self {
        Self::new(-self.x, -self.y, -self.z)
    }
}

#[derive(Debug, Clone, Copy, PartialEq)]
pub struct Vector4<T> {
    pub x: T,
    pub y: T,
    pub z: T,
    pub w: T,
}

impl Vector4<f64> {
    #[inline]
    pub fn new(x: f64, y: f64, z: f64, w: f64) -> Self {
        Self { x, y, z, w }
    }

    #[inline]
    pub fn zeros() -> Self {
        Self::new(0.0, 0.0, 0.0, 0.0)
    }

    /// "a dot product of four, and so a squared norm, adds (first + third) to (second + fourth)"
    #[inline]
    pub fn dot(&self, b: &Self) -> f64 {
        (self.x * b.x + self.z * b.z) + (self.y * b.y + self.w * b.w)
    }

    #[inline]
    pub fn norm_squared(&self) -> f64 {
        self.dot(self)
    }

    /// "normalised (each number divided by the root of the squared norm)"
    #[inline]
    pub fn normalize(&self) -> Self {
        *self / self.norm_squared().sqrt()
    }
}

impl Add for Vector4<f64> {
    type Output = Self;
    #[inline]
    fn add(self, b: Self) -> Self {
        Self::new(self.x + b.x, self.y + b.y, self.z + b.z, self.w + b.w)
    }
}

impl AddAssign for Vector4<f64> {
    #[inline]
    fn add_assign(&mut self, b: Self) {
        *self = *self + b;
    }
}

impl Mul<f64> for Vector4<f64> {
    type Output = Self;
    #[inline]
    fn mul(self, s: f64) -> Self {
        Self::new(self.x * s, self.y * s, self.z * s, self.w * s)
    }
}

impl Div<f64> for Vector4<f64> {
    type Output = Self;
    #[inline]
    fn div(self, n: f64) -> Self {
        Self::new(self.x / n, self.y / n, self.z / n, self.w / n)
    }
}

/// Coordinates i, j, k, w.
#[derive(Debug, Clone, Copy, PartialEq)]
pub struct Quaternion<T> {
    pub coords: Vector4<T>,
}

impl Quaternion<f64> {
    #[inline]
    pub fn new(w: f64, i: f64, j: f64, k: f64) -> Self {
        Self::from_vector(Vector4::new(i, j, k, w))
    }

    #[inline]
    pub fn from_vector(coords: Vector4<f64>) -> Self {
        Self { coords }
    }

    #[inline]
    pub fn normalize(&self) -> Self {
        Self::from_vector(self.coords.normalize())
    }

    /// Hamilton's product, "left to right".
    #[inline]
    fn product(&self, other: &Self) -> Self {
        let Vector4 { x: i, y: j, z: k, w } = self.coords;
        let Vector4 { x: i2, y: j2, z: k2, w: w2 } = other.coords;
        Self::new(
            w * w2 - i * i2 - j * j2 - k * k2,
            w * i2 + i * w2 + j * k2 - k * j2,
            w * j2 - i * k2 + j * w2 + k * i2,
            w * k2 + i * j2 - j * i2 + k * w2,
        )
    }

    #[inline]
    fn conjugate(&self) -> Self {
        let q = self.coords;
        Self::new(q.w, -q.x, -q.y, -q.z)
    }
}

/// Any four numbers are taken as a rotation: nothing here holds them to norm 1.
#[derive(Debug, Clone, Copy, PartialEq)]
pub struct UnitQuaternion<T> {
    quaternion: Quaternion<T>,
}

impl UnitQuaternion<f64> {
    #[inline]
    pub fn new_unchecked(quaternion: Quaternion<f64>) -> Self {
        Self { quaternion }
    }

    #[inline]
    pub fn identity() -> Self {
        Self::new_unchecked(Quaternion::new(1.0, 0.0, 0.0, 0.0))
    }

    /// "normalised again, as `normalize` and `from_quaternion` both do"
    #[inline]
    pub fn from_quaternion(q: Quaternion<f64>) -> Self {
        Self::new_unchecked(q.normalize())
    }

    /// "v is rotated by taking t = 2 × (q's vector part crossed with v), then w × t, plus q's vector part crossed with t, plus v"
    #[inline]
    fn transform_vector(&self, v: &Vector3<f64>) -> Vector3<f64> {
        let q = self.quaternion.coords;
        let u = Vector3::new(q.x, q.y, q.z);
        let t = u.cross(v) * 2.0;
        t * q.w + u.cross(&t) + *v
    }
}

impl Deref for UnitQuaternion<f64> {
    type Target = Quaternion<f64>;
    #[inline]
    fn deref(&self) -> &Quaternion<f64> {
        &self.quaternion
    }
}

#[derive(Debug, Clone, Copy, PartialEq)]
pub struct Translation3<T> {
    pub vector: Vector3<T>,
}

impl Translation3<f64> {
    #[inline]
    pub fn new(x: f64, y: f64, z: f64) -> Self {
        Self::from(Vector3::new(x, y, z))
    }
}

impl From<Vector3<f64>> for Translation3<f64> {
    #[inline]
    fn from(vector: Vector3<f64>) -> Self {
        Self { vector }
    }
}

#[derive(Debug, Clone, Copy, PartialEq)]
pub struct Isometry3<T> {
    pub rotation: UnitQuaternion<T>,
    pub translation: Translation3<T>,
}

impl Isometry3<f64> {
    #[inline]
    pub fn from_parts(translation: Translation3<f64>, rotation: UnitQuaternion<f64>) -> Self {
        Self { rotation, translation }
    }

    #[inline]
    pub fn identity() -> Self {
        Self::from_parts(Vector3::zeros().into(), UnitQuaternion::identity())
    }

    /// "The inverse conjugates the rotation, negates the translation, then rotates it by the conjugate."
    #[inline]
    pub fn inverse(&self) -> Self {
        let rotation = UnitQuaternion::new_unchecked(self.rotation.conjugate());
        let negated = -self.translation.vector;
        Self::from_parts(rotation.transform_vector(&negated).into(), rotation)
    }

    /// "A pose product rotates the right translation by the left rotation, adds the left translation, and multiplies rotations."
    #[inline]
    fn product(&self, right: &Self) -> Self {
        let shift = self.rotation.transform_vector(&right.translation.vector);
        Self::from_parts(
            (self.translation.vector + shift).into(),
            UnitQuaternion::new_unchecked(self.rotation.product(&right.rotation)),
        )
    }
}

impl Mul<Isometry3<f64>> for Isometry3<f64> {
    type Output = Isometry3<f64>;
    #[inline]
    fn mul(self, right: Isometry3<f64>) -> Isometry3<f64> {
        self.product(&right)
    }
}

impl<'b> Mul<&'b Isometry3<f64>> for Isometry3<f64> {
    type Output = Isometry3<f64>;
    #[inline]
    fn mul(self, right: &'b Isometry3<f64>) -> Isometry3<f64> {
        self.product(right)
    }
}

impl<'a> Mul<Isometry3<f64>> for &'a Isometry3<f64> {
    type Output = Isometry3<f64>;
    #[inline]
    fn mul(self, right: Isometry3<f64>) -> Isometry3<f64> {
        self.product(&right)
    }
}
