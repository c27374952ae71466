//! Points and vectors of the plane in f32, every operation in euclid's order, which is the order
//! document 01 gives. No multiplication is fused with an addition.

use crate::root::root;
use std::ops::{Add, Div, Mul, Neg, Sub};

#[derive(Clone, Copy, Debug, PartialEq)]
pub struct Vector {
    pub x: f32,
    pub y: f32,
}

#[derive(Clone, Copy, Debug, PartialEq)]
pub struct Point {
    pub x: f32,
    pub y: f32,
}

pub fn vector(x: f32, y: f32) -> Vector {
    Vector { x, y }
}

pub fn point(x: f32, y: f32) -> Point {
    Point { x, y }
}

impl Vector {
    pub fn square_length(self) -> f32 {
        self.x * self.x + self.y * self.y
    }

    /// "Length is the root of x*x + y*y."
    pub fn length(self) -> f32 {
        root(self.square_length())
    }

    /// "Normalizing divides both components by it."
    pub fn normalize(self) -> Vector {
        self / self.length()
    }

    pub fn dot(self, other: Vector) -> f32 {
        self.x * other.x + self.y * other.y
    }

    pub fn cross(self, other: Vector) -> f32 {
        self.x * other.y - self.y * other.x
    }

    /// The vector a quarter turn on: (-y, x).
    pub fn turned(self) -> Vector {
        vector(-self.y, self.x)
    }
}

impl Add for Vector {
    type Output = Vector;
    fn add(self, other: Vector) -> Vector {
        vector(self.x + other.x, self.y + other.y)
    }
}

impl Neg for Vector {
    type Output = Vector;
    fn neg(self) -> Vector {
        vector(-self.x, -self.y)
    }
}

impl Mul<f32> for Vector {
    type Output = Vector;
    fn mul(self, factor: f32) -> Vector {
        vector(self.x * factor, self.y * factor)
    }
}

impl Div<f32> for Vector {
    type Output = Vector;
    fn div(self, divisor: f32) -> Vector {
        vector(self.x / divisor, self.y / divisor)
    }
}

impl Add<Vector> for Point {
    type Output = Point;
    fn add(self, by: Vector) -> Point {
        point(self.x + by.x, self.y + by.y)
    }
}

impl Sub<Vector> for Point {
    type Output = Point;
    fn sub(self, by: Vector) -> Point {
        point(self.x - by.x, self.y - by.y)
    }
}

impl Sub for Point {
    type Output = Vector;
    fn sub(self, other: Point) -> Vector {
        vector(self.x - other.x, self.y - other.y)
    }
}
