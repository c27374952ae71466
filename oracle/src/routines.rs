//! The listed routines as the driver asks for them: once our reading, once the cut text.

use crate::endpoint::Endpoint;
use crate::plane::Vector;
use crate::vertices::{Mesh, SideIds};
use crate::window::{LastThree, Window};
use crate::{join, normal, vertices};

pub trait Routines {
    type Window: Window;
    /// On its domain only; the refusal is the caller's.
    fn compute_normal(v1: Vector, v2: Vector) -> Vector;
    /// Both sides of a join, worked from the unmoved side points of rule 4.
    fn work_join(prev: &Endpoint, join: &Endpoint, next: &Endpoint, limit: f32) -> Endpoint;
    /// The vertices of a joint, positive side then negative.
    fn write_joint(joint: &Endpoint, mesh: &mut Mesh) -> [SideIds; 2];
    fn write_empty_cap(endpoint: &Endpoint, mesh: &mut Mesh);
}

/// Document 01 as we read it.
pub enum Reading {}

impl Routines for Reading {
    type Window = LastThree;

    fn compute_normal(v1: Vector, v2: Vector) -> Vector {
        normal::compute_normal(v1, v2)
    }

    fn work_join(prev: &Endpoint, join: &Endpoint, next: &Endpoint, limit: f32) -> Endpoint {
        join::work(prev, join, next, limit)
    }

    fn write_joint(joint: &Endpoint, mesh: &mut Mesh) -> [SideIds; 2] {
        vertices::write_joint(joint, mesh)
    }

    fn write_empty_cap(endpoint: &Endpoint, mesh: &mut Mesh) {
        vertices::write_empty_cap(endpoint, mesh)
    }
}
