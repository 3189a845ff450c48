//! What a server did and what a client measured (docs/PROTOCOL.md), and the texts of both (docs/FILES.md).

use crate::values::{Dir, Frame, Name, Point, write_component, write_length, write_whole};

/// What a command has done.
#[derive(Clone, PartialEq, Eq, Debug)]
pub enum Act {
    HomedIs(bool),
    Homed,
    Moved(Point, Frame),
    Changed(Name),
    Framed(Frame),
    Contact(Contact),
}

/// A touch that met the surface.
#[derive(Clone, PartialEq, Eq, Debug)]
pub struct Contact {
    pub target: Point,
    pub direction: Option<Dir>,
    pub tool: Name,
    pub frame: Frame,
    /// The point that was reported.
    pub point: Point,
}

/// A feature as it was measured.
#[derive(Clone, PartialEq, Eq, Debug)]
pub struct Measured {
    /// The connection on which its last point was counted.
    pub connection: u32,
    /// The frame of its last touch.
    pub frame: Frame,
    pub points: Vec<Point>,
}

/// Appends `x y z`.
pub fn write_place(out: &mut Vec<u8>, point: Point) {
    write_length(out, point.x);
    out.push(b' ');
    write_length(out, point.y);
    out.push(b' ');
    write_length(out, point.z);
}

/// Appends `M`, or `P x y z`.
pub fn write_frame(out: &mut Vec<u8>, frame: Frame) {
    match frame {
        Frame::Machine => out.push(b'M'),
        Frame::Part(zero) => {
            out.extend_from_slice(b"P ");
            write_place(out, zero);
        }
    }
}

/// Appends `N`, or `D i j k`.
pub fn write_direction(out: &mut Vec<u8>, direction: Option<Dir>) {
    let Some(direction) = direction else {
        out.push(b'N');
        return;
    };
    out.push(b'D');
    for component in [direction.i, direction.j, direction.k] {
        out.push(b' ');
        write_component(out, component);
    }
}

/// Appends an act without the number of its connection.
pub fn write_act(out: &mut Vec<u8>, act: &Act) {
    match act {
        Act::HomedIs(is_homed) => out.extend_from_slice(if *is_homed { b"HOMEDIS 1" } else { b"HOMEDIS 0" }),
        Act::Homed => out.extend_from_slice(b"HOMED"),
        Act::Moved(target, frame) => {
            out.extend_from_slice(b"MOVED ");
            write_place(out, *target);
            out.push(b' ');
            write_frame(out, *frame);
        }
        Act::Changed(tool) => {
            out.extend_from_slice(b"CHANGED ");
            out.extend_from_slice(tool.as_str().as_bytes());
        }
        Act::Framed(frame) => {
            out.extend_from_slice(b"FRAMED ");
            write_frame(out, *frame);
        }
        Act::Contact(contact) => write_contact(out, contact),
    }
}

fn write_contact(out: &mut Vec<u8>, contact: &Contact) {
    out.extend_from_slice(b"CONTACT ");
    write_place(out, contact.target);
    out.push(b' ');
    write_direction(out, contact.direction);
    out.push(b' ');
    out.extend_from_slice(contact.tool.as_str().as_bytes());
    out.push(b' ');
    write_frame(out, contact.frame);
    out.push(b' ');
    write_place(out, contact.point);
}

/// Appends a feature in one row: its label, its origin, and its points.
pub fn write_measured(out: &mut Vec<u8>, label: &str, feature: &Measured) {
    out.extend_from_slice(label.as_bytes());
    out.push(b' ');
    write_whole(out, u64::from(feature.connection));
    out.push(b' ');
    write_frame(out, feature.frame);
    for point in &feature.points {
        out.push(b' ');
        write_place(out, *point);
    }
}
