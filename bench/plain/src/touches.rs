//! A client of a program of touches, answered by a peer in memory (bench/WORK.md).

use crate::client::{Client, Refusal, State};
use crate::line::{Tag, write_complete, write_homed_data, write_point_data, write_received};
use crate::program::Program;
use crate::setup::Setup;
use crate::sums::{place, summed, summed_bytes};
use std::fmt::Write;

/// The touches of a feature, except for the last feature.
const FEATURE: u64 = 330;

/// How many points a client measures, and the sum over what it sent and measured; none if it is refused.
pub fn touches(touches: u64, window: u64) -> Option<(u64, u64)> {
    let program = Program::read(text(touches).as_bytes(), &Setup::default()).ok()?;
    let mut client = Client::new(&program, window)?;
    let sum = drive(&mut client).ok()?;
    let points = client.features().iter().flat_map(|feature| &feature.points);
    Some(points.fold((0, sum), |(count, sum), point| {
        (count + 1, [point.x, point.y, point.z].into_iter().fold(sum, |sum, length| summed(sum, length as u64)))
    }))
}

/// The program.
fn text(touches: u64) -> String {
    let mut text = String::from("DMISMN/'TOUCHES',05.2\nSNSLCT/S(P1)\n");
    for begin in (0..touches).step_by(FEATURE as usize) {
        let end = touches.min(begin + FEATURE);
        let _ = writeln!(text, "MEAS/POINT,F(F{}),{}", begin / FEATURE, end - begin);
        for number in begin..end {
            let _ = writeln!(text, "PTMEAS/CART,{number},1,2,0,0,1");
        }
        text.push_str("ENDMES\n");
    }
    text.push_str("ENDFIL\n");
    text
}

/// Drives a client to its end. Answers the sum over all that it sent.
fn drive(client: &mut Client) -> Result<u64, Refusal> {
    let mut peer = Peer::default();
    let mut sum = 0;
    client.connected(1)?;
    while client.state() != State::Done {
        while client.due().is_some() {
            client.send()?;
            peer.hear(&client.out);
            sum = summed_bytes(sum, &client.out);
            client.out.clear();
        }
        client.feed(&peer.answers)?;
        peer.answers.clear();
        while client.read_one()? {}
    }
    Ok(sum)
}

/// A peer that answers all commands at once, and is not homed.
#[derive(Default)]
struct Peer {
    touched: u64,
    answers: Vec<u8>,
}

impl Peer {
    fn hear(&mut self, line: &[u8]) {
        let Some((tag, call)) = Tag::cut(line) else { return };
        write_received(&mut self.answers, tag);
        if call.starts_with(b" PtMeas") {
            write_point_data(&mut self.answers, tag, place(self.touched));
            self.touched += 1;
        } else if call.starts_with(b" IsHomed") {
            write_homed_data(&mut self.answers, tag, false);
        }
        write_complete(&mut self.answers, tag);
    }
}
