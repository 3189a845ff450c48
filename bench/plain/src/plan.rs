//! The plan of a client (docs/PROTOCOL.md): the commands for what is left of a program, and what each means.

use crate::line::{Command, Csy};
use crate::program::{Program, Step};
use crate::values::{Dir, Frame, Name, Point};

/// A command of the plan, by what it does.
#[derive(Clone, PartialEq, Eq, Debug)]
pub enum Planned {
    StartSession,
    ClearAllErrors,
    IsHomed,
    Home,
    OnPtMeasReport,
    /// `ChangeTool`
    Tool(Name),
    /// `SetCsyTransformation` before `SetCoordSystem(PartCsy)`, with the frame's zero point in machine axes (the command has each sign
    /// turned).
    Store(Point),
    /// `SetCoordSystem`
    Frame(Frame),
    /// `GoTo`, with the frame that is selected there
    Move(Point, Frame),
    /// `PtMeas`
    Touch(Touch),
    EndSession,
}

/// A touch of the plan.
#[derive(Clone, PartialEq, Eq, Debug)]
pub struct Touch {
    pub target: Point,
    pub direction: Option<Dir>,
    pub tool: Name,
    pub frame: Frame,
    /// Whether it is the last touch of its feature.
    pub is_last: bool,
}

impl Planned {
    /// The command as it is sent.
    #[inline]
    pub fn command(&self) -> Command {
        match self {
            Planned::StartSession => Command::StartSession,
            Planned::ClearAllErrors => Command::ClearAllErrors,
            Planned::IsHomed => Command::IsHomed,
            Planned::Home => Command::Home,
            Planned::OnPtMeasReport => Command::OnPtMeasReport,
            Planned::Tool(name) => Command::ChangeTool(name.clone()),
            Planned::Store(zero) => Command::SetCsyTransformation(zero.negated()),
            Planned::Frame(Frame::Machine) => Command::SetCoordSystem(Csy::Machine),
            Planned::Frame(Frame::Part(_)) => Command::SetCoordSystem(Csy::Part),
            Planned::Move(target, _) => Command::GoTo(*target),
            Planned::Touch(touch) => Command::PtMeas(touch.target, touch.direction),
            Planned::EndSession => Command::EndSession,
        }
    }
}

/// What a plan hands out next.
#[derive(Clone, Copy, PartialEq, Eq, Debug)]
enum Stage {
    StartSession,
    ClearAllErrors,
    IsHomed,
    Home,
    OnPtMeasReport,
    /// The tool that is selected where the steps begin.
    Tool,
    /// The frame that is selected there.
    Frame,
    /// `SetCoordSystem` after a `SetCsyTransformation`.
    PartFrame,
    Steps,
    Over,
}

/// The position in a plan: it hands out its commands one after the other, without a list of them.
#[derive(Clone, Debug)]
pub struct Plan {
    stage: Stage,
    /// The index of the next step.
    step: usize,
    /// The index of the feature that is completed next.
    feature: usize,
    /// What is selected before the next step.
    tool: Option<Name>,
    frame: Frame,
}

impl Plan {
    /// The plan after the first `kept` features; with `StartSession()` on a new connection.
    /// `kept` is at most the count of the program's features.
    pub fn new(program: &Program, kept: usize, is_new: bool) -> Plan {
        let step = match kept.checked_sub(1) {
            Some(last) => program.features[last].last as usize + 1,
            None => 0,
        };
        let before = &program.steps[..step];
        let tool = before.iter().rev().find_map(|step| match step {
            Step::Tool(name) => Some(name.clone()),
            _ => None,
        });
        let frame = before.iter().rev().find_map(|step| match step {
            Step::Frame(zero) => Some(Frame::Part(*zero)),
            _ => None,
        });
        let stage = if is_new { Stage::StartSession } else { Stage::ClearAllErrors };
        Plan { stage, step, feature: kept, tool, frame: frame.unwrap_or_default() }
    }

    /// The next command; none after the last. The caller always passes the program that the plan was made of.
    #[inline]
    pub fn next(&mut self, program: &Program) -> Option<Planned> {
        match self.stage {
            Stage::Steps => Some(self.next_step(program)),
            Stage::Over => None,
            _ => Some(self.next_before_steps()),
        }
    }

    /// What is sent before the steps, and between the two commands of a part's frame.
    fn next_before_steps(&mut self) -> Planned {
        let (planned, stage) = match self.stage {
            Stage::StartSession => (Planned::StartSession, Stage::ClearAllErrors),
            Stage::ClearAllErrors => (Planned::ClearAllErrors, Stage::IsHomed),
            Stage::IsHomed => (Planned::IsHomed, Stage::Home),
            Stage::Home => (Planned::Home, Stage::OnPtMeasReport),
            Stage::OnPtMeasReport if self.tool.is_none() => (Planned::OnPtMeasReport, Stage::Frame),
            Stage::OnPtMeasReport => (Planned::OnPtMeasReport, Stage::Tool),
            Stage::Tool if let Some(tool) = &self.tool => (Planned::Tool(tool.clone()), Stage::Frame),
            _ => match (self.stage, self.frame) {
                (Stage::Frame, Frame::Part(zero)) => (Planned::Store(zero), Stage::PartFrame),
                (_, frame) => (Planned::Frame(frame), Stage::Steps),
            },
        };
        self.stage = stage;
        planned
    }

    #[inline(always)]
    fn next_step(&mut self, program: &Program) -> Planned {
        let Some(step) = program.steps.get(self.step) else {
            self.stage = Stage::Over;
            return Planned::EndSession;
        };
        let at = self.step;
        self.step += 1;
        match step {
            Step::Move(target) => Planned::Move(*target, self.frame),
            Step::Touch(target, direction) => self.touch(program, at, *target, *direction),
            Step::Tool(name) => {
                self.tool = Some(name.clone());
                Planned::Tool(name.clone())
            }
            Step::Frame(zero) => {
                self.frame = Frame::Part(*zero);
                self.stage = Stage::PartFrame;
                Planned::Store(*zero)
            }
        }
    }

    /// A touch with what is selected at its place; a program has no touch before a tool is selected.
    #[inline(always)]
    fn touch(&mut self, program: &Program, at: usize, target: Point, direction: Option<Dir>) -> Planned {
        let tool = self.tool.clone().expect("a tool is selected before each touch");
        let is_last = program.features[self.feature].last as usize == at;
        self.feature += usize::from(is_last);
        Planned::Touch(Touch { target, direction, tool, frame: self.frame, is_last })
    }
}
