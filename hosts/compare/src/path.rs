//! Paths and their order.
use crate::label::{dominates, is_label};
use std::cmp::Ordering;

/// The most steps of a path.
pub const DEPTH: usize = 6;

/// One step. The order is by name first, then by level from high to low, then by compartments from low to high.
#[derive(Clone, Copy, Default, PartialEq, Eq, Debug)]
pub struct Step {
    pub name: u16,
    pub label: u8,
}

impl Step {
    /// A number that is the lower the earlier the step comes: with the level's two bits turned over, the label's number
    /// falls from level to level.
    fn rank(self) -> u32 {
        u32::from(self.name) << 8 | u32::from(self.label ^ 0b11000)
    }

    /// The same for the order of before document 02's seventh request: by name first and then by label.
    fn old_rank(self) -> u32 {
        u32::from(self.name) << 8 | u32::from(self.label)
    }
}

impl Ord for Step {
    fn cmp(&self, other: &Step) -> Ordering {
        self.rank().cmp(&other.rank())
    }
}

impl PartialOrd for Step {
    fn partial_cmp(&self, other: &Step) -> Option<Ordering> {
        Some(self.cmp(other))
    }
}

/// A path of up to six steps; that of the root has none.
#[derive(Clone, Copy, Default, Debug)]
pub struct Path {
    steps: [Step; DEPTH],
    depth: u8,
}

impl Path {
    /// The path with these steps, at most six.
    pub fn new(given: &[Step]) -> Path {
        Path::of(given.len(), |at| given[at])
    }

    /// The path of this many steps, at most six, each given by its place.
    pub fn of(depth: usize, step: impl Fn(usize) -> Step) -> Path {
        let mut path = Path { steps: [Step::default(); DEPTH], depth: depth as u8 };
        for (at, to) in path.steps.iter_mut().enumerate().take(depth) {
            *to = step(at);
        }
        path
    }

    /// Reads a path of three bytes a step; nothing if it is not a valid one. The root's is read too.
    pub fn read(bytes: &[u8]) -> Option<Path> {
        let (given, rest) = bytes.as_chunks::<3>();
        if !rest.is_empty() || given.len() > DEPTH {
            return None;
        }
        let path = Path::of(given.len(), |at| {
            let [low, high, label] = given[at];
            Step { name: u16::from_le_bytes([low, high]), label }
        });
        path.is_valid().then_some(path)
    }

    /// Whether no name is 0, each label is one, and each dominates the one before.
    pub fn is_valid(&self) -> bool {
        self.steps().iter().all(|step| step.name != 0 && is_label(step.label))
            && self.steps().windows(2).all(|pair| dominates(pair[1].label, pair[0].label))
    }

    /// The path's steps.
    pub fn steps(&self) -> &[Step] {
        &self.steps[..self.depth()]
    }

    /// How many steps it has.
    pub fn depth(&self) -> usize {
        usize::from(self.depth)
    }

    /// Its last step's label; the root has none.
    pub fn label(&self) -> Option<u8> {
        self.steps().last().map(|step| step.label)
    }

    /// The steps but for the last.
    pub fn parent(&self) -> Path {
        self.beginning(self.depth().saturating_sub(1))
    }

    /// The first steps, so many of them.
    pub fn beginning(&self, depth: usize) -> Path {
        Path { steps: self.steps, depth: depth as u8 }
    }

    /// Adds a step, if there is room for it.
    pub fn push(&mut self, step: Step) -> Option<()> {
        *self.steps.get_mut(usize::from(self.depth))? = step;
        self.depth += 1;
        Some(())
    }

    /// Takes the last step off.
    pub fn pop(&mut self) {
        self.depth = self.depth.saturating_sub(1);
    }

    /// Whether it is the other path or extends it.
    pub fn extends(&self, other: &Path) -> bool {
        self.steps().starts_with(other.steps())
    }

    /// Which of two paths came first in the order of before.
    pub fn old_cmp(&self, other: &Path) -> Ordering {
        self.steps().iter().map(|step| step.old_rank()).cmp(other.steps().iter().map(|step| step.old_rank()))
    }

    /// How many steps both begin with.
    pub fn shared(&self, other: &Path) -> usize {
        self.steps().iter().zip(other.steps()).take_while(|(one, two)| one == two).count()
    }

    /// The path as three bytes a step.
    pub fn bytes(&self) -> Vec<u8> {
        let step = |step: &Step| {
            let [low, high] = step.name.to_le_bytes();
            [low, high, step.label]
        };
        self.steps().iter().flat_map(step).collect()
    }
}

impl Ord for Path {
    /// Step by step; a beginning comes before its extensions.
    fn cmp(&self, other: &Path) -> Ordering {
        self.steps().cmp(other.steps())
    }
}

impl PartialOrd for Path {
    fn partial_cmp(&self, other: &Path) -> Option<Ordering> {
        Some(self.cmp(other))
    }
}

impl PartialEq for Path {
    fn eq(&self, other: &Path) -> bool {
        self.steps() == other.steps()
    }
}

impl Eq for Path {}
