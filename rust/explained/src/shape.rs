use protocol::Device;

/// The machine that a log is of: how many frames it has, and its devices by their numbers.
#[derive(Clone, Debug, PartialEq, Eq)]
pub struct Shape {
    pub frames: u32,
    pub devices: Vec<Device>,
}
