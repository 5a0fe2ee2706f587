//! What is asked of a sheet: a call that `sheets` lists, or Standard (M-101).

use sheets::Ask;

/// One call's inputs beside the sheet.
#[derive(Clone, Copy, Debug, Hash)]
pub enum Call<'a> {
    Listed(&'a Ask),
    /// `room` is the output's length.
    Standard {
        room: usize,
    },
}

impl<'a> From<&'a Ask> for Call<'a> {
    fn from(ask: &'a Ask) -> Self {
        Call::Listed(ask)
    }
}

impl<'a> Call<'a> {
    /// The call's name on the command line and in reports.
    pub fn name(&self) -> &'static str {
        match self {
            Call::Listed(Ask::Read) => "read",
            Call::Listed(Ask::Record { .. }) => "record",
            Call::Listed(Ask::Check { .. }) => "check",
            Call::Listed(Ask::Route { .. }) => "route",
            Call::Listed(Ask::Least { .. }) => "least",
            Call::Listed(Ask::Refit { .. }) => "refit",
            Call::Listed(Ask::Remove { .. }) => "remove",
            Call::Standard { .. } => "standard",
        }
    }

    /// The output's length; calls that write nothing have no output.
    pub fn room(&self) -> Option<usize> {
        match self {
            Call::Listed(ask) => ask.room(),
            Call::Standard { room } => Some(*room),
        }
    }

    /// Whether the call takes a list of dead wires.
    pub fn takes_list(&self) -> bool {
        match self {
            Call::Listed(ask) => ask.takes_list(),
            Call::Standard { .. } => false,
        }
    }

    /// The ticket that is lent.
    pub fn ticket(&self) -> Option<&'a [u8]> {
        match self {
            Call::Listed(ask) => ask.ticket(),
            Call::Standard { .. } => None,
        }
    }
}
