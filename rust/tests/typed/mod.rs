//! Texts that more than one test starts from.

/// The paper's sheet T in the one layout.
pub const T: &str = "chip 3 by 2
kind subset
width 2
net 1: 0 1-0
net 2: 1 5-1
net 3: 0 5-0
";

/// Three lines, so that a net line behind them is line 4.
pub const HEAD: &str = "chip 3 by 2\nkind subset\nwidth 2\n";

/// The line of the long mark.
pub const LONG: &str = "mark 57 49\n";
