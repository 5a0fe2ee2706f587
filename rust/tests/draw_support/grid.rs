//! Which boxes a channel joins, from the paper's numbers of channels.

/// Column and row.
pub type Place = (i64, i64);

/// The two boxes of a channel: left and right, or lower and upper.
pub fn boxes_of(columns: i64, rows: i64, channel: i64) -> Option<[Place; 2]> {
    for row in 0..rows {
        for column in 0..columns {
            if column + 1 < columns && row * (columns - 1) + column == channel {
                return Some([(column, row), (column + 1, row)]);
            }
            if row + 1 < rows && rows * (columns - 1) + row * columns + column == channel {
                return Some([(column, row), (column, row + 1)]);
            }
        }
    }
    None
}

/// The box where two different channels meet.
pub fn meeting(one: [Place; 2], other: [Place; 2]) -> Option<Place> {
    one.into_iter()
        .find(|place| other.contains(place) && one != other)
}
