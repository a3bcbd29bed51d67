//! Seats and the way round the table. Lists by seat keep an unused place 0,
//! so that a seat's number is the paper's number.

pub type Seat = usize;

/// Every seat once, `first` first: rising number, wrapping.
pub fn clockwise_from(first: Seat, seats: usize) -> impl Iterator<Item = Seat> {
    (0..seats).map(move |step| (first - 1 + step) % seats + 1)
}

/// Every seat once, beginning with the seat after this one and ending with it.
pub fn clockwise_after(seat: Seat, seats: usize) -> impl Iterator<Item = Seat> {
    clockwise_from(seat % seats + 1, seats)
}
