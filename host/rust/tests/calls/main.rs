//! Every call of the archive against a reckoning of its own: `reckoning` works the answers out from the paper, `draw` makes books, `seasons` moments and
//! windows, `guarded` makes the calls and watches what is lent to them, and `compare` holds the two against each other. The tests themselves are in the
//! other files.
mod buffers;
mod calendar;
mod compare;
mod draw;
mod drawn;
mod guarded;
mod hard;
mod moments;
mod orders;
mod reckoning;
mod restarts;
mod seasons;
mod texts;
