//! Which zones hold each splice of a form board: the file, the questions, the table, the drawing.

pub mod ask;
pub mod board;
pub mod check;
pub mod decimal;
pub mod draw;
pub mod machine;
pub mod options;
pub mod read;
pub mod table;
pub mod wkb;
pub mod written;
