//! The second program: the paper on the BME280 and the BMP280 put into Rust a second time,
//! so that two programs written apart can be held against each other.

pub mod answers;
pub mod bmp;
pub mod bus;
pub mod calibration;
pub mod command;
pub mod compensation;
pub mod copying;
pub mod data;
pub mod day;
pub mod edges;
pub mod generate;
pub mod history;
pub mod ledger;
pub mod lines;
pub mod machine;
pub mod maps;
pub mod numbers;
pub mod part;
pub mod phase;
pub mod random;
pub mod record;
pub mod rooms;
pub mod sheet;
pub mod spelling;
pub mod steps;
pub mod streams;
pub mod two_words;
pub mod values;
pub mod visits;
pub mod waiting;
pub mod words;
