//! The paper's cases, wrong turns and codes, and every point of the readings.

mod codes;
mod editions;
mod points;
mod readings;
mod restored;
mod tables;
mod watchrun;
mod wrong_turns;
