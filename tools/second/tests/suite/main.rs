//! Tests of the checker, written from the documents: the worked listing, the
//! marked cases, the limits, each refusal, and the readings taken.

mod build;
mod derived;
mod document;
mod generator;
mod limits;
mod readings;
mod refusals;
mod tables;
mod verdicts;
