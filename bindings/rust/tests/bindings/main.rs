//! Tests of the bindings, against what they did not write where that is at hand: exact whole
//! numbers, the machine's own root, other programs' drawings, cavalier_contours' documentation.

mod boxed;
mod cavalier;
mod counted;
mod drawings;
mod floats;
mod grid;
mod growth;
mod header;
mod inputs;
mod large;
mod paths;
mod refusals;
mod variants;
mod walks;
