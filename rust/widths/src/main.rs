//! Prints, as a table in Markdown, the widths that the second program's greedy choice reaches on
//! circuits of the source paper, beside the smallest ones that the paper states.

#![deny(missing_docs)]
#![forbid(unsafe_code)]

fn main() {
    print!("{}", widths::paper::table());
}
