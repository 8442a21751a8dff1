//! Measures the catalogue and the reader of books, through the exported functions, in processor time. Prints the Markdown table of each part
//! named: `plain`, `graphs`, `growth`, `growth-long`, `lines`, `reading`.

mod against_graphs;
mod against_plain;
mod every_line;
mod graphs;
mod growth;
mod library;
mod plain;
mod reading;
mod timing;

fn main() {
    for part in std::env::args().skip(1) {
        match part.as_str() {
            "plain" => against_plain::print(),
            "graphs" => against_graphs::print(),
            "growth" => growth::print(false),
            "growth-long" => growth::print(true),
            "lines" => every_line::print(),
            "reading" => reading::print(),
            _ => panic!("no part {part}"),
        }
    }
}
