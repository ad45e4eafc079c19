//! Writes the lists of calls of tests/ in the text form of docs/JOURNAL.md.
//!
//! `lists edges`: the edges of document 01, each headed by a comment that names it.
//! `lists season`: a season of a field group, with every malformed line and document 01's refusals.
//! `lists lines`: readings as written in the field book, document 02's E1.
//! `lists weights`: weighted samples, document 02's E5.
//! `lists split`: a list broken in two, document 02's E8.
//! `lists windows`: window books, document 02's E11.
//! `lists losses`: losses line by line, document 02's E12.
//! `lists surface`: surfaces over two coordinates, document 02's E9.
//! `lists scores`: scores by degree.
//! `lists groups`: course groups with an allowance each, document 02's E10.
//! `lists glacier`: a season book of 32 stakes, document 02's E14.

mod edges;
mod glacier;
mod groups;
mod lines;
mod list;
mod losses;
mod scores;
mod season;
mod split;
mod surface;
mod weights;
mod windows;

use std::process::ExitCode;

fn main() -> ExitCode {
    let text = match std::env::args().nth(1).as_deref() {
        Some("edges") => edges::edges(),
        Some("season") => season::season(),
        Some("lines") => lines::lines(),
        Some("weights") => weights::weights(),
        Some("split") => split::split(),
        Some("windows") => windows::windows(),
        Some("losses") => losses::losses(),
        Some("surface") => surface::surface(),
        Some("scores") => scores::scores(),
        Some("groups") => groups::groups(),
        Some("glacier") => glacier::glacier(),
        _ => {
            eprintln!(
                "lists edges, season, lines, weights, split, windows, losses, surface, scores, groups, or glacier"
            );
            return ExitCode::FAILURE;
        }
    };
    print!("{text}");
    ExitCode::SUCCESS
}
