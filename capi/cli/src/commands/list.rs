//! `vault list`: the words of an image.
use super::Command;
use crate::arguments::{Arguments, Options};
use crate::failure::Failure;
use crate::{files, rack};
use vault_library::{sizes, stripes, Refusal};

pub const COMMAND: Command = Command {
    name: "list",
    line: "print the words of a rack's image, position by position",
    help: "\
usage: vault list K S C IMAGE

Prints the words of an image as racklist does: for the full shelf (C) and then each filled
level, upward, a line per position: shelf, position, its 1 + S words in decimal, one space
between. Nothing is decoded: the words are those of the image, good or not.

  K S C   the plate's numbers: 2^K records of S words, C writes since the full shelf was
          last built
  IMAGE   a file, as 'vault image' writes it

Refused with exit status 1: 1 (plate), 2 (length).
",
    options: Options::NONE,
    run,
};

fn run(mut arguments: Arguments) -> Result<(), Failure> {
    let header = rack::header(&mut arguments)?;
    let path = arguments.needed("IMAGE")?;
    arguments.end()?;
    let image = rack::image(header, &path)?;
    if !header.fits() {
        return Err(Refusal::Header.into());
    }
    if image.len() != sizes::image(header.k, header.s) {
        return Err(Refusal::Length.into());
    }
    let mut text = String::new();
    for stripe in header.stripes() {
        let shelf = rack::shelf_name(header.k, stripe);
        for position in 0..stripes::positions(stripe) {
            let bytes = stripes::position(header.k, header.s, stripe, position);
            let of = format!("{shelf} {position}");
            rack::add_line(&mut text, of, stripes::words(&image, bytes));
        }
    }
    files::print(text.as_bytes())
}
