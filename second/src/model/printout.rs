//! `printout` (docs/CATALOGUE.md): "reads a stored catalogue from standard input and prints it".

use std::io::{Read, Write};

use crate::model::catalogue::{self, File, Image};

/// "At most 32,768 octets are read, which is more than any catalogue has."
const MOST_OCTETS: u64 = 32_768;

/// "a line for each file, then a line for each channel", and the line with the numbers.
pub fn run(input: &mut dyn Read, out: &mut dyn Write) {
    let mut octets = Vec::new();
    let _ = input.take(MOST_OCTETS).read_to_end(&mut octets);
    let Some(list) = catalogue::listed(&octets) else {
        let _ = writeln!(out, "refused 31");
        return;
    };
    for (index, file) in list.iter().enumerate() {
        let _ = writeln!(out, "file {index} {}", file_words(file));
    }
    let channels = catalogue::channels_of(&list);
    for (channel, files) in &channels {
        let _ = writeln!(out, "channel {} files {files}", channel.0);
    }
    let (files, images) = (list.len(), catalogue::images_of(&list).len());
    let _ = writeln!(out, "END {files} {images} {}", channels.len());
}

/// "The part from `image` on stands only where the file has an entry in the image section."
fn file_words(file: &File) -> String {
    let facts = &file.facts;
    let words = format!(
        "channel {} application {} counter {} bits {} type {}",
        facts.channel.0, facts.application.0, facts.counter, facts.length, file.file_type
    );
    words + &file.image.as_ref().map_or(String::new(), image_words)
}

fn image_words(image: &Image) -> String {
    let Image {
        columns,
        lines,
        number,
        total,
    } = image;
    format!(" image {columns} by {lines} segment {number} of {total}")
}
