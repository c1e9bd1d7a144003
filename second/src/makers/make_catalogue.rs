//! Makes catalogues, good and bad: the entries of their sections, and lists of files.
//!
//! Numbers are put down as they are, so that what is no catalogue can be made as well.

use crate::makers::make_header;
use crate::model::catalogue::{self, File, Image};
use crate::model::frame::Channel;
use crate::model::packet::Application;
use crate::model::station::Facts;

pub fn facts(channel: u8, application: u16, counter: u16, length: u64) -> Facts {
    Facts {
        channel: Channel(channel),
        application: Application(application),
        counter,
        length,
    }
}

/// A file of the list without an image.
pub fn plain(facts: Facts, file_type: u8) -> File {
    File {
        facts,
        file_type,
        image: None,
    }
}

/// A file of the list with an image, which is segment `segment.0` of `segment.1`.
pub fn picture(facts: Facts, columns: u16, lines: u16, segment: (u8, u8)) -> File {
    let (number, total) = segment;
    let image = Image {
        columns,
        lines,
        number,
        total,
    };
    File {
        image: Some(image),
        ..plain(facts, 0)
    }
}

/// An LRIT file without data whose header says what the list says of it. Zeros of a segment are
/// said by no segment record.
pub fn lrit(file: &File) -> Vec<u8> {
    let mut records = Vec::new();
    if let Some(image) = &file.image {
        records.push(make_header::image(8, image.columns, image.lines, 0));
        if (image.number, image.total) != (0, 0) {
            records.push(make_header::segment(image.number, image.total, 1));
        }
    }
    make_header::file(file.file_type, &records, &[])
}

/// Entry `index` of `channels` channels in turn.
fn nth(index: usize, channels: usize) -> Facts {
    let application = (7 * index % 2016) as u16;
    let length = 1 + 65_440 * index as u64;
    facts((index % channels) as u8, application, index as u16, length)
}

/// So many files without images, on so many channels in turn.
pub fn plain_files(number: usize, channels: usize) -> Vec<File> {
    let file = |index| plain(nth(index, channels), (index % 5) as u8);
    (0..number).map(file).collect()
}

/// So many files with images, on so many channels in turn.
pub fn pictures(number: usize, channels: usize) -> Vec<File> {
    let file = |index: usize| {
        let segment = ((index % 11) as u8, 10);
        picture(nth(index, channels), 2200, index as u16, segment)
    };
    (0..number).map(file).collect()
}

/// The greatest catalogue: "1,024 files, 1,024 images, 63 channels".
pub fn greatest() -> Vec<File> {
    let channels = usize::from(Channel::HIGHEST) + 1;
    pictures(catalogue::MOST_FILES, channels)
}

/// The entries of the three sections, as they come.
#[derive(Clone, Debug)]
pub struct Sections {
    pub files: Vec<Vec<u8>>,
    pub images: Vec<Vec<u8>>,
    pub channels: Vec<Vec<u8>>,
}

/// "channel 1, application 2, file counter 2, L 8, file type 1"
pub fn file_entry(file: &File) -> Vec<u8> {
    let mut entry = vec![file.facts.channel.0];
    entry.extend(file.facts.application.0.to_be_bytes());
    entry.extend(file.facts.counter.to_be_bytes());
    entry.extend(file.facts.length.to_be_bytes());
    entry.push(file.file_type);
    entry
}

/// "index of the file, from 0, 2; columns 2; lines 2; segment number 1; total 1"
pub fn image_entry(index: u16, columns: u16, lines: u16, segment: (u8, u8)) -> Vec<u8> {
    let numbers = [index, columns, lines].map(u16::to_be_bytes);
    [&numbers.concat()[..], &[segment.0, segment.1]].concat()
}

/// "channel 1, number of files 2"
pub fn channel_entry(channel: u8, files: u16) -> Vec<u8> {
    [&[channel][..], &files.to_be_bytes()].concat()
}

impl Sections {
    /// Those of a list, whose channels are counted one by one.
    pub fn of(list: &[File]) -> Sections {
        let mut images = Vec::new();
        for (index, file) in list.iter().enumerate() {
            if let Some(image) = &file.image {
                let segment = (image.number, image.total);
                images.push(image_entry(
                    index as u16,
                    image.columns,
                    image.lines,
                    segment,
                ));
            }
        }
        let with = |channel| {
            list.iter()
                .filter(move |file| file.facts.channel.0 == channel)
        };
        let channels = (0..=u8::MAX)
            .map(|channel| (channel, with(channel).count() as u16))
            .filter(|&(_, files)| files > 0);
        Sections {
            files: list.iter().map(file_entry).collect(),
            images,
            channels: channels
                .map(|(channel, files)| channel_entry(channel, files))
                .collect(),
        }
    }

    pub fn counts(&self) -> [u16; 3] {
        [&self.files, &self.images, &self.channels].map(|entries| entries.len() as u16)
    }

    /// "each after its count of two octets"
    pub fn octets(&self) -> Vec<u8> {
        self.behind_counts(self.counts())
    }

    /// The same behind counts of any kind.
    pub fn behind_counts(&self, counts: [u16; 3]) -> Vec<u8> {
        let sections = [&self.files, &self.images, &self.channels];
        let mut octets = Vec::new();
        for (entries, count) in sections.into_iter().zip(counts) {
            octets.extend(count.to_be_bytes());
            octets.extend(entries.concat());
        }
        octets
    }
}
