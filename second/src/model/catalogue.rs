//! The catalogue of the night (docs/CATALOGUE.md): its stored form and its calls.
//!
//! A catalogue is a list of files here. It is written whole each time, and octets are one exactly
//! if the list that they seem to hold is good and is written so: "Octets are a catalogue exactly if
//! they are what is written so for some list of files".

use std::collections::BTreeMap;

use crate::model::bits::Fields;
use crate::model::frame::Channel;
use crate::model::packet::Application;
use crate::model::records;
use crate::model::station::Facts;

/// "At most 1,024 files"
pub const MOST_FILES: usize = 1024;
/// "each after its count of two octets"
const COUNT_SIZE: usize = 2;
/// "channel 1, application 2, file counter 2, L 8, file type 1"
const FILE_SIZE: usize = 14;
/// "index of the file, from 0, 2; columns 2; lines 2; segment number 1; total 1"
const IMAGE_SIZE: usize = 8;

/// Why a call is refused.
#[derive(Clone, Copy, Debug, PartialEq, Eq)]
pub enum Refusal {
    /// "20 to 26 if the header is refused so"
    Header(records::Refusal),
    Full,
    NoCatalogue,
    ShortBuffer,
}

impl Refusal {
    fn number(self) -> u16 {
        match self {
            Refusal::Header(refusal) => refusal as u16,
            Refusal::Full => 30,
            Refusal::NoCatalogue => 31,
            Refusal::ShortBuffer => 34,
        }
    }
}

/// The number of an answer: 0 where nothing was refused.
pub fn number<T>(answer: &Result<T, Refusal>) -> u16 {
    answer.as_ref().err().map_or(0, |refusal| refusal.number())
}

/// What a catalogue knows of an image.
#[derive(Clone, Copy, Debug, PartialEq, Eq)]
pub struct Image {
    pub columns: u16,
    pub lines: u16,
    pub number: u8,
    pub total: u8,
}

/// A file of the list, "with or without the facts of an image".
#[derive(Clone, Debug, PartialEq, Eq)]
pub struct File {
    pub facts: Facts,
    pub file_type: u8,
    pub image: Option<Image>,
}

/// "one for each file with an image structure record, by rising index"
pub fn images_of(list: &[File]) -> Vec<(u16, Image)> {
    let indexed = list.iter().enumerate();
    indexed
        .filter_map(|(index, file)| Some((index as u16, file.image?)))
        .collect()
}

/// "rising, only those with files": each with its number of files.
pub fn channels_of(list: &[File]) -> Vec<(Channel, u16)> {
    let mut counts = BTreeMap::new();
    for file in list {
        *counts.entry(file.facts.channel.0).or_insert(0) += 1;
    }
    let named = |(channel, files)| (Channel(channel), files);
    counts.into_iter().map(named).collect()
}

fn file_entry(file: &File) -> Vec<u8> {
    let facts = &file.facts;
    [
        &[facts.channel.0][..],
        &facts.application.0.to_be_bytes(),
        &facts.counter.to_be_bytes(),
        &facts.length.to_be_bytes(),
        &[file.file_type],
    ]
    .concat()
}

fn image_entry(&(index, image): &(u16, Image)) -> Vec<u8> {
    [
        &index.to_be_bytes()[..],
        &image.columns.to_be_bytes(),
        &image.lines.to_be_bytes(),
        &[image.number, image.total],
    ]
    .concat()
}

/// "channel 1, number of files 2"
fn channel_entry(&(channel, files): &(Channel, u16)) -> Vec<u8> {
    [&[channel.0][..], &files.to_be_bytes()].concat()
}

/// A section behind its count.
fn section<T>(entries: &[T], entry: fn(&T) -> Vec<u8>) -> Vec<u8> {
    let written: Vec<Vec<u8>> = entries.iter().map(entry).collect();
    let count = (entries.len() as u16).to_be_bytes();
    [&count[..], &written.concat()].concat()
}

/// The stored form of a list: "Three sections, one behind the other ... and nothing behind them".
pub fn written(list: &[File]) -> Vec<u8> {
    [
        section(list, file_entry),
        section(&images_of(list), image_entry),
        section(&channels_of(list), channel_entry),
    ]
    .concat()
}

/// "with channels 0 to 62, applications up to 2015 and L at least 1"
fn are_good(facts: &Facts) -> bool {
    facts.channel.0 <= Channel::HIGHEST
        && facts.application.0 <= Application::HIGHEST_FILE
        && facts.length >= 1
}

/// The entries of the section at the front, and what is behind it; none where octets are missing.
fn cut_section(octets: &[u8], size: usize) -> Option<(Vec<&[u8]>, &[u8])> {
    let (count, behind) = octets.split_at_checked(COUNT_SIZE)?;
    let count = Fields::of(count).cut(16) as usize;
    let (entries, behind) = behind.split_at_checked(count * size)?;
    Some((entries.chunks(size).collect(), behind))
}

fn file_of(entry: &[u8]) -> File {
    let mut fields = Fields::of(entry);
    let facts = Facts {
        channel: Channel(fields.cut(8) as u8),
        application: Application(fields.cut(16) as u16),
        counter: fields.cut(16) as u16,
        length: fields.cut(64),
    };
    File {
        facts,
        file_type: fields.cut(8) as u8,
        image: None,
    }
}

/// The index of the file, and the facts of its image.
fn image_of(entry: &[u8]) -> (usize, Image) {
    let mut fields = Fields::of(entry);
    let index = fields.cut(16) as usize;
    let image = Image {
        columns: fields.cut(16) as u16,
        lines: fields.cut(16) as u16,
        number: fields.cut(8) as u8,
        total: fields.cut(8) as u8,
    };
    (index, image)
}

/// The list that some octets seem to hold. Neither the order of the images nor the channels are
/// looked at: that what is written for the list is compared with the octets settles both.
fn seeming_list(octets: &[u8]) -> Option<Vec<File>> {
    let (files, behind) = cut_section(octets, FILE_SIZE)?;
    let (images, _) = cut_section(behind, IMAGE_SIZE)?;
    let mut list: Vec<File> = files.into_iter().map(file_of).collect();
    for (index, image) in images.into_iter().map(image_of) {
        list.get_mut(index)?.image = Some(image);
    }
    Some(list)
}

/// The list of files that octets are the catalogue of; none if they are no catalogue.
pub fn listed(octets: &[u8]) -> Option<Vec<File>> {
    seeming_list(octets)
        .filter(|list| list.len() <= MOST_FILES)
        .filter(|list| list.iter().all(|file| are_good(&file.facts)))
        .filter(|list| written(list) == octets)
}

/// Begin: "34 if that has under six octets. Else it answers 0 with the number 6, and the first six
/// octets are zero."
pub fn begin(buffer: &mut [u8]) -> Result<usize, Refusal> {
    put(buffer, &written(&[]))
}

/// What is written "stands at the front of the buffer; what is behind it stays".
fn put(buffer: &mut [u8], octets: &[u8]) -> Result<usize, Refusal> {
    let front = buffer.get_mut(..octets.len());
    front.ok_or(Refusal::ShortBuffer)?.copy_from_slice(octets);
    Ok(octets.len())
}

/// The file's entry: type, columns and lines, segment number and total as its header has them.
/// "A file's segment number and total are zeros where its header has no segment record", and "A
/// segment record without an image structure record says nothing here."
fn entry_of(facts: &Facts, header: &records::Header) -> File {
    let segment = header.segment.as_ref();
    let (number, total) = segment.map_or((0, 0), |segment| (segment.number, segment.total));
    let image = header.image.as_ref().map(|image| Image {
        columns: image.columns,
        lines: image.lines,
        number,
        total,
    });
    File {
        facts: facts.clone(),
        file_type: header.primary.file_type,
        image,
    }
}

/// Enter: reads the list, adds the file and writes the list. "It answers, the lowest number that
/// applies", and "A call that is refused changes nothing."
pub fn enter(buffer: &mut [u8], octets: u64, facts: &Facts, file: &[u8]) -> Result<usize, Refusal> {
    let header = records::header(file).map_err(Refusal::Header)?;
    let handed_in = usize::try_from(octets).ok();
    let list = handed_in.and_then(|octets| listed(buffer.get(..octets)?));
    if list.as_ref().is_some_and(|list| list.len() == MOST_FILES) {
        return Err(Refusal::Full);
    }
    let mut list = list.ok_or(Refusal::NoCatalogue)?;
    if !are_good(facts) {
        return Err(Refusal::NoCatalogue);
    }
    list.push(entry_of(facts, &header));
    put(buffer, &written(&list))
}

/// "the numbers of files, images and channels"
#[derive(Clone, Debug, PartialEq, Eq)]
pub struct Numbers {
    pub files: usize,
    pub images: usize,
    pub channels: usize,
}

fn list_or_31(octets: &[u8]) -> Result<Vec<File>, Refusal> {
    listed(octets).ok_or(Refusal::NoCatalogue)
}

/// Read: "31 if they are no catalogue, else 0 with the numbers".
pub fn read(octets: &[u8]) -> Result<Numbers, Refusal> {
    let list = list_or_31(octets)?;
    Ok(Numbers {
        files: list.len(),
        images: images_of(&list).len(),
        channels: channels_of(&list).len(),
    })
}

/// "entry n, from 0, of that section; or with nothing, if the section has no entry n"
fn nth<T: Clone>(entries: &[T], n: u64) -> Option<T> {
    entries.get(usize::try_from(n).ok()?).cloned()
}

pub fn file(octets: &[u8], n: u64) -> Result<Option<File>, Refusal> {
    Ok(nth(&list_or_31(octets)?, n))
}

pub fn image(octets: &[u8], n: u64) -> Result<Option<(u16, Image)>, Refusal> {
    Ok(nth(&images_of(&list_or_31(octets)?), n))
}

pub fn channel(octets: &[u8], n: u64) -> Result<Option<(Channel, u16)>, Refusal> {
    Ok(nth(&channels_of(&list_or_31(octets)?), n))
}
