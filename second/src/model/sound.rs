//! "A state is sound when": 01, The station, one function to a clause. Of a held slot's length
//! request 2/14 of 02 took away "a multiple of 8", and the N that it gives has L/8 rounded up.
//!
//! "what isn't lent isn't judged": the clauses over the state alone are judged by every call
//! that is handed a state, those over desk octets by frames only (O9).

use crate::model::frame::COUNTER_MODULUS;
use crate::model::packet::{self, Application, COUNT_MODULUS};
use crate::model::station::{Slot, State, DESK_SIZE, MOST_BLOCKS, MOST_CHANNELS};
use crate::model::transport;

/// The clauses over the state alone.
pub fn state_is_sound(state: &State) -> bool {
    set_up_is_as_above(state)
        && each_block_is_free_or_of_a_held_slot(state)
        && held_slots(state).all(|(slot, file)| held_slot_is_sound(state, slot, file))
        && no_two_incomplete_slots_share_channel_and_application(state)
        && a_free_slot_is_all_zero(state)
        && each_desk_holds_at_most_8197_octets(state)
        && each_last_frame_counter_is_below_2_to_24(state)
        && where_no_frame_was_seen_counter_0_and_nothing_held(state)
}

/// The clauses over the desks' octets.
pub fn desks_are_sound(state: &State, desks: &[u8]) -> bool {
    state
        .watched_desks()
        .iter()
        .zip(desks.chunks(DESK_SIZE))
        .all(|(desk, octets)| {
            let held = usize::from(desk.held);
            zeros_after_the_held_octets(octets, held)
                && six_or_more_held_octets_read_as_a_good_header_of_a_longer_packet(octets, held)
        })
}

fn held_slots(state: &State) -> impl Iterator<Item = (usize, &Slot)> {
    state
        .slots
        .iter()
        .enumerate()
        .filter(|(_, file)| file.is_held())
}

fn held_slot_is_sound(state: &State, slot: usize, file: &Slot) -> bool {
    has_places_0_to_n_less_1_once_each(state, slot, file)
        && has_accepted_1_to_n_packets(file)
        && its_channel_is_watched(state, file)
        && its_application_is_at_most_2015(file)
        && its_length_is_nonzero(file)
        && its_last_count_is_below_16384(file)
}

/// "set-up is as above": 1 to 8 distinct channels 0 to 62, 1 to 4,096 blocks.
fn set_up_is_as_above(state: &State) -> bool {
    let channels = state.watched();
    let distinct = |(place, channel)| !channels[..place].contains(channel);
    (1..=MOST_CHANNELS).contains(&usize::from(state.number_of_channels))
        && channels
            .iter()
            .all(|channel| channel.0 <= crate::model::frame::Channel::HIGHEST)
        && channels.iter().enumerate().all(distinct)
        && (1..=MOST_BLOCKS).contains(&usize::from(state.number_of_blocks))
}

/// "each block is free or stands at one place of one held slot"
fn each_block_is_free_or_of_a_held_slot(state: &State) -> bool {
    state
        .lent_owners()
        .iter()
        .all(|&owner| match usize::from(owner).checked_sub(1) {
            None => true,
            Some(slot) => state.slots.get(slot).is_some_and(Slot::is_held),
        })
}

/// "a held slot with need N has places 0 to N-1 once each". The place of a block is its rank
/// among the slot's blocks (O7), so the places are 0 to N-1 exactly if there are N of them;
/// this is also "its length ... gives N", with L/8 rounded up (02, 2/14).
fn has_places_0_to_n_less_1_once_each(state: &State, slot: usize, file: &Slot) -> bool {
    state.blocks_of(slot).len() as u128 == transport::need(file.length)
}

/// "has accepted p packets, 1 to N"
fn has_accepted_1_to_n_packets(file: &Slot) -> bool {
    file.accepted >= 1 && u128::from(file.accepted) <= transport::need(file.length)
}

/// "its channel is watched"
fn its_channel_is_watched(state: &State, file: &Slot) -> bool {
    state.watched().contains(&file.channel)
}

/// "its application is at most 2015"
fn its_application_is_at_most_2015(file: &Slot) -> bool {
    file.application.0 <= Application::HIGHEST_FILE
}

/// "its length is nonzero": "Any L from 1 is good" (02, 2/14).
fn its_length_is_nonzero(file: &Slot) -> bool {
    transport::is_good_length(file.length)
}

/// "its last count is below 16,384"
fn its_last_count_is_below_16384(file: &Slot) -> bool {
    file.last_count < COUNT_MODULUS
}

/// "no two incomplete slots share channel and application"
fn no_two_incomplete_slots_share_channel_and_application(state: &State) -> bool {
    let incomplete: Vec<&Slot> = state
        .slots
        .iter()
        .filter(|file| file.is_incomplete())
        .collect();
    let same_pair = |a: &Slot, b: &Slot| a.channel == b.channel && a.application == b.application;
    incomplete.iter().enumerate().all(|(place, file)| {
        !incomplete[..place]
            .iter()
            .any(|other| same_pair(file, other))
    })
}

/// "a free slot is all zero"
fn a_free_slot_is_all_zero(state: &State) -> bool {
    state
        .slots
        .iter()
        .all(|file| file.is_held() || *file == Slot::default())
}

/// "each desk holds 0 to 8,197 octets"
fn each_desk_holds_at_most_8197_octets(state: &State) -> bool {
    state
        .watched_desks()
        .iter()
        .all(|desk| usize::from(desk.held) < DESK_SIZE)
}

/// "zeros after them"
fn zeros_after_the_held_octets(octets: &[u8], held: usize) -> bool {
    octets.iter().skip(held).all(|&octet| octet == 0)
}

/// "a last frame counter below 2^24"
fn each_last_frame_counter_is_below_2_to_24(state: &State) -> bool {
    state
        .watched_desks()
        .iter()
        .all(|desk| desk.last_counter < COUNTER_MODULUS)
}

/// "where no frame was seen, counter 0 and nothing held"
fn where_no_frame_was_seen_counter_0_and_nothing_held(state: &State) -> bool {
    let unseen = state.watched_desks().iter().filter(|desk| !desk.seen);
    unseen
        .into_iter()
        .all(|desk| desk.last_counter == 0 && desk.held == 0)
}

/// "six or more held octets read as a good packet header whose packet is longer than what is
/// held"
fn six_or_more_held_octets_read_as_a_good_header_of_a_longer_packet(
    octets: &[u8],
    held: usize,
) -> bool {
    match octets.get(..packet::HEADER_SIZE) {
        Some(six) if held >= packet::HEADER_SIZE => {
            let header = packet::header(six);
            !header.is_bad() && header.size() > held
        }
        _ => true,
    }
}
