//! Makes the steps of a sequence simpler where its difference stays: fewer codes, limits, bids and
//! keys.

use crate::calls::book::{Book, WORDS};
use crate::calls::reduce::difference;
use crate::calls::script::keys::{self, Key};
use crate::calls::script::parted::Parted;
use crate::calls::script::SPACE;
use crate::calls::step::{Call, Step};
use independent::address::{first_five, LONG};
use independent::application::PLACES;
use independent::award::POSITIONS;

/// The sequence with each step as simple as its difference allows.
pub fn simplified<L: Book>(steps: &[Step]) -> Vec<Step> {
    let mut steps = steps.to_vec();
    let mut index = 0;
    while index < steps.len() {
        let simpler = simpler(&steps[index]).into_iter().map(|step| {
            let mut steps = steps.clone();
            steps[index] = step;
            steps
        });
        let found = simpler.into_iter().find(|steps| difference::<L>(steps).is_some());
        match found {
            Some(simpler) => steps = simpler,
            None => index += 1,
        }
    }
    steps
}

/// The step made simpler in one way after another.
fn simpler(step: &Step) -> Vec<Step> {
    let mut steps = Vec::new();
    let mut add = |simpler: Step| {
        if simpler != *step {
            steps.push(simpler);
        }
    };
    add(Step { words: WORDS, ..step.clone() });
    add(Step { numbers: step.call.told(), ..step.clone() });
    add(Step { sets: Vec::new(), ..step.clone() });
    for index in 0..step.sets.len() {
        let mut fewer = step.clone();
        fewer.sets.remove(index);
        add(fewer);
    }
    for call in simpler_calls(&step.call) {
        add(Step { call, ..step.clone() });
    }
    steps
}

fn simpler_calls(call: &Call) -> Vec<Call> {
    match call {
        Call::Open { codes, limits, message } => {
            let opening = |codes, limits, message| Call::Open { codes, limits, message };
            let fewer = fewer_admitted(codes, limits).into_iter();
            let fewer = fewer.map(|(codes, limits)| opening(codes, limits, message.clone()));
            let lower = fewer_limits(limits).into_iter();
            let lower = lower.map(|limits| opening(codes.clone(), limits, message.clone()));
            let messages = nearer(message, &keys::announcement(), &keys::ANNOUNCEMENT).into_iter();
            let messages = messages.map(|message| opening(codes.clone(), limits.clone(), message));
            fewer.chain(lower).chain(messages).collect()
        }
        Call::Receive { clock, message, space } => {
            let with = |message, space| Call::Receive { clock: *clock, message, space };
            let messages = nearer_applications(message).into_iter();
            let messages = messages.map(|message| with(message, *space));
            messages.chain([with(message.clone(), SPACE)]).collect()
        }
        Call::Allot { .. } => vec![Call::Allot { places: POSITIONS }],
        Call::Preview { .. } => vec![Call::Preview { places: POSITIONS }],
        _ => Vec::new(),
    }
}

/// The application with simpler addresses, and with the worked example's value for each of the keys.
fn nearer_applications(message: &[u8]) -> Vec<Vec<u8>> {
    let (worked, keys) = (Parted::worked(), application_keys());
    let Some(parted) = Parted::of(message) else { return nearer(message, &worked.message, &keys) };
    let senders = simpler_addresses(&parted.sender).into_iter();
    let senders = senders.map(|sender| Parted { sender, ..parted.clone() });
    let recipients = simpler_addresses(&parted.recipient).into_iter().chain([worked.recipient]);
    let recipients = recipients.map(|recipient| Parted { recipient, ..parted.clone() });
    let messages = nearer(&parted.message, &worked.message, &keys).into_iter();
    let others = messages.map(|message| Parted { message, ..parted.clone() });
    senders.chain(recipients).chain(others).map(|parted| parted.joined()).collect()
}

/// The short form of an address, and of a long one that with the plainest branch.
fn simpler_addresses(address: &[u8]) -> Vec<Vec<u8>> {
    let code = first_five(address);
    let mut simpler = vec![code.to_vec()];
    if address.len() == LONG {
        simpler.push([code, b"/00000/AB"].concat());
    }
    simpler
}

/// The keys of an application and those of its places.
fn application_keys() -> Vec<Key> {
    let places = (0..PLACES).rev().map(keys::whole_place);
    keys::APPLICATION.into_iter().chain(places).collect()
}

/// Either half of the codes, and the codes without each of them, with the limits that stand beside
/// them.
fn fewer_admitted(codes: &[u32], limits: &[u64]) -> Vec<(Vec<u32>, Vec<u64>)> {
    let limits = if limits.len() == codes.len() {
        fewer(limits)
    } else {
        vec![limits.to_vec(); codes.len() + 2]
    };
    fewer(codes).into_iter().zip(limits).collect()
}

/// Either half of a list, and the list without each of its elements.
fn fewer<T: Copy>(list: &[T]) -> Vec<Vec<T>> {
    let (first, second) = list.split_at(list.len() / 2);
    let mut lists = vec![first.to_vec(), second.to_vec()];
    for index in 0..list.len() {
        lists.push([&list[..index], &list[index + 1..]].concat());
    }
    lists
}

/// No limit for anybody, and no limit for each by itself.
fn fewer_limits(limits: &[u64]) -> Vec<Vec<u64>> {
    let mut lists = vec![vec![0; limits.len()]];
    for index in 0..limits.len() {
        let mut list = limits.to_vec();
        list[index] = 0;
        lists.push(list);
    }
    lists
}

/// The message with the worked example's value for each of the keys.
fn nearer(message: &[u8], worked: &[u8], keys: &[Key]) -> Vec<Vec<u8>> {
    if message.len() != worked.len() {
        return Vec::new();
    }
    let put = |key: &Key| {
        let mut nearer = message.to_vec();
        let bytes = key.start..key.start + key.width;
        nearer[bytes.clone()].copy_from_slice(&worked[bytes]);
        nearer
    };
    keys.iter().map(put).collect()
}
