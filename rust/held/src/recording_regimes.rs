//! Inputs of the listing: recordings of telegrams, heard well or badly.

use crate::damage::{
    bits_flipped, byte_damaged, clashes, faulty_slots, long_recording, low_packets, made_up,
    out_of_frame, random_recordings, tails, voltage_zero_heard,
};
use crate::loss::{
    changed_copies, heard_whole, interleaved, last_step_again, repeated, shuffled, steps_lost,
    telegrams_lost, thousands_lost,
};
use crate::regime::{Regime, Times};

pub const REGIMES: [Regime; 20] = [
    Regime {
        name: "heard-whole",
        sentence: "Every telegram of a run is heard.",
        make: heard_whole,
        times: Times::InTurn,
    },
    Regime {
        name: "steps-lost",
        sentence: "Runs of 1 to 12 whole steps are lost.",
        make: steps_lost,
        times: Times::InTurn,
    },
    Regime {
        name: "telegrams-lost",
        sentence: "Single telegrams and runs of them are lost.",
        make: telegrams_lost,
        times: Times::InTurn,
    },
    Regime {
        name: "thousands-lost",
        sentence: "Thousands of steps are lost: gaps round 8,191, 8,192 and 8,193.",
        make: thousands_lost,
        times: Times::InTurn,
    },
    Regime {
        name: "repeated",
        sentence: "Telegrams are repeated, at once or some telegrams later.",
        make: repeated,
        times: Times::InTurn,
    },
    Regime {
        name: "changed-copies",
        sentence: "Second copies of a packet have other contents than the first.",
        make: changed_copies,
        times: Times::InTurn,
    },
    Regime {
        name: "shuffled",
        sentence: "The telegrams of a step come in any order.",
        make: shuffled,
        times: Times::InTurn,
    },
    Regime {
        name: "interleaved",
        sentence: "The telegrams of two steps are interleaved.",
        make: interleaved,
        times: Times::InTurn,
    },
    Regime {
        name: "last-step-again",
        sentence: "Telegrams of the step last taken come while the next is in hand.",
        make: last_step_again,
        times: Times::InTurn,
    },
    Regime {
        name: "byte-damaged",
        sentence: "One byte of a telegram is damaged, in every place 0 to 25.",
        make: byte_damaged,
        times: Times::InTurn,
    },
    Regime {
        name: "bits-flipped",
        sentence: "One or a few bits of a telegram are flipped.",
        make: bits_flipped,
        times: Times::InTurn,
    },
    Regime {
        name: "out-of-frame",
        sentence: "Bytes are inserted or removed, so that all later ones are shifted.",
        make: out_of_frame,
        times: Times::InTurn,
    },
    Regime {
        name: "made-up",
        sentence: "Good slots with numbers by chance; steps jump by 0, 1, 7, 8, 9 and more.",
        make: made_up,
        times: Times::InTurn,
    },
    Regime {
        name: "clashes",
        sentence: "Sets clash across packets and are heard again, mended or not.",
        make: clashes,
        times: Times::InTurn,
    },
    Regime {
        name: "faulty-slots",
        sentence: "Slots have faults 12, 13, 6 and 14, one or two in a telegram.",
        make: faulty_slots,
        times: Times::InTurn,
    },
    Regime {
        name: "voltage-zero-heard",
        sentence: "Another writer sends countries with voltage 0, now and then bit 15 or 14.",
        make: voltage_zero_heard,
        times: Times::InTurn,
    },
    Regime {
        name: "tails",
        sentence: "The recording ends with a tail of 0 to 25 bytes.",
        make: tails,
        times: Times::InTurn,
    },
    Regime {
        name: "random-recordings",
        sentence: "The recording is random bytes.",
        make: random_recordings,
        times: Times::InTurn,
    },
    Regime {
        name: "low-packets",
        sentence: "Telegrams with packet numbers 0 to 2 come in between.",
        make: low_packets,
        times: Times::InTurn,
    },
    Regime {
        name: "long-recording",
        sentence: "A whole run past the wrap is heard, with some telegrams lost.",
        make: long_recording,
        times: Times::Few(2),
    },
];
