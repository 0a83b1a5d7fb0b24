//! The DF election finite state machine, a second time, from document 02 (M-100) alone.
//!
//! A `Slip` makes one mistake that the document is easily read into, or that code easily makes:
//! the comparison's inputs must tell each of them from the machine without one.

pub const INIT: u8 = 0;
pub const DF_WAIT: u8 = 1;
pub const DF_CALC: u8 = 2;
pub const DF_DONE: u8 = 3;

pub const ES_UP: u8 = 0;
pub const ES_DOWN: u8 = 1;
pub const VLAN_CHANGE: u8 = 2;
pub const RCVD_ES: u8 = 3;
pub const LOST_ES: u8 = 4;
pub const DF_TIMER: u8 = 5;
pub const CALCULATED: u8 = 6;

#[derive(Clone, Copy, PartialEq, Eq, Debug)]
pub enum Slip {
    None,
    DownIgnoredInDone,
    LostRouteIgnored,
    TimerIgnoredAsEvent,
    CalculatedInWait,
    UpRestartsInWait,
    UpRestartsInDone,
    DownForgetsStart,
    EarlyBySecond,
    LateBySecond,
    ClockSaturates,
    ClockCompares,
    ReadingEndsCalc,
    Wait601,
    Wait0,
    Wait600Refused,
    RefusedKeepsWait,
    EventSevenIsUp,
}

pub const SLIPS: [Slip; 17] = [
    Slip::DownIgnoredInDone,
    Slip::LostRouteIgnored,
    Slip::TimerIgnoredAsEvent,
    Slip::CalculatedInWait,
    Slip::UpRestartsInWait,
    Slip::UpRestartsInDone,
    Slip::DownForgetsStart,
    Slip::EarlyBySecond,
    Slip::LateBySecond,
    Slip::ClockSaturates,
    Slip::ClockCompares,
    Slip::ReadingEndsCalc,
    Slip::Wait601,
    Slip::Wait0,
    Slip::Wait600Refused,
    Slip::RefusedKeepsWait,
    Slip::EventSevenIsUp,
];

/// What is handed in.
#[derive(Clone, Copy, Debug)]
pub enum Item {
    Event { number: u8, now: u32 },
    Reading { now: u32 },
    Make { wait: u32 },
}

#[derive(Clone, Copy, PartialEq, Eq, Debug)]
pub struct Machine {
    pub state: u8,
    pub wait: u32,
    pub since: u32,
}

/// A number, 0 or a refusal, and the machine afterwards.
#[derive(Clone, Copy, PartialEq, Eq, Debug)]
pub struct Answer {
    pub number: u8,
    pub machine: Machine,
}

const AT_REST: Machine = Machine {
    state: INIT,
    wait: 0,
    since: 0,
};

/// The machine before the first item: the one that a wait of 0 is refused with.
pub const FIRST: Machine = AT_REST;

fn make(wait: u32, slip: Slip) -> Answer {
    let highest = match slip {
        Slip::Wait601 => 601,
        Slip::Wait600Refused => 599,
        _ => 600,
    };
    let lowest = if slip == Slip::Wait0 { 0 } else { 1 };
    if (lowest..=highest).contains(&wait) {
        return Answer {
            number: 0,
            machine: Machine { wait, ..AT_REST },
        };
    }
    let kept = if slip == Slip::RefusedKeepsWait {
        wait
    } else {
        0
    };
    Answer {
        number: 17,
        machine: Machine {
            wait: kept,
            ..AT_REST
        },
    }
}

/// "ES_DOWN leads to INIT from anywhere; INIT leaves on ES_UP only, to DF_WAIT; DF_WAIT on
/// DF_TIMER, to DF_CALC; DF_CALC on CALCULATED, to DF_DONE; DF_DONE on VLAN_CHANGE, RCVD_ES or
/// LOST_ES, to DF_CALC; every other cell stays."
fn next_state(state: u8, event: u8, slip: Slip) -> u8 {
    if event == ES_DOWN {
        return if slip == Slip::DownIgnoredInDone && state == DF_DONE {
            DF_DONE
        } else {
            INIT
        };
    }
    match state {
        INIT if event == ES_UP => DF_WAIT,
        DF_WAIT if event == DF_TIMER => DF_CALC,
        DF_WAIT if event == CALCULATED && slip == Slip::CalculatedInWait => DF_DONE,
        DF_CALC if event == CALCULATED => DF_DONE,
        DF_DONE if event == LOST_ES && slip == Slip::LostRouteIgnored => DF_DONE,
        DF_DONE if [VLAN_CHANGE, RCVD_ES, LOST_ES].contains(&event) => DF_CALC,
        _ => state,
    }
}

fn drive(m: Machine, event: u8, now: u32, slip: Slip) -> Machine {
    let restarts = m.state == INIT
        || (m.state == DF_WAIT && slip == Slip::UpRestartsInWait)
        || (m.state == DF_DONE && slip == Slip::UpRestartsInDone);
    let mut since = if event == ES_UP && restarts {
        now
    } else {
        m.since
    };
    if event == ES_DOWN && slip == Slip::DownForgetsStart {
        since = 0;
    }
    Machine {
        state: next_state(m.state, event, slip),
        since,
        ..m
    }
}

/// Whether a clock reading yields DF_TIMER: "exactly in DF_WAIT with the time waited at least the
/// wait", where "time waited is the later reading minus the earlier, modulo 2^32".
fn yields_timer(m: Machine, now: u32, slip: Slip) -> bool {
    const CLOCK: u64 = 1 << 32;
    let (now, since, wait) = (u64::from(now), u64::from(m.since), u64::from(m.wait));
    let waited = (CLOCK + now - since) % CLOCK;
    let in_time = match slip {
        Slip::EarlyBySecond => waited + 1 >= wait,
        Slip::LateBySecond => waited > wait,
        Slip::ClockSaturates => now.saturating_sub(since) >= wait,
        Slip::ClockCompares => now >= (since + wait) % CLOCK,
        _ => waited >= wait,
    };
    let in_state = m.state == DF_WAIT || (m.state == DF_CALC && slip == Slip::ReadingEndsCalc);
    in_state && in_time
}

/// The answer to an item, with one slip or none.
pub fn answer_with(m: Machine, item: Item, slip: Slip) -> Answer {
    let machine = match item {
        Item::Make { wait } => return make(wait, slip),
        Item::Event { number, .. } if number == DF_TIMER && slip == Slip::TimerIgnoredAsEvent => m,
        Item::Event { number: 7, now } if slip == Slip::EventSevenIsUp => {
            drive(m, ES_UP, now, slip)
        }
        // a number that is no event: our own refusal, 23
        Item::Event { number, .. } if number > CALCULATED => {
            return Answer {
                number: 23,
                machine: m,
            }
        }
        Item::Event { number, now } => drive(m, number, now, slip),
        Item::Reading { now } if yields_timer(m, now, slip) => {
            let event = if m.state == DF_CALC {
                CALCULATED
            } else {
                DF_TIMER
            };
            drive(m, event, now, slip)
        }
        Item::Reading { .. } => m,
    };
    Answer { number: 0, machine }
}

pub fn answer(m: Machine, item: Item) -> Answer {
    answer_with(m, item, Slip::None)
}
