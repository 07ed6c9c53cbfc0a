//! What the reference answers, in the records of the C interface.

use crate::dinglefork::{self, Drawn, Received, SessionAnswer};
use crate::reference::machine::Place;
use crate::reference::Outcome;

pub fn place(place: Place) -> dinglefork::Place {
    let [provider, one, two, three] = place.drawn;
    let drawn = Drawn {
        provider,
        one,
        two,
        three,
    };
    let [one, two, three, controller] = place.received;
    let received = Received {
        one,
        two,
        three,
        controller,
    };
    dinglefork::Place {
        handles: place.handles,
        inputs: place.inputs,
        drawn,
        received,
    }
}

pub fn of_session(outcome: &Outcome) -> SessionAnswer {
    SessionAnswer {
        done: outcome.done,
        place: place(outcome.place),
        number: outcome.number,
    }
}
