//! What was printed, beside what the logs have of it.

use protocol::{Answer, Event, Line, Outcome, PROGRAMS, Transcript};
use scripts::Text;

/// Whether the logs have, machine by machine, each call with its answer, and each load and store with what was printed of it, in the
/// order of the lines, and no others. Of what devices did they may have more.
pub fn spoken(lines: &[Text], transcript: &Transcript) -> Result<(), String> {
    let printed = by_machine(lines, transcript);
    if printed.len() != transcript.logs.len() {
        return Err(format!("{} machines, and {} logs", printed.len(), transcript.logs.len()));
    }
    for (machine, (printed, log)) in printed.iter().zip(&transcript.logs).enumerate() {
        let logged: Vec<Event> = log.iter().filter_map(|event| by_program(*event)).collect();
        if let Some(k) = (0..printed.len().max(logged.len())).find(|k| printed.get(*k) != logged.get(*k)) {
            let say = |event: Option<&Event>| event.map_or("nothing".to_string(), Event::to_string);
            return Err(format!("log {}: {}, where was printed: {}", machine + 1, say(logged.get(k)), say(printed.get(k))));
        }
    }
    Ok(())
}

/// The events that what was printed tells of.
fn by_machine(lines: &[Text], transcript: &Transcript) -> Vec<Vec<Event>> {
    let mut machines = vec![Vec::new()];
    for (text, came) in lines.iter().zip(&transcript.outcomes) {
        match (Line::parse(text), came) {
            (Some(Line::New), _) => machines.push(Vec::new()),
            (Some(line), Some(came)) => machines.last_mut().into_iter().for_each(|events| events.extend(events_of(line, *came))),
            _ => {}
        }
    }
    machines
}

fn events_of(line: Line, came: Outcome) -> Vec<Event> {
    match (line, came) {
        (Line::Call { who, call }, came) if who < PROGRAMS => {
            let told = answer(came).map(|answer| Event::Told { who, call, answer });
            [Event::Asked { who, call }].into_iter().chain(told).collect()
        }
        (Line::Load { who, v, word }, Outcome::Loaded(x)) => vec![Event::Loaded { who, v, word, x }],
        (Line::Store { who, v, word, x }, Outcome::Stored) => vec![Event::Stored { who, v, word, x }],
        (Line::Load { who, v, .. } | Line::Store { who, v, .. }, Outcome::Fault) => vec![Event::Faulted { who, v }],
        (Line::Load { who, v, .. } | Line::Store { who, v, .. }, Outcome::Poked) => vec![Event::Poked { who, v, d: 0 }],
        _ => Vec::new(),
    }
}

fn answer(came: Outcome) -> Option<Answer> {
    match came {
        Outcome::Done => Some(Answer::Done),
        Outcome::Later => Some(Answer::Later),
        Outcome::No(n) => Some(Answer::No(n)),
        _ => None,
    }
}

/// The event, if a program has part in it. Which device's registers were reached is not printed.
fn by_program(event: Event) -> Option<Event> {
    match event {
        Event::Poked { who, v, .. } => Some(Event::Poked { who, v, d: 0 }),
        Event::Took { .. } | Event::Put { .. } | Event::Missed { .. } | Event::Drained { .. } => None,
        other => Some(other),
    }
}
