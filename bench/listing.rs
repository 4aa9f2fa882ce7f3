//! Every reachable log, each once and in letter order, by depth first search; the first that is accepted is the order.

use crate::input::Profile;
use crate::rules::{check, letters, Counts, Events, Refusal, Steps};

/// What is told: P is not, since a listing meets logs and not prefixes.
pub struct Listed {
    pub verdict: bool,
    pub logs: u64,
}

struct Listing<'a> {
    steps: Steps,
    events: Events,
    finals: u32,
    limit: u64,
    logs: u64,
    found: bool,
    log: Vec<u8>,
    order: &'a mut [u8],
}

impl Listing<'_> {
    /// Lists the logs that begin with the letters so far, which lead to the states.
    fn list(&mut self, c: Counts, states: u32) {
        if self.log.len() == self.order.len() {
            self.take(states);
            return;
        }
        for a in letters(self.events.addable(c)) {
            if self.logs > self.limit {
                return;
            }
            self.log.push(a as u8);
            let states = self.steps.forward(states, a);
            self.list(c.more(a), states);
            self.log.pop();
        }
    }

    fn take(&mut self, states: u32) {
        self.logs += 1;
        if !self.found && states & self.finals != 0 {
            self.found = true;
            self.order.copy_from_slice(&self.log);
        }
    }
}

/// Lists all reachable logs, and gives up where there are more than `limit`.
pub fn judge(p: &Profile, log: &[u8], order: &mut [u8], limit: u64) -> Result<Option<Listed>, Refusal> {
    check(p, log, order)?;
    let mut listing = Listing {
        steps: Steps::new(p),
        events: Events::new(p, log),
        finals: p.finals,
        limit,
        logs: 0,
        found: false,
        log: Vec::with_capacity(log.len()),
        order: &mut order[..log.len()],
    };
    listing.list(Counts::NONE, 1 << p.start);
    let listed = Listed { verdict: listing.found, logs: listing.logs };
    Ok((listing.logs <= limit).then_some(listed))
}
