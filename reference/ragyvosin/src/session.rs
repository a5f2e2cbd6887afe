//! Sessions: a recording that is judged while it is made.

use crate::{full, sys, Rule, ACCEPTED};

/// C, the rule's controller, its node count, states held.
pub type Heading = [usize; full::HEADING];

/// Opens a session in lent space: the number. Refused, all is left as it was.
pub fn open_session(
    controllers: usize,
    owned: &[u32],
    rule: Rule,
    heading: &mut Heading,
    masks: &mut [u32],
    nodes: &mut [u32],
    states: &mut [u64],
) -> u8 {
    // SAFETY: each pointer comes with the length of its slice, and the library has no precondition.
    unsafe {
        sys::rgv_open_session(
            controllers,
            owned.as_ptr(),
            owned.len(),
            rule.controller,
            rule.count,
            rule.nodes.as_ptr(),
            rule.nodes.len(),
            heading,
            masks.as_mut_ptr(),
            masks.len(),
            nodes.as_mut_ptr(),
            nodes.len(),
            states.as_mut_ptr(),
            states.len(),
        )
    }
}

/// A state arrives in the session of lent space: the number. Refused, all is left as it was.
pub fn arrive(state: u64, heading: &mut Heading, masks: &[u32], states: &mut [u64]) -> u8 {
    // SAFETY: as in `open_session`.
    unsafe {
        sys::rgv_arrive(
            state,
            heading,
            masks.as_ptr(),
            masks.len(),
            states.as_mut_ptr(),
            states.len(),
        )
    }
}

/// The last state of the session of lent space is withdrawn: the number. Refused, all is left as it
/// was.
pub fn withdraw(heading: &mut Heading, states: &mut [u64]) -> u8 {
    // SAFETY: as in `open_session`.
    unsafe { sys::rgv_withdraw(heading, states.as_mut_ptr(), states.len()) }
}

/// The session of lent space takes another rule and keeps its states: the number. Refused, all is
/// left as it was.
pub fn replace_rule(rule: Rule, heading: &mut Heading, nodes: &mut [u32]) -> u8 {
    // SAFETY: as in `open_session`.
    unsafe {
        sys::rgv_replace_rule(
            rule.controller,
            rule.count,
            rule.nodes.as_ptr(),
            rule.nodes.len(),
            heading,
            nodes.as_mut_ptr(),
            nodes.len(),
        )
    }
}

/// The verdicts of the session of lent space: 1, the weak and the strong one, or three zeros where
/// no state is held.
pub fn session_verdicts(
    heading: &Heading,
    masks: &[u32],
    nodes: &[u32],
    states: &[u64],
) -> (u8, [usize; 3]) {
    let mut values = [usize::MAX; 3];
    // SAFETY: as in `open_session`.
    let number = unsafe {
        sys::rgv_session_verdicts(
            heading,
            masks.as_ptr(),
            masks.len(),
            nodes.as_ptr(),
            nodes.len(),
            states.as_ptr(),
            states.len(),
            &mut values,
        )
    };
    (number, values)
}

/// A session in space of its own, which its own calls made.
#[derive(Clone, PartialEq, Eq, Debug)]
pub struct Session {
    heading: Heading,
    masks: [u32; full::MASKS],
    nodes: [u32; full::RULE_NODES],
    states: [u64; full::STATES],
}

impl Session {
    /// Opens a session on so many controllers, the masks that they own and a rule of one of them;
    /// it holds no state. Or the number of the refusal.
    pub fn open(controllers: usize, owned: &[u32], rule: Rule) -> Result<Session, u8> {
        let mut session = Session {
            heading: [0; full::HEADING],
            masks: [0; full::MASKS],
            nodes: [0; full::RULE_NODES],
            states: [0; full::STATES],
        };
        let Session { heading, masks, nodes, states } = &mut session;
        match open_session(controllers, owned, rule, heading, masks, nodes, states) {
            ACCEPTED => Ok(session),
            number => Err(number),
        }
    }

    /// A state arrives: the number. Refused, the session is as it was.
    pub fn arrive(&mut self, state: u64) -> u8 {
        arrive(state, &mut self.heading, &self.masks, &mut self.states)
    }

    /// The last state is withdrawn: the number. Refused, the session is as it was.
    pub fn withdraw(&mut self) -> u8 {
        withdraw(&mut self.heading, &mut self.states)
    }

    /// It takes another rule, of the same controller or another one, and keeps its states: the
    /// number. Refused, the session is as it was.
    pub fn replace_rule(&mut self, rule: Rule) -> u8 {
        replace_rule(rule, &mut self.heading, &mut self.nodes)
    }

    /// The weak and the strong verdict on the states held, 1 for yes; none where no state is held.
    /// The number is always 0, for only its own calls make a session.
    pub fn verdicts(&self) -> (u8, Option<[usize; 2]>) {
        let (number, [held, weak, strong]) =
            session_verdicts(&self.heading, &self.masks, &self.nodes, &self.states);
        (number, (held == 1).then_some([weak, strong]))
    }

    /// The states held.
    pub fn states(&self) -> &[u64] {
        &self.states[..self.heading[3]]
    }
}

#[cfg(test)]
mod tests {
    use super::*;

    /// The rule `next` of atom 0, for controller 0.
    const NEXT: Rule = Rule { controller: 0, count: 2, nodes: &[1, 4] };

    /// A run mark of controller 0.
    const RUN: u64 = 1 << 32;

    #[test]
    fn states_arrive_and_are_withdrawn() {
        let mut session = Session::open(1, &[1], NEXT).expect("accepted");
        let empty = session.clone();
        assert_eq!((session.verdicts(), session.states()), ((0, None), &[][..]));
        assert_eq!(session.withdraw(), 18);
        assert_eq!(session.arrive(RUN), 0);
        assert_eq!(session.verdicts(), (0, Some([1, 0])));
        assert_eq!(session.arrive(1), 0);
        assert_eq!((session.verdicts(), session.states()), ((0, Some([1, 1])), &[RUN, 1][..]));
        let before = session.clone();
        assert_eq!(session.arrive(0), 10);
        assert_eq!(session.arrive(2 * RUN), 6);
        assert!(session == before);
        assert_eq!(session.withdraw(), 0);
        assert_eq!(session.arrive(0), 0);
        assert_eq!(session.verdicts(), (0, Some([0, 0])));
        assert_eq!([session.withdraw(), session.withdraw(), session.withdraw()], [0, 0, 18]);
        assert!(session == empty);
    }

    #[test]
    fn a_new_rule_is_as_if_it_had_been_there_from_the_first_state() {
        let mut session = Session::open(2, &[1, 2], NEXT).expect("accepted");
        let other = Rule { controller: 1, count: 1, nodes: &[0x101, 7] };
        assert!([RUN, 1].iter().all(|state| session.arrive(*state) == 0));
        assert_eq!(session.verdicts(), (0, Some([1, 1])));
        let before = session.clone();
        let rule = |controller, count, nodes| {
            session.clone().replace_rule(Rule { controller, count, nodes })
        };
        assert_eq!([rule(11, 2, &[1, 4]), rule(0, 0, &[]), rule(0, 1, &[8])], [2; 3]);
        assert_eq!([rule(0, 2, &[1, 0x102]), rule(0, 3, &[1, 4]), rule(2, 2, &[1, 4])], [3, 4, 11]);
        assert_eq!(session.replace_rule(Rule { controller: 2, ..NEXT }), 11);
        assert!(session == before);
        assert_eq!(session.replace_rule(other), 0);
        let mut opened = Session::open(2, &[1, 2], other).expect("accepted");
        assert_eq!(opened.replace_rule(other), 0);
        assert!([RUN, 1].iter().all(|state| opened.arrive(*state) == 0));
        assert!(session == opened);
        assert_eq!((session.verdicts(), session.states()), ((0, Some([0, 0])), &[RUN, 1][..]));
    }

    #[test]
    fn a_session_holds_128_states() {
        let mut session = Session::open(1, &[0], NEXT).expect("accepted");
        assert!((0..full::STATES).all(|_| session.arrive(0) == 0));
        assert_eq!([session.arrive(0), session.arrive(2 * RUN)], [17, 17]);
        assert_eq!(session.states().len(), full::STATES);
    }

    #[test]
    fn an_opening_is_refused_with_its_number() {
        let rule = |controller, count| Rule { controller, count, ..NEXT };
        let opened =
            |controllers, owned: &[u32], rule| Session::open(controllers, owned, rule).err();
        assert_eq!(opened(1, &[1], rule(11, 2)), Some(2));
        assert_eq!(opened(1, &[1], Rule { nodes: &[2], ..NEXT }), Some(3));
        assert_eq!(opened(1, &[1], rule(0, 3)), Some(4));
        assert_eq!(opened(12, &[0; 12], NEXT), Some(6));
        assert_eq!(opened(2, &[1, 1], NEXT), Some(7));
        assert_eq!(opened(2, &[1], NEXT), Some(8));
        assert_eq!(opened(1, &[1], rule(1, 2)), Some(11));
    }
}
