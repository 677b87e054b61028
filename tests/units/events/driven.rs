// Drives a world by its events: which events may happen, that each does, and what holds after it.
use crate::{Phase, World, finish};
use cy_comp::{Kind, Options, Outcome, Plan, State, Wiring};
use cy_fuse::Overflow;
use cy_msg::{ContextPlan, Items, Names, Placement, Stop, Text, Token, Tuple};
use std::test::Fail;

/// An event of a thread, or the step of the component in hand.
#[derive(Clone, Copy, Debug, PartialEq, Eq)]
pub(crate) enum Event {
    Acquire(u32),
    Spend,
    Ready,
    Check,
    Ask,
    Fetch,
    Step,
    Send(Token),
    Tape(Token),
    Fill(u32, u8, Token),
    Look(u32),
    Clear(u32),
    Yield(State),
    Release,
    Tick(u64),
    Stop,
    Close,
}

/// A world with the messages that it was made for, and what its components were last called on.
#[derive(Drop)]
pub(crate) struct Driven {
    pub(crate) world: World,
    pub(crate) list: Vec<Token>,
    pub(crate) next: usize,
    tuples: Vec<Option<Tuple>>,
    outcomes: Vec<Option<Outcome>>,
    pub(crate) calls: u64,
}

/// A component: its class, the channels that it reads, how many tuples it keeps, and the channel
/// that it writes.
pub(crate) type Row<'a> = (Kind, &'a [u32], u32, u32);

// A wiring of components that are called `a`, `b` and so on.
fn wiring(rt: &HostRuntime, channels: &[&str], rows: &[Row]) -> Result<Wiring, Fail> {
    let mut names = Names::new(rt.alloc());
    for channel in channels {
        names.add(rt.alloc(), channel)?;
    }
    let mut plans = Vec::new(rt.alloc());
    for (kind, readers, queue, out) in rows {
        plans.push(Plan {
            name: Text::new(rt.alloc(), channels[*out as usize])?,
            kind: kind.copy()?,
            readers: Items::new(Vec::from_slice(rt.alloc(), readers)?),
            queue: *queue,
            overflow: Overflow::Newest,
            out: *out,
            options: Options::with_type(rt.alloc(), "")?,
            interval: None,
        })?;
    }
    Ok(Wiring::new(names, Items::new(plans)))
}

impl Driven {
    /// The opening world of some components, with a stop or none, for messages given by channel,
    /// time and value.
    pub(crate) fn new(
        rt: &HostRuntime,
        channels: &[&str],
        rows: &[Row],
        messages: &[(u32, u64, i64)],
        stop: Option<Stop>,
    ) -> Result<Self, Fail> {
        let wiring = wiring(rt, channels, rows)?;
        let mut counts = vec![in rt.alloc(); 0; channels.len()]?;
        let mut list = Vec::new(rt.alloc());
        for (place, (channel, time, value)) in messages.iter().enumerate() {
            counts[*channel as usize] += 1;
            list.push(Token {
                channel: *channel,
                seq: counts[*channel as usize],
                time: *time,
                whole: Some(*value),
                origin: Some(place as u32),
            })?;
        }
        Ok(Driven {
            world: World::new(rt.alloc(), &wiring, &counts, stop)?,
            list,
            next: 0,
            tuples: vec![in rt.alloc(); None; rows.len()]?,
            outcomes: vec![in rt.alloc(); None; rows.len()]?,
            calls: 0,
        })
    }

    /// How many components there are.
    pub(crate) fn size(&self) -> u32 {
        self.tuples.len() as u32
    }

    /// Whether a thread owes nothing.
    pub(crate) fn owes_nothing(&self, thread: u32) -> bool {
        let owed = &self.world.owed[thread as usize];
        owed.fills == 0 && owed.looked == owed.news.len() && owed.clearing.is_empty()
    }

    /// Whether a fetch by a component would find a tuple.
    pub(crate) fn finds(&self, component: u32) -> bool {
        let mut cursor = self.world.routines[component as usize].cursor();
        self.world.visitors[component as usize]
            .try_fetch(&mut cursor)
            .is_some()
    }

    /// Whether a thread has nothing in hand.
    pub(crate) fn is_idle(&self, thread: u32) -> bool {
        self.world.hands[thread as usize].is_none()
    }

    /// The state of a component.
    pub(crate) fn state(&self, component: u32) -> State {
        self.world.routines[component as usize].state()
    }

    // The events by which a thread gets on with the croutine in hand.
    fn push_in_hand(&self, thread: u32, events: &mut Vec<Event>) -> Result<(), Fail> {
        let Some(hand) = self.world.hands[thread as usize] else {
            return Ok(());
        };
        let croutine = hand.croutine;
        let owes_nothing = self.owes_nothing(thread);
        match hand.phase {
            Phase::Fresh if self.is_due(croutine) => events.push(Event::Ready)?,
            Phase::Fresh => events.push(Event::Spend)?,
            Phase::Woken => events.push(Event::Ready)?,
            Phase::Known => {
                events.push(Event::Release)?;
                if self.state(croutine) == State::Ready {
                    events.push(Event::Check)?;
                }
            }
            Phase::Checked if self.world.unsent(croutine).is_none() => events.push(Event::Ask)?,
            Phase::Checked if owes_nothing => events.push(self.send_or_end(croutine))?,
            Phase::Stopping if owes_nothing => events.push(self.send_or_end(croutine))?,
            Phase::LastSending if owes_nothing => events.push(self.send_or_end(croutine))?,
            Phase::Asked => events.push(Event::Fetch)?,
            Phase::Empty if owes_nothing => events.push(Event::Yield(State::DataWait))?,
            Phase::Running if self.tuples[croutine as usize].is_some() => {
                events.push(Event::Step)?;
            }
            Phase::Running if owes_nothing => events.push(self.after_call(croutine))?,
            Phase::Sending if owes_nothing => events.push(Event::Yield(State::Ready))?,
            Phase::Done => events.push(Event::Release)?,
            _ => {}
        }
        Ok(())
    }

    // Its unsent output is sent; one that has none ends.
    fn send_or_end(&self, croutine: u32) -> Event {
        match self.world.unsent(croutine) {
            Some(token) => Event::Send(token),
            None => Event::Yield(State::Finished),
        }
    }

    // What comes after a step, where nothing is owed.
    fn after_call(&self, croutine: u32) -> Event {
        match (
            self.outcomes[croutine as usize],
            self.world.unsent(croutine),
        ) {
            (Some(Outcome::Hold { until, .. }), _) => Event::Yield(State::Sleep { until }),
            (_, Some(token)) => Event::Send(token),
            (Some(Outcome::Last(_)), None) => Event::Yield(State::Finished),
            (_, None) => Event::Yield(State::Ready),
        }
    }

    // Whether a component sleeps and its time is past.
    fn is_due(&self, croutine: u32) -> bool {
        match self.state(croutine) {
            State::Sleep { until } => until < self.world.clock,
            _ => false,
        }
    }

    /// The first reader that a thread still has to fill: the component and the number of its reader.
    fn first_fill(&self, thread: u32) -> Option<(u32, u8)> {
        let owed = &self.world.owed[thread as usize];
        if owed.fills == 0 {
            return None;
        }
        let readers = self.world.fixed.readers(owed.token.channel);
        Some(readers[readers.len() - owed.fills])
    }

    /// The first of a thread's news.
    fn first_news(&self, thread: u32) -> Option<u32> {
        let owed = &self.world.owed[thread as usize];
        if owed.looked == owed.news.len() {
            return None;
        }
        Some(owed.news[owed.looked])
    }

    /// The events by which a thread gets done with what it has in hand and owes.
    pub(crate) fn push_left(&self, thread: u32, events: &mut Vec<Event>) -> Result<(), Fail> {
        self.push_in_hand(thread, events)?;
        if let Some((component, role)) = self.first_fill(thread) {
            let token = self.world.owed[thread as usize].token;
            events.push(Event::Fill(component, role, token))?;
        } else if let Some(component) = self.first_news(thread) {
            events.push(Event::Look(component))?;
        }
        for component in self.world.owed[thread as usize].clearing.iter() {
            events.push(Event::Clear(*component))?;
        }
        Ok(())
    }

    // Whether the stop is to be raised before anything more is played.
    fn is_stop_due(&self) -> bool {
        match self.world.given() {
            Some(stop) => !self.world.raised && stop.after as usize == self.next,
            None => false,
        }
    }

    // Whether the raised stop names the croutine that a thread has in hand.
    fn is_stopped(&self, thread: u32) -> bool {
        match (self.world.given(), self.world.hands[thread as usize]) {
            (Some(stop), Some(hand)) => self.world.raised && stop.component == hand.croutine,
            _ => false,
        }
    }

    /// The events that the player may choose by itself.
    pub(crate) fn push_played(&self, events: &mut Vec<Event>) -> Result<(), Fail> {
        if self.is_stop_due() {
            if self.owes_nothing(0) {
                events.push(Event::Stop)?;
            }
            return Ok(());
        }
        match self.list.get(self.next) {
            Some(token) if self.world.clock < token.time => events.push(Event::Tick(token.time))?,
            Some(token) if self.owes_nothing(0) => events.push(Event::Tape(*token))?,
            Some(_) => {}
            None => {
                events.push(Event::Tick(u64::MAX))?;
                if !self.world.closing && self.owes_nothing(0) {
                    events.push(Event::Close)?;
                }
            }
        }
        Ok(())
    }

    /// Lets an event happen that may happen.
    pub(crate) fn happen(&mut self, thread: u32, event: Event) -> Result<(), Fail> {
        match event {
            Event::Acquire(component) => {
                let was_held = self.holders(component) > 0;
                let is_taken = self.world.acquire(thread, component);
                holds(is_taken != was_held, "acquire takes what is free")?;
            }
            Event::Spend => {
                self.world.spend(thread);
            }
            Event::Ready => self.world.ready(thread),
            Event::Check => {
                let is_stopped = self.is_stopped(thread);
                holds(self.world.check(thread) == is_stopped, "check hears the raised stop")?;
            }
            Event::Ask => self.world.ask(thread),
            Event::Fetch => self.fetch(thread)?,
            Event::Step => self.step(thread),
            Event::Send(token) => self.world.tape(thread, token),
            Event::Tape(token) => {
                self.next += 1;
                self.world.tape(thread, token);
            }
            Event::Fill(component, role, token) => self.world.fill(thread, component, role, token),
            Event::Look(component) => {
                let waits = self.state(component) == State::DataWait;
                holds(self.world.look(thread, component) == waits, "look sees the state")?;
            }
            Event::Clear(component) => self.world.clear(thread, component),
            Event::Yield(state) => self.world.yield_as(thread, state),
            Event::Release => self.world.release(thread),
            Event::Tick(time) => self.world.tick(thread, time),
            Event::Stop => self.world.stop(thread),
            Event::Close => self.world.close(thread),
        }
        Ok(())
    }

    // Fetches for the croutine in hand.
    fn fetch(&mut self, thread: u32) -> Result<(), Fail> {
        let Some(hand) = self.world.hands[thread as usize] else {
            return Err(Fail::from("nothing in hand"));
        };
        let finds = self.finds(hand.croutine);
        let tuple = self.world.fetch(thread);
        holds(tuple.is_some() == finds, "fetch finds what is there")?;
        self.tuples[hand.croutine as usize] = tuple;
        Ok(())
    }

    // Steps the component in hand.
    fn step(&mut self, thread: u32) {
        if let Some(hand) = self.world.hands[thread as usize] {
            if let Some(tuple) = self.tuples[hand.croutine as usize].take() {
                self.outcomes[hand.croutine as usize] = Some(self.world.step(thread, &tuple));
                self.calls += 1;
            }
        }
    }

    /// How many threads have a component in hand.
    pub(crate) fn holders(&self, component: u32) -> usize {
        self.world
            .hands
            .iter()
            .filter(|hand| match hand {
                Some(hand) => hand.croutine == component,
                None => false,
            })
            .count()
    }

    // Whether a thread is about to tell a component.
    fn is_told(&self, component: u32) -> bool {
        self.world.owed.iter().any(|owed| {
            owed.news[owed.looked..].iter().any(|c| *c == component)
                || owed.clearing.iter().any(|c| *c == component)
        })
    }

    /// No component is lost and none has two holders.
    pub(crate) fn check(&self) -> Result<(), Fail> {
        for component in 0..self.size() {
            let holders = self.holders(component);
            holds(holders <= 1, "none has two holders")?;
            let is_parked = holders == 0
                && self.state(component) == State::DataWait
                && self.world.spent[component as usize];
            let is_lost = is_parked && self.finds(component) && !self.is_told(component);
            holds(!is_lost, "none is lost")?;
        }
        Ok(())
    }

    /// Lets each thread get done with what it has in hand and owes.
    pub(crate) fn wind_up(&mut self, rt: &HostRuntime, threads: u32) -> Result<(), Fail> {
        let mut events = Vec::new(rt.alloc());
        for thread in 0..threads {
            loop {
                events.clear();
                self.push_left(thread, &mut events)?;
                let Some(event) = events.last().copied() else {
                    break;
                };
                self.happen(thread, event)?;
                self.check()?;
            }
        }
        Ok(())
    }

    /// Plays what is left, and finishes: then each flag is spent, and each component has ended, or
    /// waits and would find nothing.
    pub(crate) fn end(&mut self, rt: &HostRuntime, threads: u32) -> Result<(), Fail> {
        self.wind_up(rt, threads)?;
        while self.next < self.list.len() {
            let mut events = Vec::new(rt.alloc());
            self.push_played(&mut events)?;
            self.happen(0, events[0])?;
            self.wind_up(rt, 1)?;
        }
        if self.is_stop_due() {
            self.happen(0, Event::Stop)?;
        }
        self.world.tick(0, u64::MAX);
        let mut order = Vec::new(rt.alloc());
        for component in 0..self.size() {
            order.push(component)?;
        }
        finish(&mut self.world, &placed(rt, order)?);
        for component in 0..self.size() {
            let state = self.state(component);
            let is_at_end = match state {
                State::Finished => true,
                State::DataWait => !self.finds(component),
                _ => false,
            };
            holds(is_at_end, "each has ended, or waits and would find nothing")?;
            holds(self.world.spent[component as usize], "each flag is spent")?;
        }
        Ok(())
    }
}

/// Fails where something is not as it has to be.
pub(crate) fn holds(is_so: bool, what: &str) -> Result<(), Fail> {
    if is_so { Ok(()) } else { Err(Fail::from(what)) }
}

// One context with components in this order.
fn placed(rt: &HostRuntime, order: Vec<u32>) -> Result<Placement, Fail> {
    let context = ContextPlan {
        name: Text::new(rt.alloc(), "default_grp")?,
        pinned: false,
        processors: 1,
        order: Items::new(order),
    };
    let mut contexts = Vec::new(rt.alloc());
    contexts.push(context)?;
    Ok(Placement::new(Items::new(contexts)))
}
