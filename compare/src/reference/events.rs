//! Event words, and what each event does to a valid ring ("Events").

use super::layout::*;
use super::messages::of_sender;
use super::place::{Message, Place};
use super::sets::{contains, members};

#[derive(Clone, Copy)]
pub enum Event {
    On(usize),
    /// Whether it is polite.
    Off(usize, bool),
    Notice(usize, usize),
    Contact(usize, usize),
    Timer(usize, u32),
    /// Whether it is an echo: the message stays in its position.
    Deliver(usize, bool),
    Lose(usize),
}

impl Event {
    /// The event of a word, or refusal 4 or 5.
    pub fn read(word: u32) -> Result<Event, u32> {
        let x = (word & 63) as usize;
        let y = (word >> 6 & 63) as usize;
        let timer = word >> 12 & 7;
        let position = (word & 1023) as usize;
        let (event, named) = match word >> 28 {
            9 => (Event::On(x), 0x3F),
            10 => (Event::Off(x, word >> 12 & 1 == 1), 0x103F),
            11 => (Event::Notice(x, y), 0xFFF),
            12 => (Event::Contact(x, y), 0xFFF),
            13 if matches!(timer, 0 | 2..=4) => (Event::Timer(x, timer), 0x703F),
            14 => (Event::Deliver(position, word >> 10 & 1 == 1), 0x7FF),
            15 => (Event::Lose(position), 0x3FF),
            _ => return Err(4),
        };
        if word & 0x0FFF_FFFF & !named != 0 {
            return Err(4);
        }
        match event {
            Event::Notice(x, y) | Event::Contact(x, y) if x == y => Err(5),
            _ => Ok(event),
        }
    }
}

fn refuse_if(condition: bool, refusal: u32) -> Result<(), u32> {
    if condition {
        Err(refusal)
    } else {
        Ok(())
    }
}

impl Place<'_> {
    /// Plays the event: refused, with 7 to 11 or 17, nothing is written.
    pub fn play(&mut self, event: Event) -> Result<(), u32> {
        match event {
            Event::On(x) => self.on(x),
            Event::Off(x, polite) => self.off(x, polite),
            Event::Notice(x, subject) => self.notice(x, subject),
            Event::Contact(x, y) => self.contact(x, y),
            Event::Timer(x, timer) => self.timer(x, timer),
            Event::Deliver(position, stays) => self.deliver(position, stays),
            Event::Lose(position) => {
                self.in_flight(position)?;
                self.take_out(position);
                Ok(())
            }
        }
    }

    fn known(&self, x: usize) -> Result<(), u32> {
        refuse_if(x >= self.header.nodes, 7)
    }

    fn in_flight(&self, position: usize) -> Result<(), u32> {
        refuse_if(position >= self.header.messages, 7)
    }

    fn running(&self, x: usize) -> Result<(), u32> {
        refuse_if(!self.is_running(x), 8)
    }

    fn clock_can_rise(&self, x: usize) -> Result<(), u32> {
        refuse_if(self.clock(x) == LOW24, 10)
    }

    /// Room for so many more messages, which x sends.
    fn room_for(&self, x: usize, count: u32) -> Result<(), u32> {
        refuse_if(self.header.messages + count as usize > POOL, 11)?;
        self.room_of(x, count)
    }

    /// The messages are counted only where all of them are more than a sender's part.
    fn room_of(&self, x: usize, count: u32) -> Result<(), u32> {
        let count = count as usize;
        if count == 0 || self.header.messages + count <= OF_SENDER {
            return Ok(());
        }
        let messages = &self.words[MESSAGES..message_at(self.header.messages)];
        refuse_if(of_sender(messages, x) + count > OF_SENDER, 17)
    }

    fn on(&mut self, x: usize) -> Result<(), u32> {
        self.known(x)?;
        refuse_if(self.is_running(x), 9)?;
        self.clock_can_rise(x)?;
        self.tick(x);
        self.switch_on(x);
        Ok(())
    }

    fn off(&mut self, x: usize, polite: bool) -> Result<(), u32> {
        self.known(x)?;
        self.running(x)?;
        let told = if polite { self.held(x) } else { 0 };
        self.room_for(x, told.count_ones())?;
        self.send_each(x, 13, told);
        self.switch_off(x);
        Ok(())
    }

    fn notice(&mut self, x: usize, subject: usize) -> Result<(), u32> {
        self.known(x)?;
        self.known(subject)?;
        self.running(x)?;
        self.clock_can_rise(x)?;
        self.tick(x);
        self.forget(x, subject);
        Ok(())
    }

    /// What a notice of z does at x, and type 13 from z.
    fn forget(&mut self, x: usize, z: usize) {
        self.release(x, z);
        self.strike_candidate(x, z);
    }

    fn contact(&mut self, x: usize, y: usize) -> Result<(), u32> {
        self.known(x)?;
        self.known(y)?;
        self.running(x)?;
        self.clock_can_rise(x)?;
        self.room_for(x, 1)?;
        self.tick(x);
        self.send(Message::new(1, x, y), 0);
        Ok(())
    }

    fn timer(&mut self, x: usize, timer: u32) -> Result<(), u32> {
        self.known(x)?;
        self.running(x)?;
        self.clock_can_rise(x)?;
        match timer {
            0 => self.invite_and_ask(x),
            2 => self.ask_outside(x),
            3 => self.replace(x),
            _ => self.deloopy(x),
        }
    }

    /// The held nodes outside the leafset of the held.
    fn outside(&self, x: usize) -> u64 {
        let held = self.held(x);
        held & !self.table().leafset(x, held)
    }

    fn send_each(&mut self, x: usize, kind: u32, to: u64) {
        members(to).for_each(|y| self.send(Message::new(kind, x, y), 0));
    }

    /// Timer 0: "the inviting first, then the asking, with a single step of the clock".
    fn invite_and_ask(&mut self, x: usize) -> Result<(), u32> {
        let (held, candidates) = (self.held(x), self.candidates(x));
        let invited = candidates & !held & self.table().leafset(x, candidates | held);
        self.room_for(x, invited.count_ones() + held.count_ones())?;
        self.tick(x);
        self.send_each(x, 5, invited);
        self.send_each(x, 3, held);
        self.empty_candidates(x);
        Ok(())
    }

    /// Timer 2.
    fn ask_outside(&mut self, x: usize) -> Result<(), u32> {
        let outside = self.outside(x);
        self.room_for(x, outside.count_ones())?;
        self.tick(x);
        self.send_each(x, 7, outside);
        Ok(())
    }

    /// Timer 3.
    fn replace(&mut self, x: usize) -> Result<(), u32> {
        let outside = self.outside(x);
        let replaceable = members(outside).filter(|&z| self.spare(x, z) != NONE).fold(0, |set, z| set | 1 << z);
        self.room_for(x, u64::count_ones(replaceable))?;
        let now = self.tick(x);
        for z in members(replaceable) {
            let spare = self.spare(x, z) as usize;
            self.send(Message::new(9, x, spare).about(z as u32).stamped(now), 0);
        }
        Ok(())
    }

    /// Timer 4.
    fn deloopy(&mut self, x: usize) -> Result<(), u32> {
        let table = self.table();
        let successor = table.successor(x, self.held(x)).filter(|&successor| table.passes_zero(x, successor));
        self.room_for(x, successor.is_some() as u32)?;
        self.tick(x);
        if let Some(successor) = successor {
            self.send(Message::new(11, x, successor).about(x as u32), 0);
        }
        Ok(())
    }

    /// Where the message stays the answer needs room; else one is taken out, which is not the receiver's, and at most
    /// one sent.
    fn deliver(&mut self, position: usize, stays: bool) -> Result<(), u32> {
        self.in_flight(position)?;
        let message = self.message(position);
        let x = message.receiver;
        if !self.is_running(x) {
            if !stays {
                self.take_out(position);
            }
            return Ok(());
        }
        self.clock_can_rise(x)?;
        let view = self.view(position);
        if stays {
            self.room_for(x, self.answers(message) as u32)?;
        } else {
            if self.header.messages > OF_SENDER {
                self.room_of(x, self.answers(message) as u32)?;
            }
            self.take_out(position);
        }
        let now = self.tick(x);
        self.receive(message, view, now);
        Ok(())
    }

    /// Whether the message's receiver, which runs, sends one on it.
    fn answers(&self, message: Message) -> bool {
        let (x, subject) = (message.receiver, message.subject as usize);
        match message.kind {
            1 | 3 | 5 | 7 => true,
            9 => self.holds(x, subject),
            11 => subject != x && self.held(x) != 0,
            _ => false,
        }
    }

    fn receive(&mut self, message: Message, view: u64, now: u32) {
        let (x, a) = (message.receiver, message.sender);
        match message.kind {
            1 => self.send(Message::new(2, x, a), 0),
            2 => self.hold(x, a, now),
            3 => {
                let answer = self.table().leafset(a, self.held(x));
                self.send(Message::new(4, x, a), answer);
                self.add_candidate(x, a);
            }
            4 => members(view).for_each(|z| self.add_candidate(x, z)),
            5 => self.send(Message::new(6, x, a), 0),
            6 => {
                if contains(self.table().leafset(x, self.held(x) | 1 << a), a) {
                    self.hold(x, a, now);
                }
            }
            7 => {
                let table = self.table();
                let choice = table.nearer(x, a, table.leafset(x, self.held(x)));
                self.send(Message::new(8, x, a).about(choice.map_or(NONE, |z| z as u32)), 0);
            }
            8 => {
                if self.holds(x, a) {
                    self.set_spare(x, a, message.subject);
                }
            }
            9 => self.requested(message, now),
            10 => self.acknowledged(message, now),
            11 => self.pass_on(message),
            12 => self.add_candidate(x, a),
            _ => self.forget(x, a),
        }
    }

    /// "On 9: if z is held, its commit becomes now and I answer 10 with the same subject and stamp."
    fn requested(&mut self, request: Message, now: u32) {
        let (x, z) = (request.receiver, request.subject as usize);
        if self.holds(x, z) {
            self.set_commit(x, z, now);
            self.send(Message::new(10, x, request.sender).about(request.subject).stamped(request.stamp), 0);
        }
    }

    /// "On 10 from y: if z is held, outside my leafset, and its spare is y, take y in; then, if z's commit is below the
    /// message's stamp, let go of z and set y's commit to now."
    fn acknowledged(&mut self, message: Message, now: u32) {
        let (x, y, z) = (message.receiver, message.sender, message.subject as usize);
        if !self.holds(x, z) || self.spare(x, z) != y as u32 || !contains(self.outside(x), z) {
            return;
        }
        self.hold(x, y, now);
        if self.commit(x, z) < message.stamp {
            self.release(x, z);
            self.set_commit(x, y, now);
        }
    }

    /// On 11.
    fn pass_on(&mut self, message: Message) {
        let (x, origin) = (message.receiver, message.subject as usize);
        let table = self.table();
        let Some(successor) = table.successor(x, self.held(x)) else { return };
        if origin == x {
            return;
        }
        if table.passes_zero(x, successor) {
            self.add_candidate(x, origin);
            self.send(Message::new(12, x, origin), 0);
        } else {
            self.send(Message::new(11, x, successor).about(message.subject), 0);
        }
    }
}
