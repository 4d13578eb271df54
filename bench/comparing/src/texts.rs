//! Good texts by chance, made so that about half of them are even although their threads touch the memory a lot.

use crate::draw::Draw;
use spelling::*;

/// All that a call is about, besides what is lent to it.
pub struct Case {
    pub rows: Vec<u32>,
    pub threads: u32,
    pub turns: u32,
    pub memory: Vec<u32>,
}

/// Which places the threads touch in a stretch, and how. In all but the last they keep clear of each other.
#[derive(Clone, Copy)]
enum Manner {
    /// Places of the thread's own: me + all * k.
    Own,
    /// The own places of the thread that is so many further.
    Shifted(u32),
    /// The lower half is read by all, and the upper half has own places.
    Halves,
    Reading,
    Adding,
    /// Only this thread touches anything.
    One(u32),
    /// Any place, any way.
    Wild,
}

pub fn good_case(draw: &mut Draw) -> Case {
    let threads = if draw.percent(5) { draw.below(2) } else { 2 + draw.below(7) };
    let turns = draw.pick(&[0, 1, 2, 3, 4, 4, 5, 5, 6, 6, 6]);
    let words = draw.below(17);
    // Now and then a memory that is a multiple of the threads, so that own places fill it.
    let words = if draw.percent(30) { (threads * (1 + draw.below(3))).min(16) } else { words };
    let free = draw.pick(&[0, 1, 1, 1, 2, 2, 2, 3, 3, 3, 4, 4, 5, 6, 8, 12, 100, 248]);
    let mut writer = Writer { draw, free, counters: 0, threads, words };
    let statement = writer.text();
    let rows = rows(writer.free + writer.counters, &statement);
    let memory = (0..words).map(|_| small_or_large(draw)).collect();
    Case { rows, threads, turns, memory }
}

fn small_or_large(draw: &mut Draw) -> u32 {
    match draw.below(8) {
        0 => draw.word(),
        1 => u32::MAX - draw.below(4),
        _ => draw.below(20),
    }
}

struct Writer<'d> {
    draw: &'d mut Draw,
    /// Variables 0 to `free` may be set by any statement; those behind them count the rounds of loops.
    free: u32,
    counters: u32,
    threads: u32,
    words: u32,
}

impl Writer<'_> {
    fn text(&mut self) -> Statement {
        match self.draw.below(100) {
            // Where one manner is kept, a wait may stand anywhere: it mixes nothing.
            0..=14 => {
                let manner = self.apart_manner();
                self.parts(manner, 4, true)
            }
            15..=39 => self.stretches(2, false),
            40..=69 => self.stretches(2, true),
            _ => self.parts(Manner::Wild, 4, true),
        }
    }

    fn parts(&mut self, manner: Manner, deep: u32, waits: bool) -> Statement {
        let count = 1 + self.draw.below(4);
        let parts: Vec<_> = (0..count).map(|_| self.part(manner, deep, waits)).collect();
        sequence(parts)
    }

    /// Stretches one after the other, each with a wait behind it, some in loops of equal rounds. A careless one has
    /// a wait missing here and there, or touches any place.
    fn stretches(&mut self, deep: u32, careless: bool) -> Statement {
        let count = 1 + self.draw.below(3);
        let parts: Vec<_> = (0..count).map(|_| self.stretch_or_loop(deep, careless)).collect();
        sequence(parts)
    }

    fn stretch_or_loop(&mut self, deep: u32, careless: bool) -> Statement {
        if deep > 0 && self.counters < 7 && self.draw.percent(40) {
            return self.rounds(deep, careless);
        }
        let manner = if careless && self.draw.percent(40) { Manner::Wild } else { self.apart_manner() };
        let body = self.parts(manner, 2, false);
        if careless && self.draw.percent(50) {
            body
        } else {
            two(body, wait())
        }
    }

    fn rounds(&mut self, deep: u32, careless: bool) -> Statement {
        let counter = self.free + self.counters;
        self.counters += 1;
        let limit = match self.draw.below(6) {
            0 => all(),
            1 if careless => plus(me(), number(1)),
            _ => number(1 + self.draw.below(4)),
        };
        let body = self.stretches(deep - 1, careless);
        let count = set(counter, plus(variable(counter), number(1)));
        two(set(counter, number(0)), while_do(less(variable(counter), limit), two(body, count)))
    }

    /// A manner in which threads keep clear of each other on this memory.
    fn apart_manner(&mut self) -> Manner {
        let own_places = self.words >= self.threads && self.words > 0;
        let two_halves = self.words / 2 >= self.threads && self.words > 1;
        match self.draw.below(9) {
            0..=2 if own_places => Manner::Own,
            3 if own_places => Manner::Shifted(self.draw.below(8)),
            4 | 5 if two_halves => Manner::Halves,
            0 | 6 => Manner::Reading,
            1 | 7 => Manner::Adding,
            _ => Manner::One(self.draw.below(self.threads.max(1))),
        }
    }

    /// A part of a text, in which all touches are of one manner.
    fn part(&mut self, manner: Manner, deep: u32, waits: bool) -> Statement {
        if deep == 0 {
            return self.small(manner, waits);
        }
        match self.draw.below(10) {
            0..=4 => two(self.part(manner, deep - 1, waits), self.part(manner, deep - 1, waits)),
            5 | 6 => {
                let test = self.expression(2);
                if_else(test, self.part(manner, deep - 1, waits), self.part(manner, deep - 1, waits))
            }
            7 => self.any_loop(manner, deep - 1, waits),
            _ => self.small(manner, waits),
        }
    }

    /// Mostly a loop that counts a free variable up, as one with any test would soon end the thread's turns.
    fn any_loop(&mut self, manner: Manner, deep: u32, waits: bool) -> Statement {
        let body = self.part(manner, deep, waits);
        if self.free == 0 || self.draw.percent(20) {
            return while_do(self.expression(2), body);
        }
        let (counter, limit) = (self.draw.below(self.free), 1 + self.draw.below(3));
        let count = set(counter, plus(variable(counter), number(1)));
        while_do(less(variable(counter), number(limit)), two(body, count))
    }

    /// A statement with no statement in it, or a touch within its test.
    fn small(&mut self, manner: Manner, waits: bool) -> Statement {
        match self.draw.below(12) {
            0 => nothing(),
            1 if waits => wait(),
            1..=3 if self.free > 0 => set(self.draw.below(self.free), self.expression(3)),
            _ => self.touch(manner),
        }
    }

    fn touch(&mut self, manner: Manner) -> Statement {
        match manner {
            Manner::Own => {
                let place = self.own_place(me(), 0);
                self.any_touch(place)
            }
            Manner::Shifted(by) => {
                let place = self.own_place(rem(plus(me(), number(by)), all()), 0);
                self.any_touch(place)
            }
            Manner::Halves => self.touch_by_halves(),
            Manner::Reading => {
                let place = self.expression(2);
                self.read_of(place)
            }
            Manner::Adding => add(self.expression(2), self.expression(2)),
            Manner::One(thread) => {
                let place = self.expression(2);
                let touch = self.any_touch(place);
                if_else(same(me(), number(thread)), touch, nothing())
            }
            Manner::Wild => {
                let deep = self.draw.below(3);
                let place = self.expression(deep);
                self.any_touch(place)
            }
        }
    }

    fn touch_by_halves(&mut self) -> Statement {
        let half = self.words / 2;
        if self.draw.percent(50) {
            let place = rem(self.expression(2), number(half));
            self.read_of(place)
        } else {
            let place = self.own_place(me(), half);
            self.any_touch(place)
        }
    }

    /// owner + all * k, from a place on, for a k so small that the place lies within the memory.
    fn own_place(&mut self, owner: Expression, from: u32) -> Expression {
        let k = self.draw.below((self.words - from) / self.threads.max(1));
        let place = if k == 0 { owner } else { plus(owner, times(all(), number(k))) };
        let place = if from == 0 { place } else { plus(number(from), place) };
        // The same place by another name: places are taken modulo the words.
        if self.draw.percent(10) {
            plus(place, number(self.words * self.draw.below(9)))
        } else {
            place
        }
    }

    fn any_touch(&mut self, place: Expression) -> Statement {
        match self.draw.below(3) {
            0 => self.read_of(place),
            1 => write(place, self.expression(2)),
            _ => add(place, self.expression(2)),
        }
    }

    /// Without a variable to read to there is nothing to do.
    fn read_of(&mut self, place: Expression) -> Statement {
        if self.free == 0 {
            nothing()
        } else {
            read(self.draw.below(self.free), place)
        }
    }

    fn expression(&mut self, deep: u32) -> Expression {
        let variables = self.free + self.counters;
        match self.draw.below(if deep == 0 { 6 } else { 10 }) {
            0 | 1 => number(small_or_large(self.draw)),
            2 | 3 if variables > 0 => variable(self.draw.below(variables)),
            4 => all(),
            0..=5 => me(),
            _ => operation(self.draw.below(7), self.expression(deep - 1), self.expression(deep - 1)),
        }
    }
}
