//! The kernels that are timed, and the faulty ones, as texts. Those in bench/c do the same, place for place.

use spelling::*;

/// All of a call: a text, its memory, and how many threads and turns.
pub struct Kernel {
    pub rows: Vec<u32>,
    pub memory: Vec<u32>,
    pub threads: u32,
    pub turns: u32,
}

/// `words` is what the kernel walks over: the picture, the cells, the leaves, or the memory.
#[derive(Clone, Copy)]
pub struct Size {
    pub threads: u32,
    pub rounds: u32,
    pub words: u32,
}

/// No kernel that is timed runs out of turns.
const TURNS: u32 = u32::MAX;

impl Kernel {
    fn new(size: Size, variables: u32, statement: Statement, memory: Vec<u32>) -> Self {
        Kernel { rows: rows(variables, &statement), memory, threads: size.threads, turns: TURNS }
    }

    /// The bytes of all buffers of a call: memory, states, rows, work and the block that is read at a time.
    pub fn buffer_bytes(&self) -> usize {
        20_480 + 4_097 * self.threads as usize + 20 * self.memory.len() + 40 * self.rows.len()
    }
}

/// The same words as in bench/c/kernel.h.
fn any_word(place: u32) -> u32 {
    place.wrapping_mul(2_654_435_761) >> 8
}

fn any_words(places: std::ops::Range<u32>) -> impl Iterator<Item = u32> {
    places.map(any_word)
}

fn zeros(count: u32) -> impl Iterator<Item = u32> {
    std::iter::repeat_n(0, count as usize)
}

/// A loop that counts a variable up from a value, by a step, while it is less than the limit.
fn count_up(counter: u32, from: Expression, limit: Expression, step: Expression, body: Statement) -> Statement {
    let next = set(counter, plus(variable(counter), step));
    two(set(counter, from), while_do(less(variable(counter), limit), two(body, next)))
}

fn for_rounds(counter: u32, rounds: u32, body: Statement) -> Statement {
    count_up(counter, number(0), number(rounds), number(1), body)
}

/// Goes through the thread's strip of `words`; the end of the strip is kept in a variable.
fn for_strip(counter: u32, end: u32, size: Size, body: Statement) -> Statement {
    let strip = size.words / size.threads;
    let begin = times(me(), number(strip));
    let set_end = set(end, plus(begin.clone(), number(strip)));
    two(set_end, count_up(counter, begin, variable(end), number(1), body))
}

/// Each thread walks its strip of a picture, and adds to common bins.
pub fn histogram(size: Size) -> Kernel {
    const BINS: u32 = 256;
    let [round, i, end, pixel] = [0, 1, 2, 3];
    let count = two(read(pixel, plus(number(BINS), variable(i))), add(rem(variable(pixel), number(BINS)), number(1)));
    let text = for_rounds(round, size.rounds, for_strip(i, end, size, count));
    let memory = zeros(BINS).chain(any_words(BINS..BINS + size.words));
    Kernel::new(size, 4, text, memory.collect())
}

/// Each thread computes its cells of the new array from the old one; behind a wait it copies them back, and waits again.
pub fn stencil(size: Size) -> Kernel {
    stencil_with(size, wait())
}

pub fn stencil_without_second_wait(size: Size) -> Kernel {
    stencil_with(size, nothing())
}

fn stencil_with(size: Size, second_wait: Statement) -> Kernel {
    let cells = size.words;
    let [round, i, end, left, middle, right] = [0, 1, 2, 3, 4, 5];
    let sum = plus(plus(variable(left), times(number(2), variable(middle))), variable(right));
    let compute = sequence([
        read(left, rem(plus(variable(i), number(cells - 1)), number(cells))),
        read(middle, variable(i)),
        read(right, rem(plus(variable(i), number(1)), number(cells))),
        write(plus(number(cells), variable(i)), over(sum, number(4))),
    ]);
    let copy = two(read(middle, plus(number(cells), variable(i))), write(variable(i), variable(middle)));
    let body = sequence([for_strip(i, end, size, compute), wait(), for_strip(i, end, size, copy), second_wait]);
    let memory = any_words(0..cells).chain(zeros(cells));
    Kernel::new(size, 6, for_rounds(round, size.rounds, body), memory.collect())
}

/// A tree of sums, with a wait behind each level: the word at a multiple of twice the span becomes the sum of two.
pub fn tree(size: Size) -> Kernel {
    let [round, span, i, first, second] = [0, 1, 2, 3, 4];
    let twice_span = || times(number(2), variable(span));
    let sum = sequence([
        read(first, variable(i)),
        read(second, plus(variable(i), variable(span))),
        write(variable(i), plus(variable(first), variable(second))),
    ]);
    let begin = times(twice_span(), me());
    let level = count_up(i, begin, number(size.words), times(twice_span(), all()), sum);
    let next_level = set(span, twice_span());
    let levels = while_do(less(variable(span), number(size.words)), sequence([level, wait(), next_level]));
    let text = for_rounds(round, size.rounds, two(set(span, number(1)), levels));
    Kernel::new(size, 5, text, any_words(0..size.words).collect())
}

/// Arithmetic in variables, and once in a hundred steps of it an add to the thread's own word.
pub fn compute(size: Size) -> Kernel {
    let [round, i, x, sum] = [0, 1, 2, 3];
    let next_x = set(x, plus(times(variable(x), number(1_664_525)), number(1_013_904_223)));
    let next_sum = set(sum, plus(variable(sum), rem(over(variable(x), number(65_536)), number(1_000))));
    let steps = count_up(i, number(0), number(100), number(1), two(next_x, next_sum));
    let body = two(steps, add(me(), variable(sum)));
    let text = two(set(x, me()), for_rounds(round, size.rounds, body));
    Kernel::new(size, 4, text, any_words(0..size.words).collect())
}

/// Many waits on a large memory, with one touch between them: each thread writes its word, waits, reads its neighbour's
/// word, and waits again.
pub fn waits(size: Size) -> Kernel {
    const APART: u32 = 16;
    let [round, word] = [0, 1];
    let neighbour = rem(plus(me(), number(1)), all());
    let body = sequence([
        write(times(me(), number(APART)), plus(variable(word), number(1))),
        wait(),
        read(word, times(neighbour, number(APART))),
        wait(),
    ]);
    Kernel::new(size, 2, for_rounds(round, size.rounds, body), any_words(0..size.words).collect())
}

/// Each thread walks its strip of a picture of numbered objects, and marks those that it sees.
pub fn objects(size: Size) -> Kernel {
    objects_on(size, picture_of_objects(size, false))
}

/// The same text; in the picture one object lies across two strips.
pub fn objects_across(size: Size) -> Kernel {
    objects_on(size, picture_of_objects(size, true))
}

fn objects_on(size: Size, picture: Vec<u32>) -> Kernel {
    let marks = size.threads + 1;
    let [i, end, object] = [0, 1, 2];
    let mark = two(
        read(object, plus(number(marks), variable(i))),
        if_else(variable(object), write(variable(object), number(1)), nothing()),
    );
    let memory = zeros(marks).chain(picture);
    Kernel::new(size, 3, for_strip(i, end, size, mark), memory.collect())
}

fn picture_of_objects(size: Size, across: bool) -> Vec<u32> {
    const OBJECT: u32 = 8;
    let strip = size.words / size.threads;
    let mut picture = vec![0; size.words as usize];
    for number in 1..=size.threads {
        let begin = if across && number == 2 { 2 * strip - OBJECT / 2 } else { (number - 1) * strip + strip / 2 };
        picture[begin as usize..][..OBJECT as usize].fill(number);
    }
    picture
}

/// Each thread adds its strip of a picture to common bins; behind a wait the first reads them, and writes the greatest.
pub fn peak(size: Size) -> Kernel {
    peak_with(size, wait())
}

/// Without the wait bins are read while others add.
pub fn peak_without_wait(size: Size) -> Kernel {
    peak_with(size, nothing())
}

fn peak_with(size: Size, between: Statement) -> Kernel {
    const BINS: u32 = 64;
    let [i, end, word, greatest] = [0, 1, 2, 3];
    let count = two(read(word, plus(number(BINS), variable(i))), add(rem(variable(word), number(BINS)), number(1)));
    let keep_greater = if_else(less(variable(greatest), variable(word)), set(greatest, variable(word)), nothing());
    let find = count_up(i, number(0), number(BINS), number(1), two(read(word, variable(i)), keep_greater));
    let find = two(find, write(number(BINS + size.words), variable(greatest)));
    let only_first = if_else(same(me(), number(0)), find, nothing());
    let text = sequence([for_strip(i, end, size, count), between, only_first]);
    let memory = zeros(BINS).chain(any_words(BINS..BINS + size.words)).chain(zeros(1));
    Kernel::new(size, 4, text, memory.collect())
}
