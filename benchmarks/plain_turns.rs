// A plain simulator of node code, written for speed, for comparison: `plain_turns LISTING` runs it
// under rotation over links without a bound, and tells its turns, messages and words. It knows the
// rows of the listings of `benchmarks/turns.sh` alone, and trusts what it reads.
//
// A group is flat code for an accumulator, of which each processor has a copy of its own: where an
// element stands is worked out once a row of the region, and a turn adds how far along the row it
// is. Whom an exchange sends to and takes from, with the places of each message, is worked out once
// for the regions of its slots. A processor that waits for a message, or has ended, is not looked at.
use std::collections::VecDeque;
use std::io::Write;

const FAR: i64 = 1 << 40;

#[derive(Clone)]
enum Word {
    Const(i64),
    Scalar(usize),
    Place(usize, [i64; 3]),
    Op(u8),
}

enum Member {
    Put(usize, usize),
    Acc(usize, bool, usize),
}

#[derive(Clone, Copy)]
enum Row {
    Set(usize, usize),
    Fix(usize, Span),
    Loop(usize, usize),
    Start(usize),
    Finish(usize),
    Wrap(usize, usize, i64),
    Fold(usize),
    Unless(usize, usize),
    Jump(usize),
    Print(usize),
    Number(usize),
    Gather(usize, usize),
    End,
}

type Span = ([i64; 3], [i64; 3]);

struct Array {
    shape: Span,
    low: [i64; 3],
    high: [i64; 3],
}

#[derive(Default)]
struct Code {
    factors: Vec<usize>,
    rank: usize,
    scalars: usize,
    slots: usize,
    arrays: Vec<Array>,
    texts: Vec<Vec<u8>>,
    exprs: Vec<Vec<Word>>,
    groups: Vec<Vec<Member>>,
    exchanges: Vec<Vec<(usize, usize, [i64; 3])>>,
    rows: Vec<Row>,
}

/// What a step does with the accumulator and its operand.
#[derive(Clone, Copy)]
enum Act {
    Load,
    Push,
    Add,
    Sub,
    Mul,
    Div,
    Less,
    Max,
    Put,
    AccMax,
    AccSum,
}

/// Where a step's operand is.
#[derive(Clone, Copy)]
enum From {
    Const,
    Scalar,
    Element,
    /// What was pushed last is the left operand, and the accumulator the right one.
    Popped,
    Nothing,
}

#[derive(Clone, Copy)]
struct Step {
    act: Act,
    from: From,
    at: usize,
    number: i64,
}

/// A step whose place is worked out anew for each row of a region: its array, and how far from the
/// index it reads.
struct Patch {
    step: usize,
    array: usize,
    off: i64,
}

#[derive(Default)]
struct Flat {
    steps: Vec<Step>,
    patches: Vec<Patch>,
}

/// Whom a processor sends to and takes from in a row, in ascending order, with the places of the
/// words; and what it moves within its own memory.
struct Plan {
    sends: Vec<(usize, Vec<usize>)>,
    takes: Vec<(usize, Vec<usize>)>,
    alone: Vec<(usize, usize)>,
}

/// How far a loop has come: the tuple that the row of the region begins with, and how many
/// tuples of the row are done, of how many.
struct Walk {
    own: Span,
    row: [i64; 3],
    done: usize,
    wide: usize,
}

struct Local {
    at: usize,
    made: usize,
    is_inside: bool,
    awaited: usize,
    walk: Walk,
    /// The dimension along which a row of a region goes.
    last: usize,
    scalars: Vec<i64>,
    slots: Vec<Span>,
    held: Vec<Span>,
    /// Where each array begins in the memory.
    begin: Vec<usize>,
    memory: Vec<i64>,
    groups: Vec<Flat>,
    exchanges: Vec<Option<Plan>>,
    wraps: Vec<Option<Plan>>,
    kept: Vec<(usize, Vec<i64>)>,
}

fn numbers(text: &str) -> [i64; 3] {
    let mut all = [0; 3];
    for (k, n) in text.split(',').enumerate() {
        all[k] = n.parse().unwrap();
    }
    all
}

fn range(text: &str) -> (i64, i64, &str) {
    let (bounds, rest) = text.split_once(':').unwrap();
    let (lo, hi) = bounds.split_once("..").unwrap();
    (lo.parse().unwrap(), hi.parse().unwrap(), rest)
}

fn span(words: &[&str]) -> Span {
    let mut all = ([0; 3], [0; 3]);
    for (k, word) in words.iter().enumerate() {
        let (lo, hi, _) = range(word);
        (all.0[k], all.1[k]) = (lo, hi);
    }
    all
}

fn word(text: &str) -> Word {
    match (&text[..1], &text[1..]) {
        ("n", n) => Word::Const(n.parse().unwrap()),
        ("s", n) => Word::Scalar(n.parse().unwrap()),
        ("a", place) => match place.split_once('@') {
            Some((array, shift)) => Word::Place(array.parse().unwrap(), numbers(shift)),
            None => Word::Place(place.parse().unwrap(), [0; 3]),
        },
        _ => Word::Op(if text == "max" {
            b'^'
        } else {
            text.as_bytes()[0]
        }),
    }
}

fn read(text: &str) -> Code {
    let mut code = Code::default();
    for line in text.lines().skip(1) {
        let w: Vec<&str> = line.split(' ').collect();
        let n = |k: usize| w[k].parse::<usize>().unwrap();
        match w[0] {
            "grid" => code.factors = w[1..].iter().map(|n| n.parse().unwrap()).collect(),
            "scalars" => code.scalars = n(1),
            "slots" => code.slots = w.len() - 1,
            "array" => {
                code.rank = w.len() - 1;
                let (mut low, mut high) = ([0; 3], [0; 3]);
                for k in 1..w.len() {
                    let widths = numbers(range(w[k]).2);
                    (low[k - 1], high[k - 1]) = (widths[0], widths[1]);
                }
                code.arrays.push(Array {
                    shape: span(&w[1..]),
                    low,
                    high,
                });
            }
            "text" => {
                let digits = w[1]
                    .as_bytes()
                    .chunks(2)
                    .map(|d| std::str::from_utf8(d).unwrap());
                code.texts
                    .push(digits.map(|d| u8::from_str_radix(d, 16).unwrap()).collect());
            }
            "expr" => code.exprs.push(w[1..].iter().map(|w| word(w)).collect()),
            "group" => code.groups.push(Vec::new()),
            "put" => code
                .groups
                .last_mut()
                .unwrap()
                .push(Member::Put(n(1), n(2))),
            "acc" => code
                .groups
                .last_mut()
                .unwrap()
                .push(Member::Acc(n(1), w[2] == "max", n(3))),
            "exchange" => code.exchanges.push(Vec::new()),
            "item" => code
                .exchanges
                .last_mut()
                .unwrap()
                .push((n(1), n(2), numbers(w[3]))),
            "set" => code.rows.push(Row::Set(n(1), n(2))),
            "fix" => code.rows.push(Row::Fix(n(1), span(&w[2..]))),
            "loop" => code.rows.push(Row::Loop(n(1), n(2))),
            "start" => code.rows.push(Row::Start(n(1))),
            "finish" => code.rows.push(Row::Finish(n(1))),
            "wrap" => code.rows.push(Row::Wrap(n(1), n(2), w[3].parse().unwrap())),
            "fold" => code.rows.push(Row::Fold(n(1))),
            "unless" => code.rows.push(Row::Unless(n(1), n(2))),
            "jump" => code.rows.push(Row::Jump(n(1))),
            "print" => code.rows.push(Row::Print(n(1))),
            "number" => code.rows.push(Row::Number(n(1))),
            "gather" => code.rows.push(Row::Gather(n(2), n(3))),
            "end" => code.rows.push(Row::End),
            _ => {}
        }
    }
    code
}

fn meet(a: &Span, b: &Span) -> Span {
    let mut all = *a;
    for k in 0..3 {
        all.0[k] = all.0[k].max(b.0[k]);
        all.1[k] = all.1[k].min(b.1[k]);
    }
    all
}

fn moved(a: &Span, d: &[i64; 3]) -> Span {
    let mut all = *a;
    for k in 0..3 {
        all.0[k] += d[k];
        all.1[k] += d[k];
    }
    all
}

fn size(a: &Span) -> usize {
    (0..3)
        .map(|k| (a.1[k] - a.0[k] + 1).max(0) as usize)
        .product()
}

fn tuple(a: &Span, index: usize) -> [i64; 3] {
    let mut left = index as i64;
    let mut t = [0; 3];
    for k in (0..3).rev() {
        let many = a.1[k] - a.0[k] + 1;
        t[k] = a.0[k] + left % many;
        left /= many;
    }
    t
}

fn place(a: &Span, t: &[i64; 3]) -> usize {
    (0..3).fold(0, |at, k| at * (a.1[k] - a.0[k] + 1) + t[k] - a.0[k]) as usize
}

fn blocks_of(code: &Code, count: usize) -> Vec<Span> {
    let mut cuts = vec![1; 3];
    for (k, n) in code.factors.iter().enumerate() {
        cuts[k.min(code.rank.max(1) - 1)] *= n;
    }
    let hull = code
        .arrays
        .iter()
        .fold(([FAR; 3], [-FAR; 3]), |mut hull, a| {
            for k in 0..3 {
                hull.0[k] = hull.0[k].min(a.shape.0[k]);
                hull.1[k] = hull.1[k].max(a.shape.1[k]);
            }
            hull
        });
    let block = |p: usize| {
        let mut all = ([0; 3], [0; 3]);
        let mut left = p;
        for k in (0..3).rev() {
            let (n, c) = (cuts[k] as i64, (left % cuts[k]) as i64);
            left /= cuts[k];
            let extent = (hull.1[k] - hull.0[k] + 1).max(0);
            let start = |c: i64| hull.0[k] + c * extent / n;
            all.0[k] = if c == 0 { -FAR } else { start(c) };
            all.1[k] = if c + 1 == n { FAR } else { start(c + 1) - 1 };
        }
        all
    };
    (0..count).map(block).collect()
}

/// The flat code of an expression: a word that stands by itself is the operand of the operator
/// behind it.
fn flatten(words: &[Word], array_at: &dyn Fn(usize, &[i64; 3]) -> i64, flat: &mut Flat) {
    let leaf = |word: &Word| match word {
        Word::Const(n) => Some((From::Const, 0, *n, None)),
        Word::Scalar(s) => Some((From::Scalar, *s, 0, None)),
        Word::Place(a, d) => Some((From::Element, 0, 0, Some((*a, array_at(*a, d))))),
        Word::Op(_) => None,
    };
    let act_of = |op: u8| match op {
        b'+' => Act::Add,
        b'-' => Act::Sub,
        b'*' => Act::Mul,
        b'/' => Act::Div,
        b'<' => Act::Less,
        _ => Act::Max,
    };
    let mut k = 0;
    let mut is_first = true;
    while k < words.len() {
        let next = words.get(k + 1);
        let (act, word, used) = match (&words[k], next) {
            (Word::Op(op), _) => (act_of(*op), None, 1),
            (word, Some(Word::Op(op))) => (act_of(*op), Some(word), 2),
            (word, _) => (if is_first { Act::Load } else { Act::Push }, Some(word), 1),
        };
        is_first = false;
        let (from, at, number, place) = match word {
            Some(word) => leaf(word).unwrap(),
            None => (From::Popped, 0, 0, None),
        };
        if let Some((array, off)) = place {
            let step = flat.steps.len();
            flat.patches.push(Patch { step, array, off });
        }
        flat.steps.push(Step { act, from, at, number });
        k += used;
    }
}

/// Runs flat code at the index that is `done` along a row of a region; what is left in the
/// accumulator.
#[inline(always)]
fn run(
    steps: &[Step],
    done: usize,
    scalars: &mut [i64],
    memory: &mut [i64],
    stack: &mut Vec<i64>,
) -> i64 {
    let mut sum = 0i64;
    for step in steps {
        let operand = match step.from {
            From::Const => step.number,
            From::Scalar => scalars[step.at],
            From::Element => memory[step.at + done],
            From::Popped => std::mem::replace(&mut sum, stack.pop().unwrap()),
            From::Nothing => 0,
        };
        match step.act {
            Act::Load => sum = operand,
            Act::Push => {
                stack.push(sum);
                sum = operand;
            }
            Act::Add => sum = sum.wrapping_add(operand),
            Act::Sub => sum = sum.wrapping_sub(operand),
            Act::Mul => sum = sum.wrapping_mul(operand),
            Act::Div => sum = sum.wrapping_div(operand),
            Act::Less => sum = i64::from(sum < operand),
            Act::Max => sum = sum.max(operand),
            Act::Put => memory[step.at + done] = sum,
            Act::AccMax => scalars[step.at] = scalars[step.at].max(sum),
            Act::AccSum => scalars[step.at] = scalars[step.at].wrapping_add(sum),
        }
    }
    sum
}

impl Local {
    fn new(code: &Code, block: &Span) -> Local {
        let held: Vec<Span> = code
            .arrays
            .iter()
            .map(|a| {
                let mut wide = *block;
                for k in 0..3 {
                    wide.0[k] -= a.low[k];
                    wide.1[k] += a.high[k];
                }
                meet(&wide, &a.shape)
            })
            .collect();
        let mut begin = Vec::new();
        let mut whole = 0;
        for h in &held {
            begin.push(whole);
            whole += size(h);
        }
        let groups = code
            .groups
            .iter()
            .map(|members| group_of(code, &held, members))
            .collect();
        let nothing = ([0; 3], [-1; 3]);
        Local {
            at: 0,
            made: 0,
            is_inside: false,
            awaited: usize::MAX,
            walk: Walk {
                own: nothing,
                row: [0; 3],
                done: 0,
                wide: 0,
            },
            last: code.rank.max(1) - 1,
            scalars: vec![0; code.scalars],
            slots: vec![nothing; code.slots],
            held,
            begin,
            memory: vec![0; whole],
            groups,
            exchanges: code.exchanges.iter().map(|_| None).collect(),
            wraps: code.rows.iter().map(|_| None).collect(),
            kept: Vec::new(),
        }
    }

    fn leave(&mut self, at: usize) {
        (self.at, self.made, self.is_inside) = (at, 0, false);
    }

    fn fix(&mut self, slot: usize, region: &Span) {
        if self.slots[slot] != *region {
            self.slots[slot] = *region;
            self.exchanges.iter_mut().for_each(|plan| *plan = None);
            self.wraps.iter_mut().for_each(|plan| *plan = None);
        }
    }

    /// Where the elements of a group stand, for the row of the region that the walk is at.
    fn place_group(&mut self, group: usize) {
        let Flat { steps, patches } = &mut self.groups[group];
        for patch in patches.iter() {
            let (held, t) = (&self.held[patch.array], &self.walk.row);
            let at = (0..3).fold(0, |at, k| at * (held.1[k] - held.0[k] + 1) + t[k] - held.0[k]);
            steps[patch.step].at = (self.begin[patch.array] as i64 + at + patch.off) as usize;
        }
    }

    fn places(&self, array: usize, region: &Span) -> Vec<usize> {
        let held = &self.held[array];
        (0..size(region))
            .map(|i| self.begin[array] + place(held, &tuple(region, i)))
            .collect()
    }

    /// The next row of the region, where there is one.
    fn next_row(&mut self) -> bool {
        let Walk { own, row, done, .. } = &mut self.walk;
        *done = 0;
        for k in (0..self.last).rev() {
            row[k] += 1;
            if row[k] <= own.1[k] {
                return true;
            }
            row[k] = own.0[k];
        }
        false
    }
}

/// How far apart two places are whose tuples are a distance apart.
fn distance(held: &Span, d: &[i64; 3]) -> i64 {
    (0..3).fold(0, |at, k| at * (held.1[k] - held.0[k] + 1) + d[k])
}

fn group_of(code: &Code, held: &[Span], members: &[Member]) -> Flat {
    let mut flat = Flat::default();
    let off = |array: usize, d: &[i64; 3]| distance(&held[array], d);
    for member in members {
        let (act, at, array, e) = match member {
            Member::Put(array, e) => (Act::Put, 0, Some(*array), *e),
            Member::Acc(s, true, e) => (Act::AccMax, *s, None, *e),
            Member::Acc(s, false, e) => (Act::AccSum, *s, None, *e),
        };
        flatten(&code.exprs[e], &off, &mut flat);
        if let Some(array) = array {
            let step = flat.steps.len();
            flat.patches.push(Patch { step, array, off: 0 });
        }
        flat.steps.push(Step {
            act,
            from: From::Nothing,
            at,
            number: 0,
        });
    }
    flat
}

struct Grid {
    code: Code,
    /// The flat code of each expression, for where no array is read.
    exprs: Vec<Flat>,
    count: usize,
    blocks: Vec<Span>,
    locals: Vec<Local>,
    links: Vec<VecDeque<Vec<i64>>>,
    /// The processors that neither wait nor have ended, as bits.
    awake: u64,
    running: usize,
    spare: Vec<Vec<i64>>,
    stack: Vec<i64>,
    sends: u64,
    words: u64,
    out: Vec<u8>,
}

impl Grid {
    fn new(code: Code) -> Grid {
        let count: usize = code.factors.iter().product();
        let blocks = blocks_of(&code, count);
        let locals = blocks.iter().map(|b| Local::new(&code, b)).collect();
        let exprs = code
            .exprs
            .iter()
            .map(|words| {
                let mut flat = Flat::default();
                flatten(words, &|_, _| 0, &mut flat);
                flat
            })
            .collect();
        Grid {
            code,
            exprs,
            count,
            blocks,
            locals,
            links: (0..count * count).map(|_| VecDeque::new()).collect(),
            awake: u64::MAX >> (64 - count),
            running: count,
            spare: Vec::new(),
            stack: Vec::new(),
            sends: 0,
            words: 0,
            out: Vec::new(),
        }
    }

    // the places of an item that `to` needs and `from` owns
    fn piece(&self, p: usize, exchange: usize, item: usize, from: usize, to: usize) -> Span {
        let (array, slot, shift) = &self.code.exchanges[exchange][item];
        let wanted = moved(
            &meet(&self.locals[p].slots[*slot], &self.blocks[to]),
            shift,
        );
        meet(
            &meet(&wanted, &self.locals[to].held[*array]),
            &self.blocks[from],
        )
    }

    fn plan_of(&self, p: usize, exchange: usize) -> Plan {
        let items = &self.code.exchanges[exchange];
        let part = |from: usize, to: usize| -> Vec<usize> {
            (0..items.len())
                .flat_map(|i| {
                    let piece = self.piece(p, exchange, i, from, to);
                    self.locals[p].places(items[i].0, &piece)
                })
                .collect()
        };
        let others = || (0..self.count).filter(|q| *q != p);
        let is_any = |one: &(usize, Vec<usize>)| !one.1.is_empty();
        Plan {
            sends: others().map(|q| (q, part(p, q))).filter(is_any).collect(),
            takes: others().map(|q| (q, part(q, p))).filter(is_any).collect(),
            alone: Vec::new(),
        }
    }

    // the places beside a region of rank 1 on the low side, which wrap round to the high one
    fn wrap_of(&self, p: usize, array: usize, slot: usize, d: i64) -> Plan {
        let local = &self.locals[p];
        let r = local.slots[slot];
        let beside = ([r.0[0] + d, 0, 0], [r.0[0] - 1, 0, 0]);
        let many = r.1[0] - r.0[0] + 1;
        let wrapped = |from: usize, to: usize| -> Span {
            let own = meet(&beside, &self.blocks[to]);
            moved(
                &meet(&moved(&own, &[many, 0, 0]), &self.blocks[from]),
                &[-many, 0, 0],
            )
        };
        let read = |to: usize| local.places(array, &moved(&wrapped(p, to), &[many, 0, 0]));
        let written = |from: usize| local.places(array, &wrapped(from, p));
        let others = || (0..self.count).filter(|q| *q != p);
        let is_any = |one: &(usize, Vec<usize>)| !one.1.is_empty();
        Plan {
            sends: others().map(|q| (q, read(q))).filter(is_any).collect(),
            takes: others().map(|q| (q, written(q))).filter(is_any).collect(),
            alone: read(p).into_iter().zip(written(p)).collect(),
        }
    }

    fn send(&mut self, p: usize, to: usize, words: Vec<i64>) {
        self.sends += 1;
        self.words += words.len() as u64;
        self.links[p * self.count + to].push_back(words);
        self.locals[p].made += 1;
        if self.locals[to].awaited == p {
            self.locals[to].awaited = usize::MAX;
            self.awake |= 1 << to;
        }
    }

    /// The next message from a processor; where there is none, the processor rests.
    fn taken(&mut self, p: usize, from: usize) -> Option<Vec<i64>> {
        let words = self.links[from * self.count + p].pop_front();
        if words.is_none() {
            self.locals[p].awaited = from;
            self.awake &= !(1 << p);
        } else {
            self.locals[p].made += 1;
        }
        words
    }

    fn send_places(&mut self, p: usize, to: usize, places: &[usize]) {
        let mut words = self.spare.pop().unwrap_or_default();
        let memory = &self.locals[p].memory;
        words.extend(places.iter().map(|at| memory[*at]));
        self.send(p, to, words);
    }

    fn take_places(&mut self, p: usize, from: usize, places: &[usize]) {
        if let Some(mut words) = self.taken(p, from) {
            let memory = &mut self.locals[p].memory;
            for (at, word) in places.iter().zip(&words) {
                memory[*at] = *word;
            }
            words.clear();
            self.spare.push(words);
        }
    }

    /// A turn of a row that exchanges places by a plan.
    fn by_plan(&mut self, p: usize, plan: &Plan, sends: bool, takes: bool) {
        let local = &mut self.locals[p];
        let mut made = local.made;
        if sends && takes {
            if made == 0 {
                for (from, to) in &plan.alone {
                    local.memory[*to] = local.memory[*from];
                }
                local.made = 1;
                return;
            }
            made -= 1;
        }
        if sends {
            if let Some((to, places)) = plan.sends.get(made) {
                return self.send_places(p, *to, places);
            }
            made -= plan.sends.len();
        }
        if takes {
            if let Some((from, places)) = plan.takes.get(made) {
                return self.take_places(p, *from, places);
            }
        }
        local.leave(local.at + 1);
    }

    fn exchanged(&mut self, p: usize, exchange: usize, sends: bool) {
        let plan = match self.locals[p].exchanges[exchange].take() {
            Some(plan) => plan,
            None => self.plan_of(p, exchange),
        };
        self.by_plan(p, &plan, sends, !sends);
        self.locals[p].exchanges[exchange] = Some(plan);
    }

    fn wrapped(&mut self, p: usize, array: usize, slot: usize, d: i64) {
        let at = self.locals[p].at;
        let plan = match self.locals[p].wraps[at].take() {
            Some(plan) => plan,
            None => self.wrap_of(p, array, slot, d),
        };
        self.by_plan(p, &plan, true, true);
        self.locals[p].wraps[at] = Some(plan);
    }

    fn fold(&mut self, p: usize, s: usize) {
        let (k, others) = (self.locals[p].made, self.count - 1);
        let (sends_to, takes_from) = match p {
            0 if k < others => (None, Some(k + 1)),
            0 if k < 2 * others => (Some(k - others + 1), None),
            0 => (None, None),
            _ if k == 0 => (Some(0), None),
            _ if k == 1 => (None, Some(0)),
            _ => (None, None),
        };
        if let Some(to) = sends_to {
            let mut words = self.spare.pop().unwrap_or_default();
            words.push(self.locals[p].scalars[s]);
            self.send(p, to, words);
        } else if let Some(from) = takes_from {
            if let Some(mut words) = self.taken(p, from) {
                let scalar = &mut self.locals[p].scalars[s];
                *scalar = if p == 0 { (*scalar).max(words[0]) } else { words[0] };
                words.clear();
                self.spare.push(words);
            }
        } else {
            let local = &mut self.locals[p];
            local.leave(local.at + 1);
        }
    }

    fn part(&self, p: usize, slot: usize, q: usize) -> Span {
        meet(&self.locals[p].slots[slot], &self.blocks[q])
    }

    fn gather(&mut self, p: usize, array: usize, slot: usize) {
        let made = self.locals[p].made;
        if p > 0 && made == 0 && size(&self.part(p, slot, p)) > 0 {
            let places = self.locals[p].places(array, &self.part(p, slot, p));
            return self.send_places(p, 0, &places);
        }
        let givers: Vec<usize> = (1..self.count)
            .filter(|q| size(&self.part(p, slot, *q)) > 0)
            .collect();
        if p == 0 && made < givers.len() {
            if let Some(words) = self.taken(0, givers[made]) {
                self.locals[0].kept.push((givers[made], words));
            }
            return;
        }
        if p == 0 {
            self.gathered(array, slot);
        }
        let local = &mut self.locals[p];
        local.leave(local.at + 1);
    }

    fn gathered(&mut self, array: usize, slot: usize) {
        let region = self.locals[0].slots[slot];
        let places = self.locals[0].places(array, &self.part(0, slot, 0));
        let own = places.iter().map(|at| self.locals[0].memory[*at]).collect();
        let mut kept = std::mem::take(&mut self.locals[0].kept);
        kept.push((0, own));
        let last = self.code.rank - 1;
        for i in 0..size(&region) {
            let t = tuple(&region, i);
            let q = (0..self.count)
                .find(|q| size(&meet(&(t, t), &self.blocks[*q])) == 1)
                .unwrap();
            let words = &kept.iter().find(|entry| entry.0 == q).unwrap().1;
            let word = words[place(&meet(&region, &self.blocks[q]), &t)];
            let end = if t[last] == region.1[last] { "\n" } else { " " };
            write!(self.out, "{word}{end}").unwrap();
        }
    }

    /// The group at the next index of the row of the region.
    #[inline(always)]
    fn index(&mut self, p: usize, group: usize) {
        let local = &mut self.locals[p];
        let done = local.walk.done;
        local.walk.done = done + 1;
        let steps = &local.groups[group].steps;
        run(steps, done, &mut local.scalars, &mut local.memory, &mut self.stack);
    }

    /// A turn of a loop: the group at an index, or to leave.
    #[inline(always)]
    fn looped(&mut self, p: usize, slot: usize, group: usize) {
        let local = &mut self.locals[p];
        if local.is_inside && local.walk.done < local.walk.wide {
            return self.index(p, group);
        }
        if local.is_inside {
            if !local.next_row() {
                local.leave(local.at + 1);
                return;
            }
        } else {
            let own = meet(&local.slots[slot], &self.blocks[p]);
            if size(&own) == 0 {
                local.leave(local.at + 1);
                return;
            }
            let wide = (own.1[local.last] - own.0[local.last] + 1) as usize;
            local.is_inside = true;
            local.walk = Walk { own, row: own.0, done: 0, wide };
        }
        local.place_group(group);
        self.index(p, group);
    }

    fn turn(&mut self, p: usize) {
        let local = &mut self.locals[p];
        let at = local.at;
        match self.code.rows[at] {
            Row::Loop(slot, group) => self.looped(p, slot, group),
            Row::Set(s, e) => {
                let steps = &self.exprs[e].steps;
                let value = run(steps, 0, &mut local.scalars, &mut [], &mut self.stack);
                local.scalars[s] = value;
                local.leave(at + 1);
            }
            Row::Unless(e, goal) => {
                let steps = &self.exprs[e].steps;
                let value = run(steps, 0, &mut local.scalars, &mut [], &mut self.stack);
                local.leave(if value != 0 { at + 1 } else { goal });
            }
            Row::Jump(goal) => local.leave(goal),
            Row::Fix(slot, region) => {
                local.fix(slot, &region);
                local.leave(at + 1);
            }
            Row::Start(x) => self.exchanged(p, x, true),
            Row::Finish(x) => self.exchanged(p, x, false),
            Row::Wrap(array, slot, d) => self.wrapped(p, array, slot, d),
            Row::Fold(s) => self.fold(p, s),
            Row::Print(text) => {
                if p == 0 {
                    self.out.extend_from_slice(&self.code.texts[text]);
                }
                local.leave(at + 1);
            }
            Row::Number(e) => {
                let steps = &self.exprs[e].steps;
                let value = run(steps, 0, &mut local.scalars, &mut [], &mut self.stack);
                if p == 0 {
                    write!(self.out, "{value}").unwrap();
                }
                local.leave(at + 1);
            }
            Row::Gather(array, slot) => self.gather(p, array, slot),
            Row::End => {
                self.awake &= !(1 << p);
                self.running -= 1;
            }
        }
    }

    /// Runs all processors to their ends; how many turns a rotation takes for that.
    fn run(&mut self) -> u64 {
        let mut turns = 0;
        loop {
            let mut left = self.awake;
            while left != 0 {
                let p = left.trailing_zeros() as usize;
                self.turn(p);
                if self.running == 0 {
                    return turns + p as u64 + 1;
                }
                // whoever was woken behind it has a turn in this round
                left = self.awake & (u64::MAX << p << 1);
            }
            turns += self.count as u64;
        }
    }
}

fn main() {
    let name = std::env::args().nth(1).expect("plain_turns LISTING");
    let mut grid = Grid::new(read(&std::fs::read_to_string(name).unwrap()));
    let turns = grid.run();
    std::io::stdout().write_all(&grid.out).unwrap();
    eprintln!("turns {turns} sends {} words {}", grid.sends, grid.words);
}
