//! What a table has: rounds, in which every function has its share of the calls.

use crate::answer::Answer;
use crate::call::{Argument, Call, Function, Lent};
use crate::numbers::{all_outside, ranges};
use crate::plans::Plan;
use crate::shares::{
    OF_NUMBERS, ON_CHANNELS, ON_TOTALS, READERS, SHARED, SHARES, WITH_NUMBERS, WRITERS,
};
use crate::table::{Table, Wrong};
use crate::traffic::Series;
use crate::{channels, datagrams, frames, meters, orders, repetitions, writes};
use inputs::leaks::some_payload;
use inputs::plans::{Stores, MOST_COUPLERS, MOST_OWN, MOST_PROJECT};
use inputs::Generator;

#[derive(Clone, Copy, Debug)]
pub struct Options {
    pub count: usize,
    pub seed: u64,
    /// For a machine with 64 kB: at most 80 couplers in a site and one table in a store.
    pub is_small: bool,
    pub wrong: Option<Wrong>,
}

/// Long enough for a store and a filter table to be used many times before others are sent.
const ROUND: usize = 600;
/// The least calls for a share of every function.
pub const LEAST: usize = 150;

/// From so many calls on, a table begins with what is not left to chance: each number at each place
/// outside its range, tunnelling with each two things wrong, the channels' counters past 255, frames one
/// bit other than the one remembered, floats and sums at the borders of their rules.
const LEAST_WITH_ALL: usize = 8000;

const COUPLERS_OF_A_ROUND: usize = 3;
const SITES_OF_A_ROUND: usize = 18;

/// The stores of the first rounds, in tables: each as large as it may be, and larger.
const LARGE_STORES: [[usize; 2]; 4] = [
    [MOST_PROJECT, 1],
    [1, MOST_OWN],
    [MOST_PROJECT + 1, 1],
    [1, MOST_OWN + 1],
];

pub fn table(options: Options) -> Table {
    assert!(options.count >= LEAST, "at least {LEAST} calls");
    let mut writer = Writer {
        options,
        generator: Generator::new(options.seed),
        table: Table::default(),
        rounds: 0,
    };
    if options.count >= LEAST_WITH_ALL {
        writer.numbers_outside();
        writer.orders();
        writer.counters();
        writer.repetitions();
        writer.floats();
    }
    while writer.table.count() < options.count {
        let left = options.count - writer.table.count();
        // No round is left over that is too short for every function.
        let calls = if left < ROUND + LEAST { left } else { ROUND };
        writer.round(calls);
    }
    if let Some(wrong) = options.wrong {
        writer.table.spoil(wrong);
    }
    writer.table
}

struct Writer {
    options: Options,
    generator: Generator,
    table: Table,
    rounds: usize,
}

impl Writer {
    fn round(&mut self, calls: usize) {
        let mut shares = SHARES.map(|share| share * calls / SHARED);
        if self.options.wrong == Some(Wrong::Function) {
            shares[Function::Why as usize] = 0;
        }
        shares[Function::Tp1Read as usize] += calls - shares.iter().sum::<usize>();
        let share = |function| shares[function as usize];
        for function in repeated(&READERS, share) {
            self.read(function);
        }
        for function in repeated(&WRITERS, share) {
            let call = writes::some_write(&mut self.generator, function);
            self.table.add(&call);
        }
        self.steps(share(Function::Step));
        self.sites(share(Function::Trace), share(Function::Why));
        self.tunnels(repeated(&ON_CHANNELS, share));
        for function in repeated(&OF_NUMBERS, share) {
            let call = meters::some_of_numbers(&mut self.generator, function);
            self.table.add(&call);
        }
        self.stations(repeated(&ON_TOTALS, share));
        self.rounds += 1;
    }

    /// Calls that would be accepted but for one number, which is outside its range in every way.
    fn numbers_outside(&mut self) {
        for function in WITH_NUMBERS {
            for (number, &most) in ranges(function).iter().enumerate() {
                let ways = all_outside(0, most).len();
                for way in 0..ways {
                    let mut call = self.accepted(function);
                    let given = call.number_mut(number);
                    *given = all_outside(*given, most)[way];
                    self.table.add(&call);
                }
            }
        }
    }

    /// Tunnelling with one thing wrong, and with each two of them.
    fn orders(&mut self) {
        for (call, _) in orders::calls() {
            self.table.add(&call);
        }
    }

    /// Frames marked repeated, each one bit other than the one remembered.
    fn repetitions(&mut self) {
        for call in repetitions::calls() {
            self.table.add(&call);
        }
    }

    /// Floats and sums at the borders of their rules.
    fn floats(&mut self) {
        for call in meters::calls() {
            self.table.add(&call);
        }
    }

    /// A fresh channel's counters all the way round, and one further; those of the others from 254 on.
    fn counters(&mut self) {
        let whole = channels::some_channel(&mut self.generator);
        for channel in 1..=4 {
            match channel == whole {
                true => self.counters_of(channels::Series::on_channel(channel, 0), 257),
                false => self.counters_of(channels::Series::on_channel(channel, 254), 4),
            }
        }
    }

    fn counters_of(&mut self, mut series: channels::Series, times: usize) {
        let generator = &mut self.generator;
        for _ in 0..times {
            let received = self.table.add(&series.expected(generator));
            series.keep(&received.rooms[0]);
            self.table.add(&series.sent(generator));
            let confirmed = self.table.add(&series.confirmed());
            series.keep(&confirmed.rooms[0]);
        }
    }

    /// A call that the reference does not refuse; of a writer, with a payload for both formats.
    fn accepted(&mut self, function: Function) -> Call {
        let generator = &mut self.generator;
        let most_couplers = extent(self.options).couplers;
        let stores = Stores::new(generator, [1, 1]);
        loop {
            let call = match function {
                Function::Step => Series::new(generator).step(generator),
                Function::Trace | Function::Why => {
                    let plan = Plan::new(generator, &stores, most_couplers);
                    let query = plan.query(generator);
                    match function {
                        Function::Trace => plan.trace(generator, &query),
                        _ => plan.why(generator, &query),
                    }
                }
                Function::TunnellingSend => channels::Series::new(generator).send(generator),
                Function::FloatValue => meters::some_of_numbers(generator, function),
                Function::TotalAdd => meters::Series::new(generator).add(generator),
                Function::Take => meters::Series::new(generator).take(generator),
                _ => writes::some_write(generator, function),
            };
            let fits_both = match call.slices().as_slice() {
                [payload] | [_, payload] => payload.len() <= 16,
                _ => true,
            };
            if fits_both && Answer::of(&call).number as u8 == 0 {
                return call;
            }
        }
    }

    fn read(&mut self, function: Function) {
        let generator = &mut self.generator;
        let octets = match (generator.below(64), function) {
            (0, _) => Lent::Null,
            (1, _) => Vec::new().into(),
            (_, Function::Tp1Read) => frames::some_tp1(generator).into(),
            (_, Function::CemiRead) => frames::some_cemi(generator).into(),
            (_, Function::RoutingRead) => frames::some_routing(generator).into(),
            (_, Function::TunnellingRequestRead) => datagrams::some_request(generator).into(),
            (_, Function::TunnellingAckRead) => datagrams::some_acknowledgement(generator).into(),
            (_, Function::FloatRead) => meters::some_octets(generator).into(),
            (_, Function::Increment) => some_payload(generator).into(),
            _ => {
                let length = generator.below(300);
                generator.octets(length).into()
            }
        };
        self.table.add(&Call {
            function,
            arguments: vec![Argument::Octets(octets)],
        });
    }

    /// Couplers, each with nothing remembered at first and with other settings now and then.
    fn steps(&mut self, steps: usize) {
        let generator = &mut self.generator;
        for part in 0..COUPLERS_OF_A_ROUND {
            let mut series = Series::new(generator);
            for _ in 0..portion(steps, part, COUPLERS_OF_A_ROUND) {
                match generator.below(40) {
                    0 => series.spoil_size(generator),
                    1..6 => series.set(generator),
                    _ => {}
                }
                let answer = self.table.add(&series.step(generator));
                series.keep(&answer.rooms[0]);
            }
        }
    }

    fn sites(&mut self, traces: usize, whys: usize) {
        let tables = self.tables();
        let generator = &mut self.generator;
        let most_couplers = extent(self.options).couplers;
        let stores = Stores::new(generator, tables);
        for part in 0..SITES_OF_A_ROUND {
            let plan = Plan::new(generator, &stores, most_couplers);
            for _ in 0..portion(traces, part, SITES_OF_A_ROUND) {
                let query = plan.query(generator);
                self.table.add(&plan.trace(generator, &query));
            }
            for _ in 0..portion(whys, part, SITES_OF_A_ROUND) {
                let query = plan.query(generator);
                self.table.add(&plan.why(generator, &query));
            }
        }
    }

    /// Calls on a table of channels in any order, now and then on another one.
    fn tunnels(&mut self, mut functions: Vec<Function>) {
        let generator = &mut self.generator;
        generator.shuffle(&mut functions);
        let mut series = channels::Series::new(generator);
        for function in functions {
            match generator.below(40) {
                0 => series = channels::Series::new(generator),
                1..4 => series.set(generator),
                _ => {}
            }
            let call = match function {
                Function::TunnellingReceive => series.receive(generator),
                Function::TunnellingSend => series.send(generator),
                _ => series.confirm(generator),
            };
            let answer = self.table.add(&call);
            if function != Function::TunnellingSend {
                series.keep(&answer.rooms[0]);
            }
        }
    }

    /// Calls on a station's total in any order, now and then of another one.
    fn stations(&mut self, mut functions: Vec<Function>) {
        let generator = &mut self.generator;
        generator.shuffle(&mut functions);
        let mut series = meters::Series::new(generator);
        for function in functions {
            match generator.below(40) {
                0 => series = meters::Series::new(generator),
                1 => series.spoil_size(generator),
                _ => {}
            }
            let call = match function {
                Function::TotalAdd => series.add(generator),
                _ => series.take(generator),
            };
            let answer = self.table.add(&call);
            series.keep(&answer.rooms);
        }
    }

    /// How many tables the two stores of a round have.
    fn tables(&mut self) -> [usize; 2] {
        let most = extent(self.options).tables;
        let large = match self.rounds {
            round @ 1..=4 => LARGE_STORES.get(round - 1),
            _ => LARGE_STORES.get(self.generator.below(512)),
        };
        match large {
            Some(&large) if !self.options.is_small => large,
            _ => [0; 2].map(|_: usize| self.generator.below(most + 1)),
        }
    }
}

/// How much a site and its stores have at most.
struct Extent {
    couplers: usize,
    tables: usize,
}

fn extent(options: Options) -> Extent {
    match options.is_small {
        true => Extent {
            couplers: 80,
            tables: 1,
        },
        false => Extent {
            couplers: MOST_COUPLERS,
            tables: 3,
        },
    }
}

/// Each function so many times.
fn repeated(functions: &[Function], times: impl Fn(Function) -> usize) -> Vec<Function> {
    let of_one = |&function| std::iter::repeat_n(function, times(function));
    functions.iter().flat_map(of_one).collect()
}

/// A part's calls where all are shared out evenly.
fn portion(all: usize, part: usize, parts: usize) -> usize {
    all * (part + 1) / parts - all * part / parts
}
