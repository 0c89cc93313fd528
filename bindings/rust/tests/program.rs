//! Objects by programs: an account, a rate limiter, a leaderboard and a map with compare-and-insert, each beside a function.
use universal::program::{Label, Program, ProgramFault, Register};
use universal::Fault;

const LIMIT: u64 = 1000;
const CLIENTS: u64 = 8;
const TOKENS: u64 = 5;
const RATE: u64 = 2;
const PAIRS: u64 = 8;
const BEST: u64 = 3;
const REPLY: usize = 8;

/// A program whose reply begins with how many calls there were before: the call's place among all calls.
fn counted(pairs: u64) -> Program {
    let mut p = Program::new(&vec![0; 2 + 2 * pairs as usize], 3, REPLY as u64);
    p.block(|p| {
        let calls = p.state(0);
        p.answer(0, calls);
        let more = p.add(calls, 1);
        p.store(0, more);
    });
    p
}

/// At most `LIMIT`: (0, amount) adds, (1, amount) takes; the reply is whether that was done, and the balance.
fn account() -> Program {
    let mut p = counted(0);
    let (kind, amount, balance) = (p.invocation(0), p.invocation(1), p.state(1));
    p.answer(2, balance);
    let total = p.register(balance);
    p.when(kind.equals(1), |p| p.subtract_from_or(total, amount, Program::END));
    p.when(kind.differs(1), |p| {
        p.add_to(total, amount);
        p.go_where(total.more(LIMIT), Program::END);
    });
    p.store(1, total);
    p.answer(1, 1);
    p.answer(2, total);
    p
}

fn plain_account(state: &mut [u64], call: &[u64], reply: &mut [u64]) {
    let total = match call[0] {
        1 => state[1].checked_sub(call[1]),
        _ => state[1].checked_add(call[1]).filter(|total| *total <= LIMIT),
    };
    if let Some(total) = total {
        state[1] = total;
        reply[1] = 1;
    }
    reply[2] = state[1];
}

/// Each of `CLIENTS` has at most `TOKENS` tokens, and gets `RATE` more with each unit of time: (client, now) takes one.
fn limiter() -> Program {
    let mut p = counted(CLIENTS);
    let (full, fresh, none) = (p.label(), p.label(), p.label());
    let (client, now) = (p.invocation(0), p.invocation(1));
    let place = p.multiply(client, 2);
    p.add_to(place, 1);
    let next = p.add(place, 1);
    let (tokens, last) = (p.state(place), p.state(next));
    let elapsed = p.subtract_or(now, last, fresh);
    p.store(next, now);
    let more = p.multiply_or(elapsed, RATE, full);
    let sum = p.add_or(tokens, more, full);
    p.set(tokens, sum);
    p.go_where(sum.at_most(TOKENS), fresh);
    p.here(full);
    p.set(tokens, TOKENS);
    p.here(fresh);
    p.subtract_from_or(tokens, 1, none);
    p.answer(1, 1);
    p.here(none);
    p.store(place, tokens);
    p
}

fn plain_limiter(state: &mut [u64], call: &[u64], reply: &mut [u64]) {
    if call[0] >= CLIENTS {
        return;
    }
    let place = 1 + 2 * call[0] as usize;
    if let Some(elapsed) = call[1].checked_sub(state[place + 1]) {
        state[place] = state[place].saturating_add(elapsed.saturating_mul(RATE)).min(TOKENS);
        state[place + 1] = call[1];
    }
    if state[place] > 0 {
        state[place] -= 1;
        reply[1] = 1;
    }
}

/// The place of a key's pair; at `absent`, of a new one. Word 1 is how many pairs there are, and then they come.
fn find(p: &mut Program, key: Register, absent: Label) -> Register {
    let (place, end) = (p.register(2), p.state(1));
    p.add_to(end, end);
    p.add_to(end, 2);
    p.repeat(PAIRS + 1, |p, found| {
        p.go_where(place.equals(end), absent);
        let here = p.state(place);
        p.go_where(here.equals(key), found);
        p.add_to(place, 2);
    });
    place
}

/// A new pair at this place; where there is no room for it, the call ends.
fn append(p: &mut Program, key: Register, place: Register) {
    p.block(|p| {
        p.store(place, key);
        let count = p.state(1);
        p.add_to(count, 1);
        p.store(1, count);
    });
}

/// (0, player, points) adds points, and is answered the sum; each other call the `BEST` best players with their points.
fn leaderboard() -> Program {
    let mut p = counted(PAIRS);
    let (new, tell) = (p.label(), p.label());
    let kind = p.invocation(0);
    p.when(kind.differs(0), |p| {
        for word in 2..2 + 2 * BEST {
            p.block(|p| {
                let told = p.state(word);
                p.answer(word, told);
            });
        }
        p.go(Program::END);
    });
    let (player, points) = (p.invocation(1), p.invocation(2));
    let place = find(&mut p, player, new);
    p.block(|p| {
        let next = p.add(place, 1);
        let before = p.state(next);
        p.add_to(points, before);
    });
    p.go(tell);
    p.here(new);
    append(&mut p, player, place);
    p.here(tell);
    p.block(|p| {
        let next = p.add(place, 1);
        p.store(next, points);
    });
    p.answer(1, points);
    p.repeat(PAIRS, |p, sorted| {
        p.go_where(place.equals(2), sorted);
        let (before, next) = (p.subtract(place, 2), p.add(place, 1));
        let prior = p.subtract(place, 1);
        let (other, above) = (p.state(before), p.state(prior));
        p.go_where(points.at_most(above), sorted);
        p.store(place, other);
        p.store(next, above);
        p.store(before, player);
        p.store(prior, points);
        p.set(place, before);
    });
    p
}

fn plain_find(state: &[u64], key: u64) -> (usize, bool) {
    let end = 2 + 2 * state[1] as usize;
    let found = (2..end).step_by(2).find(|place| state[*place] == key);
    (found.unwrap_or(end), found.is_none())
}

fn plain_leaderboard(state: &mut [u64], call: &[u64], reply: &mut [u64]) {
    if call[0] != 0 {
        let best = 2..2 + 2 * BEST as usize;
        reply[best.clone()].copy_from_slice(&state[best]);
        return;
    }
    let (mut place, is_new) = plain_find(state, call[1]);
    if place == state.len() {
        return;
    }
    let before = if is_new { 0 } else { state[place + 1] };
    let Some(points) = before.checked_add(call[2]) else { return };
    state[1] += is_new as u64;
    (state[place], state[place + 1], reply[1]) = (call[1], points, points);
    while place > 2 && state[place - 1] < points {
        state.swap(place, place - 2);
        state.swap(place + 1, place - 1);
        place -= 2;
    }
}

/// (key, expected, value) writes the value where the key has the expected one, 0 for none: whether, and the one before.
fn compare_insert() -> Program {
    let mut p = counted(PAIRS);
    let (absent, write) = (p.label(), p.label());
    let (key, expected, value) = (p.invocation(0), p.invocation(1), p.invocation(2));
    let place = find(&mut p, key, absent);
    p.block(|p| {
        let next = p.add(place, 1);
        let before = p.state(next);
        p.answer(2, before);
        p.go_where(before.differs(expected), Program::END);
    });
    p.go(write);
    p.here(absent);
    p.go_where(expected.differs(0), Program::END);
    append(&mut p, key, place);
    p.here(write);
    p.add_to(place, 1);
    p.store(place, value);
    p.answer(1, 1);
    p
}

fn plain_compare_insert(state: &mut [u64], call: &[u64], reply: &mut [u64]) {
    let (place, is_new) = plain_find(state, call[0]);
    reply[2] = if is_new { 0 } else { state[place + 1] };
    if reply[2] == call[1] && place < state.len() {
        state[1] += is_new as u64;
        (state[place], state[place + 1], reply[1]) = (call[0], call[2], 1);
    }
}

type Plain = fn(&mut [u64], &[u64], &mut [u64]);

/// xorshift64* (S. Vigna, 'An experimental exploration of Marsaglia's xorshift generators, scrambled', 2016).
fn drawn(seed: &mut u64) -> u64 {
    *seed ^= *seed >> 12;
    *seed ^= *seed << 25;
    *seed ^= *seed >> 27;
    seed.wrapping_mul(0x2545_F491_4F6C_DD1D)
}

/// A call that reaches each branch: small numbers, and now and then one of all 64 bits.
fn call_of(seed: &mut u64, time: u64) -> [u64; 3] {
    let mut call = [10, 4, 4].map(|below| {
        let number = drawn(seed);
        if number % 1009 == 0 {
            drawn(seed)
        } else {
            (number >> 32) % below
        }
    });
    if drawn(seed) % 4 == 0 {
        call[1] = time;
    }
    call
}

fn wanted(plain: Plain, state: &mut [u64], call: &[u64]) -> [u64; REPLY] {
    let mut reply = [0; REPLY];
    reply[0] = state[0];
    state[0] += 1;
    plain(state, call, &mut reply);
    reply
}

fn agree(program: Program, pairs: u64, plain: Plain) {
    let mut seat = program.open(1).unwrap().into_seats().unwrap().pop().unwrap();
    let (mut state, mut seed) = (vec![0; 2 + 2 * pairs as usize], 7);
    for k in 0..100_000 {
        let (call, mut reply) = (call_of(&mut seed, k / 16), [9; REPLY]);
        seat.call(&call, &mut reply).unwrap();
        assert_eq!(reply, wanted(plain, &mut state, &call), "call {k}: {call:?}");
    }
    assert_eq!(seat.close().unwrap(), state);
    agree_in_threads(program, pairs, plain);
}

/// The calls of four threads, made again in the order that they were told: 1,000,000 in all, or as many as the variable CALLS says.
fn agree_in_threads(program: Program, pairs: u64, plain: Plain) {
    let each = std::env::var("CALLS").map_or(1_000_000, |calls| calls.parse().unwrap()) / 4;
    let mut seats = program.open(4).unwrap().into_seats().unwrap();
    let mut told: Vec<([u64; 3], [u64; REPLY])> = std::thread::scope(|scope| {
        let workers: Vec<_> = seats
            .iter_mut()
            .map(|seat| {
                scope.spawn(move || {
                    let mut seed = 1000 + seat.process();
                    let made = (0..each).map(|k| {
                        let (call, mut reply) = (call_of(&mut seed, k / 16), [9; REPLY]);
                        seat.call(&call, &mut reply).unwrap();
                        (call, reply)
                    });
                    made.collect::<Vec<_>>()
                })
            })
            .collect();
        workers.into_iter().flat_map(|worker| worker.join().unwrap()).collect()
    });
    told.sort_by_key(|(_, reply)| reply[0]);
    let mut state = vec![0; 2 + 2 * pairs as usize];
    for (k, (call, reply)) in told.iter().enumerate() {
        assert_eq!(*reply, wanted(plain, &mut state, call), "call {k}: {call:?}");
    }
    let last = seats.pop().unwrap();
    drop(seats);
    assert_eq!(last.close().unwrap(), state);
}

#[test]
fn an_account_with_a_limit_agrees_with_the_function() {
    agree(account(), 0, plain_account);
}

#[test]
fn a_rate_limiter_agrees_with_the_function() {
    agree(limiter(), CLIENTS, plain_limiter);
}

#[test]
fn a_leaderboard_agrees_with_the_function() {
    agree(leaderboard(), PAIRS, plain_leaderboard);
}

#[test]
fn compare_and_insert_agrees_with_the_function() {
    agree(compare_insert(), PAIRS, plain_compare_insert);
}

#[test]
fn each_refusal_tells_its_instruction() {
    let refused = |write: &dyn Fn(&mut Program)| {
        let mut p = Program::new(&[0], 1, 1);
        p.register(5);
        write(&mut p);
        p.open(1).unwrap_err()
    };
    let at = |fault, place| ProgramFault { fault, place };
    assert_eq!(
        refused(&|p| {
            let _ = p.state(1);
        }),
        at(Fault::NoPlace, Some(1))
    );
    assert_eq!(
        refused(&|p| (0..14).for_each(|_| {
            let _ = p.register(5);
        })),
        at(Fault::NoRegister, Some(14))
    );
    assert_eq!(
        refused(&|p| {
            let before = p.label();
            p.here(before);
            p.go(before);
        }),
        at(Fault::JumpsBack, Some(1))
    );
    assert_eq!(
        refused(&|p| {
            let nowhere = p.label();
            p.go(nowhere);
        }),
        at(Fault::NoTarget, Some(1))
    );
    assert_eq!(refused(&|p| (0..17).for_each(|_| p.repeat(1, |_, _| ()))), at(Fault::NoLoop, Some(17)));
    assert_eq!(refused(&|p| p.repeat(1 << 33, |_, _| ())), at(Fault::TooLong, None));
    assert_eq!(Program::new(&[], 0, 0).open(1).unwrap_err(), at(Fault::BadCapacity, None));
    assert_eq!(Program::new(&[], 0, 1).open(65).unwrap_err(), at(Fault::BadCount, None));
}

#[test]
fn other_words_than_the_program_has_are_refused() {
    let mut seat = Program::new(&[], 1, 1).open(1).unwrap().into_seats().unwrap().pop().unwrap();
    assert_eq!(seat.call(&[1, 2], &mut [0]), Err(Fault::BadWidth));
    assert_eq!(seat.call(&[1], &mut [0, 0]), Err(Fault::BadWidth));
    assert_eq!(seat.call(&[1], &mut [7]), Ok(()));
}
