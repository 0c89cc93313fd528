//! Each call on its happy path, each refusal, and what its types keep.
use std::collections::BTreeMap;
use std::thread::scope;
use universal::{register, Call, Fault, Log, Machine, NotClosed, Reply, Seat};

const SWITCH: Machine<'static> = Machine { states: 2, invocations: 2, next: &[0, 1, 1, 0], reply: &[0, 0, 1, 1] };

fn replies(log: Log, invs: &[u64]) -> Vec<u32> {
    let mut seats = log.into_seats().unwrap();
    invs.iter().map(|inv| seats[0].apply(*inv).unwrap().reply).collect()
}

#[test]
fn a_tally_answers_the_sum_before() {
    assert_eq!(replies(Log::tally(1, 3).unwrap(), &[5, 2, 1]), [0, 5, 7]);
    assert_eq!(replies(Log::tally(1, 2).unwrap(), &[(1 << 31) + 4, 0]), [0, 4]);
}

#[test]
fn a_sticky_register_keeps_the_first_value() {
    assert_eq!(replies(Log::sticky(1, 4).unwrap(), &[0, 8, 10, 0]), [0, 8, 8, 8]);
    assert_eq!(replies(Log::sticky(1, 2).unwrap(), &[1_000_000_001, 1_000_000_000]), [0, 1_000_000_000]);
}

#[test]
fn a_register_answers_the_value_before() {
    let calls = [
        register::write(5),
        register::swap(9),
        register::fetch_add(3),
        register::fetch_max(7),
        register::fetch_max(20),
        register::compare_exchange(1, 2),
        register::compare_exchange(20, 2),
        register::read(),
    ];
    assert_eq!(replies(Log::register(1, 8).unwrap(), &calls), [0, 5, 9, 12, 12, 20, 20, 2]);
}

#[test]
fn a_machine_goes_by_its_tables() {
    assert_eq!(replies(Log::machine(1, 4, SWITCH).unwrap(), &[0, 1, 9, 0]), [0, 0, 1, 0]);
}

#[test]
fn bad_sizes_are_refused() {
    let fault = |opened: Result<Log, Fault>| opened.unwrap_err();
    assert_eq!(fault(Log::tally(0, 0)), Fault::BadCount);
    assert_eq!(fault(Log::sticky(65, 1)), Fault::BadCount);
    assert_eq!(fault(Log::register(1, 0)), Fault::BadRow);
    assert_eq!(fault(Log::tally(64, 4097)), Fault::BadRow);
    assert!(Log::tally(64, 4096).is_ok());
}

#[test]
fn bad_tables_are_refused() {
    let bad = [
        Machine { states: 0, ..SWITCH },
        Machine { states: 3, ..SWITCH },
        Machine { invocations: 0, ..SWITCH },
        Machine { invocations: 1, ..SWITCH },
        Machine { next: &[0, 1, 2, 0], ..SWITCH },
        Machine { next: &[], ..SWITCH },
        Machine { reply: &[0, 0, 1, 1 << 31], ..SWITCH },
        Machine { reply: &[0, 0, 1, 1, 0], ..SWITCH },
    ];
    for machine in bad {
        assert_eq!(Log::machine(0, 0, machine).unwrap_err(), Fault::BadTable, "{machine:?}");
    }
    assert_eq!(Log::machine(0, 1, SWITCH).unwrap_err(), Fault::BadCount);
    assert_eq!(Log::machine(1, 0, SWITCH).unwrap_err(), Fault::BadRow);
}

#[test]
fn seats_come_from_the_greatest_process_and_end() {
    let mut log = Log::tally(3, 1).unwrap();
    let seats = [log.seat().unwrap(), log.seat().unwrap(), log.seat().unwrap()];
    assert_eq!(seats.each_ref().map(|seat| seat.process()), [2, 1, 0]);
    assert_eq!(log.seat().unwrap_err(), Fault::NoSeat);
}

#[test]
fn a_full_seat_changes_nothing() {
    let mut seats = Log::tally(1, 1).unwrap().into_seats().unwrap();
    assert_eq!(seats[0].apply(4).map(|answer| answer.reply), Ok(0));
    assert_eq!(seats[0].apply(4), Err(Fault::Spent));
    assert_eq!(Fault::Full, Fault::Spent);
    let calls = seats.pop().unwrap().close().unwrap();
    assert_eq!(calls.len(), 1);
    assert_eq!((calls[0].seq, calls[0].process, calls[0].nth, calls[0].inv, calls[0].reply()), (2, 0, 0, 4, Some(0)));
}

#[test]
fn entries_tell_processes_and_their_calls() {
    let mut log = Log::tally(2, 2).unwrap();
    let (mut first, mut second) = (log.seat().unwrap(), log.seat().unwrap());
    drop(log);
    let replies = [first.apply(5), first.apply(2), second.apply(1)].map(|answer| answer.unwrap().reply);
    assert_eq!(replies, [0, 5, 7]);
    drop(second);
    let calls = first.close().unwrap();
    let told: Vec<_> = calls.iter().map(|call| (call.seq, call.process, call.nth, call.inv, call.reply())).collect();
    assert_eq!(told, [(2, 1, 0, 5, Some(0)), (3, 1, 1, 2, Some(5)), (4, 0, 0, 1, Some(7))]);
}

#[test]
fn a_busy_log_gives_the_seat_back() {
    let mut log = Log::tally(2, 2).unwrap();
    let (mut first, second) = (log.seat().unwrap(), log.seat().unwrap());
    first.apply(3).unwrap();
    let Err(NotClosed::Busy(first)) = first.close() else { panic!("the log and a seat have it") };
    drop(log);
    let Err(NotClosed::Busy(mut first)) = first.close() else { panic!("a seat has it") };
    assert_eq!(first.apply(1).unwrap().reply, 3);
    drop(second);
    assert_eq!(first.close().unwrap().len(), 2);
}

fn call(seat: &mut Seat, inv: u64) -> Call {
    Call { inv, answer: seat.apply(inv).unwrap() }
}

#[test]
fn a_closed_log_has_the_calls_of_all_seats() {
    let mut seats = Log::tally(3, 2).unwrap().into_seats().unwrap();
    let of_2 = [call(&mut seats[0], 3), call(&mut seats[0], 1)];
    let of_1 = [call(&mut seats[1], 7)];
    let of_last = [call(&mut seats[2], 2)];
    assert_eq!([of_2[0], of_2[1], of_1[0], of_last[0]].map(|call| call.answer.reply), [0, 3, 4, 11]);
    let last = seats.pop().unwrap();
    drop(seats);
    let mut log = last.finish().unwrap();
    assert_eq!(log.compare(2, &of_2), Ok(()));
    assert_eq!(log.compare(1, &of_1), Ok(()));
    assert_eq!(log.compare(0, &of_last), Ok(()));
    assert_eq!(log.compare(3, &[]), Ok(()));
    assert_eq!(log.compare(2, &of_2[..1]), Err(1));
    assert_eq!(log.compare(2, &of_1), Err(0));
    assert_eq!(log.compare(1, &[]), Err(0));
    let other = Call { answer: Reply { reply: 4, turns: 1 }, ..of_2[1] };
    assert_eq!(log.compare(2, &[of_2[0], other]), Err(1));
    assert_eq!(log.entries().len(), 4);
}

#[test]
fn two_logs_do_not_mix() {
    let mut logs = [Log::tally(1, 2).unwrap(), Log::tally(1, 2).unwrap()];
    let mut seats = logs.each_mut().map(|log| log.seat().unwrap());
    drop(logs);
    assert_eq!(seats[0].apply(5).unwrap().reply, 0);
    assert_eq!(seats[1].apply(7).unwrap().reply, 0);
    assert_eq!(seats[0].apply(1).unwrap().reply, 5);
    let sizes = seats.map(|seat| seat.close().unwrap().len());
    assert_eq!(sizes, [2, 1]);
}

#[test]
fn the_log_has_what_each_thread_was_told() {
    let mut seats = Log::tally(4, 500).unwrap().into_seats().unwrap();
    let told: BTreeMap<u64, Vec<u32>> = scope(|threads| {
        let started: Vec<_> = seats
            .iter_mut()
            .map(|seat| threads.spawn(|| (seat.process(), (0..500).map(|i| seat.apply(i).unwrap().reply).collect())))
            .collect();
        started.into_iter().map(|thread| thread.join().unwrap()).collect()
    });
    let last = seats.pop().unwrap();
    drop(seats);
    let calls = last.close().unwrap();
    assert_eq!(calls.len(), 2000);
    let mut sum = 0;
    for (place, call) in calls.iter().enumerate() {
        assert_eq!((call.seq, u64::from(call.reply().unwrap())), (place as u64 + 2, sum));
        assert_eq!(call.reply(), Some(told[&call.process][call.nth as usize]));
        sum += call.inv;
    }
    assert_eq!(sum, 4 * 499 * 500 / 2);
}

#[test]
fn handles_go_to_other_threads() {
    fn goes<T: Send + Sync>() {}
    goes::<Log>();
    goes::<universal::Seat>();
}

#[test]
fn a_call_that_has_returned_is_there() {
    let mut seats = Log::tally(2, 1).unwrap().into_seats().unwrap();
    assert!(!seats[0].follows(0, 0));
    seats[1].apply(5).unwrap();
    assert!(seats[0].follows(0, 0));
    assert!(!seats[0].follows(0, 1));
    assert!(!seats[0].follows(2, 0));
    assert!(!seats[0].follows(1 << 32, 0));
    assert_eq!(seats[0].apply(3).unwrap().reply, 5);
}

#[test]
fn faults_are_errors() {
    let mut log = Log::tally(2, 1).unwrap();
    let seat = log.seat().unwrap();
    let busy: Box<dyn std::error::Error> = Box::new(seat.close().unwrap_err());
    assert_eq!(busy.to_string(), "another handle has the log");
    let none: Box<dyn std::error::Error> = Box::new(Log::tally(0, 1).unwrap_err());
    assert_eq!(none.to_string(), "there aren't from 1 to 64 processes");
}
