// Settles case 9 of the page from Rust, by one call, pass by pass and in calls of at most two passes, case 6 on a plain and on a held
// resource, then a plan that has none: its output buffer has to be as it was.
// Built and run by tests/40-embed; by hand: rustc examples/embed/settle.rs -C link-arg="$(tools/archive)" -o /tmp/embed && /tmp/embed, in the repository

// What libgristwaltz.a exports; a byte slice is a pointer and a length.
mod engine {
    extern "C" {
        fn gristwaltz_settle(file: *const u8, file_len: usize, out: *mut u8, out_len: usize) -> u64;
        fn gristwaltz_settle_within(file: *const u8, file_len: usize, most: u64, out: *mut u8, out_len: usize) -> u64;
        fn gristwaltz_most_passes(file: *const u8, file_len: usize) -> u64;
        fn gristwaltz_check(file: *const u8, file_len: usize) -> u64;
        fn gristwaltz_pass(file: *const u8, file_len: usize, out: *mut u8, out_len: usize) -> u64;
    }

    #[derive(Debug, PartialEq)]
    pub enum Answer {
        Done(u32),
        Refused { number: u32, place: u32 },
    }

    fn answer(n: u64) -> Answer {
        match (n >> 32) as u32 {
            0 => Answer::Done(n as u32),
            number => Answer::Refused { number, place: n as u32 },
        }
    }

    /// Settles the plan of `file`; on success the settled plan's file is the front of `out`, on a refusal `out` is as it was.
    pub fn settle(file: &[u8], out: &mut [u8]) -> Answer {
        answer(unsafe { gristwaltz_settle(file.as_ptr(), file.len(), out.as_mut_ptr(), out.len()) })
    }

    /// As `settle`, but makes at most `most` passes: `Done(0)` where the plan is not settled by then, and `out` what those passes left, to go
    /// on from.
    pub fn settle_within(file: &[u8], most: u64, out: &mut [u8]) -> Answer {
        answer(unsafe { gristwaltz_settle_within(file.as_ptr(), file.len(), most, out.as_mut_ptr(), out.len()) })
    }

    /// The most passes that settling the plan of `file` can take.
    pub fn most_passes(file: &[u8]) -> Answer {
        answer(unsafe { gristwaltz_most_passes(file.as_ptr(), file.len()) })
    }

    /// One pass over the plan of `file`: `Done(0)`, since only settling reports a pass count.
    pub fn pass(file: &[u8], out: &mut [u8]) -> Answer {
        answer(unsafe { gristwaltz_pass(file.as_ptr(), file.len(), out.as_mut_ptr(), out.len()) })
    }

    pub fn check(file: &[u8]) -> Answer {
        answer(unsafe { gristwaltz_check(file.as_ptr(), file.len()) })
    }
}

/// The marks of a plain resource, and of a held one, whose limit has to hold between tasks too.
const PLAIN: &[u8] = b"RS";
const HELD: &[u8] = b"RH";

fn plan(sense: u8, resources: &[(&[u8], i32, i32)], tasks: &[(u16, [i32; 8])]) -> Vec<u8> {
    let mut file = b"PL".to_vec();
    file.extend([sense, resources.len() as u8]);
    file.extend((tasks.len() as u16).to_le_bytes());
    for (mark, id, limit) in resources {
        file.extend(*mark);
        file.extend(id.to_le_bytes());
        file.extend(limit.to_le_bytes());
    }
    for (set, ranges) in tasks {
        file.extend(b"TK");
        file.extend(set.to_le_bytes());
        for value in ranges {
            file.extend(value.to_le_bytes());
        }
    }
    file
}

/// Passes one by one until one changes nothing, as a host does that cuts off long calls: `file` holds what is left, however far it got. The
/// number of passes, the last one counted too, or the refusal.
fn settle_by_passes(file: &mut Vec<u8>) -> engine::Answer {
    for passes in 1.. {
        let mut out = file.clone();
        match engine::pass(file, &mut out) {
            engine::Answer::Done(_) if out == *file => return engine::Answer::Done(passes),
            engine::Answer::Done(_) => *file = out,
            refused => return refused,
        }
    }
    unreachable!()
}

fn main() {
    let case_nine = plan(1, &[(PLAIN, 7, 4), (PLAIN, 9, 3)], &[(1, [1, 2, 2, 2, 3, 4, 0, 1]), (3, [0, 6, 2, 2, 2, 8, 0, 4])]);
    let mut out = vec![0; case_nine.len()];
    println!("case 9: {:?}", engine::settle(&case_nine, &mut out));
    let settled = plan(1, &[(PLAIN, 7, 4), (PLAIN, 9, 3)], &[(1, [1, 2, 2, 2, 3, 4, 0, 1]), (1, [1, 2, 2, 2, 3, 4, 3, 4])]);
    println!("the settled plan is {}", if out == settled { "the page's" } else { "another" });
    let mut left = case_nine.clone();
    println!("case 9 by passes: {:?}", settle_by_passes(&mut left));
    println!("the plan that is left is {}", if left == settled { "the page's" } else { "another" });

    // what could be removed: 1 + 0 + 1 + 1 of task 0, 6 + 0 + 6 + 4 of task 1 and one of its two resources; one more pass than that
    println!("case 9 takes at most: {:?}", engine::most_passes(&case_nine));
    let (mut left, mut out) = (vec![0; case_nine.len()], vec![0; case_nine.len()]);
    println!("case 9 within 2 passes: {:?}", engine::settle_within(&case_nine, 2, &mut left));
    println!("going on from there: {:?}", engine::settle_within(&left, 2, &mut out));
    println!("the plan that is left is {}", if out == settled { "the page's" } else { "another" });

    // 2 are due, and two tasks have them on days 1 and 2 and on days 5 and 6; days 3 and 4 are bare
    let case_six = |mark| plan(1, &[(mark, 7, 2)], &[(1, [1, 1, 2, 2, 3, 3, 2, 2]), (1, [5, 5, 2, 2, 7, 7, 2, 2])]);
    let mut out = vec![0; 100];
    println!("case 6, a plain resource: {:?}", engine::settle(&case_six(PLAIN), &mut out));
    println!("case 6, a held one: {:?}", engine::settle(&case_six(HELD), &mut out));

    let without_plan = plan(1, &[(PLAIN, 7, 0)], &[(1, [5, 5, 1, 1, 6, 6, -1, -1])]);
    let mut out = vec![0xa5; 100];
    println!("no plan: {:?}", engine::settle(&without_plan, &mut out));
    println!("the output is {}", if out == vec![0xa5; 100] { "as it was" } else { "changed" });
    println!("cut short: {:?}", engine::check(&case_nine[..5]));
}
