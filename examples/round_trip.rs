// round_trip.rs - the library from Rust, with no crate: a source plan is expanded, and what comes back by projecting is the plan.
//
//   rustc -O examples/round_trip.rs -L PREFIX/lib -l static=ruphenqo -o round_trip
//   round_trip TASK PLAN
use std::{env, fs, process};

extern "C" {
    fn ruphenqo_expand(
        task: *const u8, task_length: usize, plan: *const u8, plan_length: usize, out: *mut u8, out_length: usize, length: *mut u64, place: *mut u64,
    ) -> u32;
    fn ruphenqo_project(
        task: *const u8, task_length: usize, plan: *const u8, plan_length: usize, out: *mut u8, out_length: usize, length: *mut u64, place: *mut u64,
    ) -> u32;
    fn ruphenqo_refusal_text(number: u32, out: *mut u8, out_length: usize, length: *mut u64, place: *mut u64) -> u32;
}

type Call = unsafe extern "C" fn(*const u8, usize, *const u8, usize, *mut u8, usize, *mut u64, *mut u64) -> u32;

// The result of a call that writes, or the refusal's number and place. 8 tells the bytes that it needs.
fn written(call: Call, task: &[u8], plan: &[u8]) -> Result<Vec<u8>, (u32, u64)> {
    let mut out = Vec::new();
    loop {
        let (mut length, mut place) = (0, 0);
        let number = unsafe { call(task.as_ptr(), task.len(), plan.as_ptr(), plan.len(), out.as_mut_ptr(), out.len(), &mut length, &mut place) };
        match number {
            0 => {
                out.truncate(length as usize);
                return Ok(out);
            }
            8 => out = vec![0; place as usize],
            _ => return Err((number, place)),
        }
    }
}

fn text_of(number: u32) -> String {
    let (mut text, mut length, mut place) = ([0; 80], 0, 0);
    unsafe { ruphenqo_refusal_text(number, text.as_mut_ptr(), text.len(), &mut length, &mut place) };
    String::from_utf8_lossy(&text[..length as usize]).into_owned()
}

fn taken<T>(what: &str, answer: Result<T, (u32, u64)>) -> T {
    answer.unwrap_or_else(|(number, place)| {
        eprintln!("{what} refused: {} ({number} at {place})", text_of(number));
        process::exit(1)
    })
}

fn main() {
    let paths: Vec<String> = env::args().skip(1).collect();
    if paths.len() != 2 {
        eprintln!("round_trip TASK PLAN");
        process::exit(2);
    }
    let task = fs::read(&paths[0]).expect("task");
    let plan = fs::read(&paths[1]).expect("plan");
    let restricted = taken("plan", written(ruphenqo_expand, &task, &plan));
    let back = taken("restricted plan", written(ruphenqo_project, &task, &restricted));
    let same = if back == plan { "the same plan back" } else { "ANOTHER PLAN BACK" };
    println!("{} source steps, {} restricted steps, {same}", plan.len() / 2, restricted.len() / 2);
}
