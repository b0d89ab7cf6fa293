//! Runs other programs on given bytes, several at once.

use std::io::{Result as Done, Write};
use std::process::{Command, Stdio};
use std::sync::atomic::{AtomicBool, AtomicUsize, Ordering::Relaxed};
use std::thread;

/// Whether the program ends well on this input, and what it prints.
pub fn answer(program: &[&str], input: &[u8]) -> Done<(bool, String)> {
    let (success, bytes) = output(program, input)?;
    Ok((success, String::from_utf8_lossy(&bytes).into_owned()))
}

/// The same with what it gives back byte for byte.
pub fn output(program: &[&str], input: &[u8]) -> Done<(bool, Vec<u8>)> {
    let mut child = Command::new(program[0])
        .args(&program[1..])
        .stdin(Stdio::piped())
        .stdout(Stdio::piped())
        .spawn()?;
    let mut stdin = child.stdin.take().expect("a pipe");
    let output = thread::scope(|scope| {
        // Written beside the reading, or both programs could wait at full pipes. A program stops reading where it has seen enough.
        scope.spawn(move || stdin.write_all(input));
        child.wait_with_output()
    })?;
    Ok((output.status.success(), output.stdout))
}

/// The work done for each item, in order, or the first fault. Every worker takes the next item that none has taken.
pub fn each<T: Sync, A: Send>(
    items: &[T],
    work: impl Fn(&T) -> Result<A, String> + Sync,
) -> Result<Vec<A>, String> {
    let (next, failed) = (AtomicUsize::new(0), AtomicBool::new(false));
    let worker = || {
        let mut done = Vec::new();
        while !failed.load(Relaxed) {
            let at = next.fetch_add(1, Relaxed);
            match items.get(at).map(&work) {
                None => break,
                Some(answer) => {
                    failed.fetch_or(answer.is_err(), Relaxed);
                    done.push((at, answer));
                }
            }
        }
        done
    };
    let workers = thread::available_parallelism().map_or(1, |count| count.get());
    let mut all = thread::scope(|scope| {
        let running: Vec<_> = (0..workers).map(|_| scope.spawn(worker)).collect();
        let joined = running
            .into_iter()
            .flat_map(|worker| worker.join().expect("a worker ends"));
        joined.collect::<Vec<_>>()
    });
    all.sort_by_key(|&(at, _)| at);
    all.into_iter().map(|(_, answer)| answer).collect()
}
