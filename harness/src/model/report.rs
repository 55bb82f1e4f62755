//! The printing program, from input bytes to output bytes. It is for edition 1 alone.

use super::column::{read_column, write_column};
use super::layout::cluster_len;
use super::planner::{decide, Answer};
use super::read::check_shape;
use super::refusal::Refusal;
use super::shape::Shape;
use super::survey::survey;

const MAX_INPUT: usize = 65_536;
const COMMAND_LEN: usize = 14;

/// The numbers of the command line. No present word means the leader alone.
struct Command {
    shape: Shape,
    leader: usize,
    present: Option<u32>,
}

/// Everything the program prints for an input.
pub fn report(input: &[u8]) -> Vec<u8> {
    match report_plan(input) {
        Ok(output) => output,
        Err(refusal) => {
            let mut output = b"refused".to_vec();
            push_column(&mut output, 4, u64::from(refusal.number()));
            output.push(b'\n');
            output
        }
    }
}

fn report_plan(input: &[u8]) -> Result<Vec<u8>, Refusal> {
    if input.len() > MAX_INPUT {
        return Err(Refusal::BufferLength);
    }
    let command = read_command(input).ok_or(Refusal::CommandLine)?;
    let cluster = &input[COMMAND_LEN..];
    let Command { shape, leader, .. } = command;
    let present = match command.present {
        Some(word) => word,
        None => leader_alone(cluster, shape, leader)?,
    };
    let survey = survey(cluster, shape, leader, present)?;
    let decision = decide(&survey);
    let (status, number) = match decision.answer {
        Answer::Ready(length) => (0, length),
        Answer::Waiting(slot) => (1, slot),
    };
    let mut output = Vec::new();
    push_column(&mut output, 4, shape.n as u64);
    push_column(&mut output, 4, leader as u64);
    push_column(&mut output, 4, status);
    push_column(&mut output, 4, number as u64);
    output.push(b'\n');
    let log = survey.leader_log();
    for slot in 1..=log.length {
        push_column(&mut output, 4, slot as u64);
        push_column(&mut output, 11, u64::from(log.epoch(slot)));
        push_column(&mut output, 4, u64::from(decision.plan_byte(slot)));
        output.push(b'\n');
    }
    Ok(output)
}

/// The word of the leader alone. A leader that is no replica has none: 12, behind 1, 2 and 3.
fn leader_alone(cluster: &[u8], shape: Shape, leader: usize) -> Result<u32, Refusal> {
    check_shape(shape)?;
    if cluster.len() != cluster_len(shape) {
        return Err(Refusal::BufferLength);
    }
    if !(1..=shape.n).contains(&leader) {
        return Err(Refusal::Leader);
    }
    Ok(1 << (leader - 1))
}

/// Reads the first 14 bytes, or nothing if they are not well formed.
fn read_command(input: &[u8]) -> Option<Command> {
    if input.len() < COMMAND_LEN || input[COMMAND_LEN - 1] != b'\n' {
        return None;
    }
    let n = read_column(&input[0..3])? as usize;
    let m = read_column(&input[3..6])? as usize;
    Some(Command {
        shape: Shape::edition_1(n, m),
        leader: read_column(&input[6..9])? as usize,
        present: read_present(&input[9..13])?,
    })
}

/// The outer option says whether the column is well formed, the inner one whether it is filled.
fn read_present(column: &[u8]) -> Option<Option<u32>> {
    if column.iter().all(|&byte| byte == b' ') {
        return Some(None);
    }
    Some(Some(read_column(column)? as u32))
}

fn push_column(output: &mut Vec<u8>, width: usize, number: u64) {
    let start = output.len();
    output.resize(start + width, b' ');
    write_column(&mut output[start..], number);
}
