//! A recovery from beginning to end: five replicas are written, damaged, planned, recovered and read
//! back. It prints `../examples/recovery.out`; `../examples/recovery.c` is the same in C.

use ropelog::{
    append, format, has_payload, payload, plan, read, run, step, Epoch, Geometry, PlanAnswer,
    Refusal, Replica, ReplicaSet, RunAnswer, StepAnswer, RECORD_LEN,
};

/// A cluster in memory, with the replica that leads it.
struct Fleet {
    geometry: Geometry,
    leader: Replica,
    bytes: Vec<u8>,
}

impl Fleet {
    /// Five fresh images of six slots, led by replica 1.
    fn fresh() -> Result<Fleet, Refusal> {
        let geometry = Geometry::new(5, 6)?;
        let mut bytes = vec![0; geometry.cluster_len()];
        for replica in geometry.replicas() {
            let image = &mut bytes[geometry.image_range(replica)];
            format(image, geometry, replica)?;
        }
        let leader = geometry.replica(1)?;
        Ok(Fleet {
            geometry,
            leader,
            bytes,
        })
    }

    /// The set of some replicas, by number.
    fn set(&self, numbers: &[usize]) -> Result<ReplicaSet, Refusal> {
        numbers
            .iter()
            .map(|&number| self.geometry.replica(number))
            .collect()
    }

    fn image(&self, replica: Replica) -> &[u8] {
        &self.bytes[self.geometry.image_range(replica)]
    }

    fn image_mut(&mut self, replica: Replica) -> &mut [u8] {
        let range = self.geometry.image_range(replica);
        &mut self.bytes[range]
    }

    fn entry_mut(&mut self, number: usize, slot: usize) -> Result<&mut [u8], Refusal> {
        let range = self.geometry.entry_range(slot);
        let replica = self.geometry.replica(number)?;
        Ok(&mut self.image_mut(replica)[range])
    }

    fn record_mut(&mut self, number: usize, slot: usize) -> Result<&mut [u8], Refusal> {
        let range = self.geometry.record_range(slot);
        let replica = self.geometry.replica(number)?;
        Ok(&mut self.image_mut(replica)[range])
    }

    /// Appends one reading on each replica of a set.
    fn append_on(
        &mut self,
        present: ReplicaSet,
        epoch: Epoch,
        reading: &str,
    ) -> Result<(), Refusal> {
        let geometry = self.geometry;
        let mut slot = 0;
        for replica in geometry.replicas().filter(|&one| present.contains(one)) {
            let image = self.image_mut(replica);
            slot = append(image, geometry, replica, epoch, reading.as_bytes())?;
        }
        let set = in_words(geometry, present);
        println!("  slot {slot}, {epoch}, on {set}: {reading}");
        Ok(())
    }
}

/// "replica 1" or "replicas 1 2".
fn in_words(geometry: Geometry, present: ReplicaSet) -> String {
    let numbers: Vec<String> = geometry
        .replicas()
        .filter(|&replica| present.contains(replica))
        .map(|replica| replica.number().to_string())
        .collect();
    let plural = if numbers.len() == 1 { "" } else { "s" };
    format!("replica{plural} {}", numbers.join(" "))
}

fn write_logs(fleet: &mut Fleet) -> Result<(), Refusal> {
    println!(
        "Five replicas with {} slots each, {} bytes on each card. Replica {} leads.",
        fleet.geometry.slot_count(),
        fleet.geometry.image_len(fleet.leader),
        fleet.leader.number()
    );
    let all = fleet.geometry.all_present();
    let but_four = all.without(fleet.geometry.replica(4)?);
    let leader = ReplicaSet::EMPTY.with(fleet.leader);
    fleet.append_on(all, Epoch::FIRST, "metre 1204, wire broken")?;
    fleet.append_on(all, Epoch::FIRST, "metre 1207, no signal")?;
    fleet.append_on(all, Epoch::FIRST, "metre 1212, wire broken")?;
    fleet.append_on(but_four, Epoch::FIRST, "metre 1219, strand loose")?;
    fleet.append_on(leader, Epoch::FIRST, "metre 1223, wire broken")
}

fn damage(fleet: &mut Fleet) -> Result<(), Refusal> {
    println!("\nThe power fails, and the cards have suffered.");
    fleet.entry_mut(1, 5)?[40..140].fill(0);
    println!("  replica 1, slot 5: the entry was being written and is torn");
    fleet.entry_mut(1, 2)?[26] ^= 1;
    fleet.entry_mut(2, 2)?[30] ^= 1;
    println!("  replicas 1 and 2, slot 2: a bit of the entry has flipped");
    fleet.record_mut(1, 3)?.copy_from_slice(&[b'#'; RECORD_LEN]);
    println!("  replica 1, slot 3: the record is overwritten");
    fleet.entry_mut(3, 1)?.fill(0);
    println!("  replica 3, slot 1: the entry is erased");
    Ok(())
}

/// Prints what a reader says of the used slots of each replica.
fn print_verdicts(fleet: &Fleet) -> Result<(), Refusal> {
    for replica in fleet.geometry.replicas() {
        let log = read(fleet.image(replica), fleet.geometry, replica)?;
        let verdicts: Vec<String> = log.states()[..log.length()]
            .iter()
            .map(|state| state.verdict.to_string())
            .collect();
        println!(
            "  {replica}, length {}: {}",
            log.length(),
            verdicts.join(", ")
        );
    }
    Ok(())
}

fn print_plan(fleet: &Fleet, present: ReplicaSet) -> Result<(), Refusal> {
    let plan = plan(&fleet.bytes, fleet.geometry, fleet.leader, present)?;
    let set = in_words(fleet.geometry, present);
    println!("\nThe plan with {set} present:");
    for (replica, row) in fleet.geometry.replicas().zip(plan.rows()) {
        if !row.readable {
            println!("  {replica} is away");
            continue;
        }
        let last = row.last_epoch.map_or(0, Epoch::number);
        println!(
            "  {replica} answers: length {}, last epoch {last}",
            row.length
        );
    }
    for (at, action) in plan.actions().iter().enumerate() {
        println!("  slot {}: {action}", at + 1);
    }
    match plan.answer() {
        PlanAnswer::Ready { length } => println!("  ready: the log will have {length} slots"),
        PlanAnswer::Waiting { slot } => println!("  waiting for an answer about slot {slot}"),
    }
    Ok(())
}

/// Makes one step and prints it.
fn one_step(fleet: &mut Fleet, present: ReplicaSet) -> Result<(), Refusal> {
    let answer = step(&mut fleet.bytes, fleet.geometry, fleet.leader, present)?;
    match answer {
        StepAnswer::Recovered => println!("  a step: recovered, nothing is outstanding"),
        StepAnswer::Waiting { slot } => {
            println!("  a step: waiting for slot {slot}, nothing is written")
        }
        StepAnswer::Stored(store) => println!(
            "  a step: {}, slot {}: {}",
            store.replica, store.slot, store.kind
        ),
    }
    Ok(())
}

/// Makes a run and prints it.
fn one_run(fleet: &mut Fleet, present: ReplicaSet, budget: u64) -> Result<(), Refusal> {
    let answer = run(
        &mut fleet.bytes,
        fleet.geometry,
        fleet.leader,
        present,
        budget,
    )?;
    print!("  a run of at most {budget} stores: ");
    match answer {
        RunAnswer::Recovered { stores } => println!("made {stores}, recovered"),
        RunAnswer::Waiting { slot, .. } => println!("waiting for slot {slot}"),
        RunAnswer::Spent { stores } => println!("made {stores}, more are outstanding"),
    }
    Ok(())
}

/// Recovers with replica 5 away, whose card must stay as it is.
fn recover(fleet: &mut Fleet) -> Result<(), Refusal> {
    let two = fleet.set(&[1, 2])?;
    let four = fleet.set(&[1, 2, 3, 4])?;
    let fifth = fleet.geometry.replica(5)?;
    let away = fleet.image(fifth).to_vec();
    print_plan(fleet, two)?;
    one_step(fleet, two)?;
    print_plan(fleet, four)?;
    println!("\nThe recovery:");
    for _ in 0..3 {
        one_step(fleet, four)?;
    }
    one_run(fleet, four, 2)?;
    one_run(fleet, four, fleet.geometry.enough_stores())?;
    one_step(fleet, four)?;
    let kept = fleet.image(fifth) == away;
    println!(
        "  replica 5 was away: {}",
        if kept {
            "no byte of it changed"
        } else {
            "it changed"
        }
    );
    Ok(())
}

/// Appends in a new epoch, as after every cut, and shows that an old one is refused.
fn append_again(fleet: &mut Fleet) -> Result<(), Refusal> {
    println!("\nThe log was cut, so it goes on in a new epoch.");
    let four = fleet.set(&[1, 2, 3, 4])?;
    let reading = "metre 1223, wire broken (measured again)";
    fleet.append_on(four, Epoch::new(2)?, reading)?;
    let before = fleet.bytes.clone();
    let (geometry, leader) = (fleet.geometry, fleet.leader);
    let late = append(
        fleet.image_mut(leader),
        geometry,
        leader,
        Epoch::FIRST,
        b"late",
    );
    let refusal = late.map_or_else(Refusal::number, |_| 0);
    let kept = fleet.bytes == before;
    println!(
        "  an append in epoch 1 is refused by {refusal}, and {}",
        if kept {
            "no byte changed"
        } else {
            "bytes changed"
        }
    );
    Ok(())
}

/// Prints each payload of the leader, and how many replicas have it too.
fn print_log(fleet: &Fleet) {
    println!("\nThe log at the end:");
    let has = |replica, slot| has_payload(fleet.image(replica), fleet.geometry, replica, slot);
    let at = |replica, slot| payload(fleet.image(replica), fleet.geometry, replica, slot);
    for slot in 1..=fleet.geometry.slot_count() {
        if has(fleet.leader, slot) != Ok(true) {
            continue;
        }
        let reading = at(fleet.leader, slot);
        let holders = fleet
            .geometry
            .replicas()
            .filter(|&replica| has(replica, slot) == Ok(true) && at(replica, slot) == reading)
            .count();
        let text = String::from_utf8_lossy(reading);
        println!("  slot {slot}, on {holders} replicas: {text}");
    }
}

fn main() -> Result<(), Refusal> {
    let mut fleet = Fleet::fresh()?;
    write_logs(&mut fleet)?;
    damage(&mut fleet)?;
    println!("\nWhat a reader finds:");
    print_verdicts(&fleet)?;
    recover(&mut fleet)?;
    append_again(&mut fleet)?;
    print_log(&fleet);
    println!("\nWhat a reader finds now:");
    print_verdicts(&fleet)
}
