//! Two cards and a witness, which stores records only: a reading whose entry is damaged is kept, since
//! the witness has its record, and is fetched once the other card answers. It prints
//! `../examples/witness.out`; `../examples/witness.c` is the same in C.

use ropelog::{
    append, format, payload, plan, read, step, witness_append, witness_read, Epoch, Geometry,
    Refusal, Replica, ReplicaSet, StepAnswer,
};

/// A cluster of two cards and a witness in memory.
struct Fleet {
    geometry: Geometry,
    leader: Replica,
    other: Replica,
    witness: Replica,
    bytes: Vec<u8>,
}

impl Fleet {
    /// Three fresh images of four slots: cards 1 and 2, of which 1 leads, and witness 3.
    fn fresh() -> Result<Fleet, Refusal> {
        let cards = Geometry::new(3, 4)?;
        let witness = cards.replica(3)?;
        let geometry = cards.with_witnesses(ReplicaSet::EMPTY.with(witness));
        let mut bytes = vec![0; geometry.cluster_len()];
        for replica in geometry.replicas() {
            format(&mut bytes[geometry.image_range(replica)], geometry, replica)?;
        }
        Ok(Fleet {
            geometry,
            leader: geometry.replica(1)?,
            other: geometry.replica(2)?,
            witness,
            bytes,
        })
    }

    fn image(&self, replica: Replica) -> &[u8] {
        &self.bytes[self.geometry.image_range(replica)]
    }

    fn image_mut(&mut self, replica: Replica) -> &mut [u8] {
        let range = self.geometry.image_range(replica);
        &mut self.bytes[range]
    }

    /// Appends a reading on both cards and, if it is switched on, its epoch on the witness.
    fn append(&mut self, epoch: Epoch, reading: &str, witness_on: bool) -> Result<(), Refusal> {
        let (geometry, witness) = (self.geometry, self.witness);
        let mut slot = 0;
        for replica in [self.leader, self.other] {
            let image = self.image_mut(replica);
            slot = append(image, geometry, replica, epoch, reading.as_bytes())?;
        }
        if witness_on {
            slot = witness_append(self.image_mut(witness), geometry, witness, epoch)?;
        }
        let third = if witness_on { " 3" } else { "" };
        println!("  slot {slot}, {epoch}, on replicas 1 2{third}: {reading}");
        Ok(())
    }
}

/// Writes the logs, and answers the cluster's bytes as they were when only slot 1 was written.
fn write_logs(fleet: &mut Fleet) -> Result<Vec<u8>, Refusal> {
    println!(
        "Three replicas with {} slots each: 1 and 2 have cards of {} bytes, 3 is a witness of {}. \
         Replica {} leads.",
        fleet.geometry.slot_count(),
        fleet.geometry.image_len(fleet.leader),
        fleet.geometry.image_len(fleet.witness),
        fleet.leader.number()
    );
    fleet.append(Epoch::FIRST, "metre 1204, wire broken", true)?;
    let earlier = fleet.bytes.clone();
    fleet.append(Epoch::FIRST, "metre 1207, no signal", true)?;
    fleet.append(Epoch::FIRST, "metre 1212, wire broken", false)?;
    Ok(earlier)
}

/// Prints what is planned for slot 2.
fn print_plan(fleet: &Fleet, bytes: &[u8], present: ReplicaSet) -> Result<(), Refusal> {
    let plan = plan(bytes, fleet.geometry, fleet.leader, present)?;
    println!("  the plan for slot 2: {}", plan.actions()[1]);
    Ok(())
}

/// Makes steps until there is nothing to write, and prints them.
fn recover(fleet: &mut Fleet, present: ReplicaSet) -> Result<(), Refusal> {
    loop {
        match step(&mut fleet.bytes, fleet.geometry, fleet.leader, present)? {
            StepAnswer::Recovered => {
                println!("  a step: recovered, nothing is outstanding");
                return Ok(());
            }
            StepAnswer::Waiting { slot } => {
                println!("  a step: waiting for slot {slot}, nothing is written");
                return Ok(());
            }
            StepAnswer::Stored(store) => println!(
                "  a step: {}, slot {}: {}",
                store.replica, store.slot, store.kind
            ),
        }
    }
}

/// What would be planned if card 2 were on and had never got slot 2. The leader and the witness are two
/// of three, so what both have stored may be confirmed: it waits for as long as the witness has the
/// record.
fn suppose(fleet: &Fleet, earlier: &[u8]) -> Result<(), Refusal> {
    let all = fleet.geometry.all_present();
    let mut bytes = fleet.bytes.clone();
    let range = fleet.geometry.image_range(fleet.other);
    bytes[range.clone()].copy_from_slice(&earlier[range]);
    println!("\nSuppose card 2 is on and never got slot 2.");
    print_plan(fleet, &bytes, all)?;
    let range = fleet.geometry.image_range(fleet.witness);
    bytes[range.clone()].copy_from_slice(&earlier[range]);
    println!("\nSuppose the witness never got its record either.");
    print_plan(fleet, &bytes, all)
}

fn plan_and_recover(fleet: &mut Fleet, earlier: &[u8]) -> Result<(), Refusal> {
    let all = fleet.geometry.all_present();
    let without = all.without(fleet.other);
    let entry = fleet.geometry.entry_range(2);
    fleet.image_mut(fleet.leader)[entry][26] ^= 1;
    println!("\nOn card 1 a bit of the entry of slot 2 has flipped, and card 2 is off.");
    print_plan(fleet, &fleet.bytes, without)?;
    recover(fleet, without)?;
    suppose(fleet, earlier)?;
    println!("\nCard 2 is as it was, and is switched on.");
    print_plan(fleet, &fleet.bytes, all)?;
    recover(fleet, all)
}

fn print_card(fleet: &Fleet, replica: Replica) -> Result<(), Refusal> {
    let image = fleet.image(replica);
    let log = read(image, fleet.geometry, replica)?;
    for (at, state) in log.states()[..log.length()].iter().enumerate() {
        let slot = at + 1;
        let epoch = state.epoch.map_or(0, Epoch::number);
        let reading = String::from_utf8_lossy(payload(image, fleet.geometry, replica, slot));
        println!("  {replica}, slot {slot}, epoch {epoch}: {reading}");
    }
    Ok(())
}

fn print_witness(fleet: &Fleet, replica: Replica) -> Result<(), Refusal> {
    let log = witness_read(fleet.image(replica), fleet.geometry, replica)?;
    for (at, epoch) in log.epochs().iter().flatten().enumerate() {
        println!("  {replica}, slot {}, {epoch}: a record alone", at + 1);
    }
    Ok(())
}

fn main() -> Result<(), Refusal> {
    let mut fleet = Fleet::fresh()?;
    let earlier = write_logs(&mut fleet)?;
    plan_and_recover(&mut fleet, &earlier)?;
    println!("\nWhat a reader finds now:");
    print_card(&fleet, fleet.leader)?;
    print_card(&fleet, fleet.other)?;
    print_witness(&fleet, fleet.witness)
}
