//! A background (document 02, 2026-02) read twice, plainly: as stills in the order in which they came, and as lent memory with all that lies in it.
use super::{read_still, Answer};

const MOST: usize = 1000;

#[derive(Clone, Debug, PartialEq, Eq)]
pub struct Member {
    pub number: u32,
    pub tolerance: u32,
    pub raster: Vec<u8>,
}

fn place_of(members: &[Member], number: u32) -> Option<usize> {
    members.iter().position(|m| m.number == number)
}

/// Means of samples, halves up.
fn mean_raster(members: &[Member], size: usize) -> Vec<u8> {
    let count = members.len() as u64;
    let mean = |j: usize| {
        let sum: u64 = members.iter().map(|m| m.raster[j] as u64).sum();
        ((2 * sum + count) / (2 * count)) as u8
    };
    (0..size).map(mean).collect()
}

fn mean_tolerance(members: &[Member]) -> u64 {
    let largest = members.iter().map(|m| m.tolerance as u64).max();
    (largest.unwrap_or(0) + 32768).min(16_711_680)
}

/// A still to add and the size that it has: width, height and channels.
fn incoming(still: &[u8], number: u32, tolerance: u32) -> Answer<([u64; 3], Member)> {
    let picture = read_still(still)?;
    let size = [picture.width, picture.height, picture.channels].map(|n| n as u64);
    let raster = still[picture.start..].to_vec();
    let member = Member {
        number,
        tolerance,
        raster,
    };
    Ok((size, member))
}

/// The tests between those of the still and the last one, of room.
fn joins(members: &[Member], held: [u64; 3], number: u32, size: [u64; 3]) -> Answer<()> {
    if place_of(members, number).is_some() {
        return Err(23);
    }
    if !members.is_empty() && held != size {
        return Err(24);
    }
    if members.len() >= MOST {
        return Err(25);
    }
    Ok(())
}

/// The stills kept, in the order in which they came, with as much memory as they need.
#[derive(Clone, Debug, Default)]
pub struct Stills {
    size: [u64; 3],
    members: Vec<Member>,
}

impl Stills {
    pub fn add(&mut self, still: &[u8], number: u32, tolerance: u32) -> Answer<()> {
        let (size, member) = incoming(still, number, tolerance)?;
        joins(&self.members, self.size, number, size)?;
        self.members.push(member);
        self.size = size;
        Ok(())
    }

    pub fn remove(&mut self, number: u32) -> Answer<()> {
        let place = place_of(&self.members, number).ok_or(23u32)?;
        self.members.remove(place);
        Ok(())
    }

    /// T and the raster of the mean.
    pub fn mean(&self) -> Option<(u64, Vec<u8>)> {
        let size = self.members.first()?.raster.len();
        Some((
            mean_tolerance(&self.members),
            mean_raster(&self.members, size),
        ))
    }

    pub fn len(&self) -> usize {
        self.members.len()
    }
}

/// Lent memory, whatever lies in it. `held` is how many stills there are, their width, height and channels.
#[derive(Clone, Debug, PartialEq, Eq)]
pub struct Memory {
    pub rasters: Vec<u8>,
    pub labels: Vec<u32>,
    pub held: [u64; 4],
}

impl Memory {
    fn size(&self) -> [u64; 3] {
        let [_, width, height, channels] = self.held;
        [width, height, channels]
    }

    fn has_room(&self, stills: u64, size: [u64; 3]) -> bool {
        let raster = size[0] * size[1] * size[2];
        stills * raster <= self.rasters.len() as u64 && 2 * stills <= self.labels.len() as u64
    }

    /// The stills that are held, or 20 where they lack their room.
    fn members(&self) -> Answer<Vec<Member>> {
        let count = self.held[0];
        if count == 0 {
            return Ok(vec![]);
        }
        if self.held.iter().any(|n| *n > 65535) || !self.has_room(count, self.size()) {
            return Err(20);
        }
        let raster = self.size().iter().product::<u64>() as usize;
        let member = |i: usize| Member {
            number: self.labels[2 * i],
            tolerance: self.labels[2 * i + 1],
            raster: self.rasters[i * raster..(i + 1) * raster].to_vec(),
        };
        Ok((0..count as usize).map(member).collect())
    }

    /// The same memory with these stills at its front, and behind them as it was.
    fn holding(&self, members: &[Member], [width, height, channels]: [u64; 3]) -> Memory {
        let mut memory = self.clone();
        let rasters: Vec<u8> = members.iter().flat_map(|m| m.raster.clone()).collect();
        let labels: Vec<u32> = members
            .iter()
            .flat_map(|m| [m.number, m.tolerance])
            .collect();
        memory.rasters[..rasters.len()].copy_from_slice(&rasters);
        memory.labels[..labels.len()].copy_from_slice(&labels);
        memory.held = [members.len() as u64, width, height, channels];
        memory
    }

    /// Memory after an addition.
    pub fn add(&self, still: &[u8], number: u32, tolerance: u32) -> Answer<Memory> {
        let (size, member) = incoming(still, number, tolerance)?;
        let mut members = self.members()?;
        joins(&members, self.size(), number, size)?;
        members.push(member);
        if !self.has_room(members.len() as u64, size) {
            return Err(20);
        }
        Ok(self.holding(&members, size))
    }

    /// Memory after a removal: the last still is now where the removed one was.
    pub fn remove(&self, number: u32) -> Answer<Memory> {
        let mut members = self.members()?;
        let place = place_of(&members, number).ok_or(23u32)?;
        members.swap_remove(place);
        Ok(self.holding(&members, self.size()))
    }

    /// T and the raster of the mean, for an output of `out` bytes.
    pub fn mean(&self, out: usize) -> Answer<Option<(u64, Vec<u8>)>> {
        let members = self.members()?;
        if members.is_empty() {
            return Ok(None);
        }
        let size = members[0].raster.len();
        if out < size {
            return Err(20);
        }
        Ok(Some((
            mean_tolerance(&members),
            mean_raster(&members, size),
        )))
    }
}
