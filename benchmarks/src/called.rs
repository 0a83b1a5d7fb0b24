//! A baseline whose calls are never inlined, as the proved calls are not: each costs one call.

use crate::answer::{Address, Answer, Backup, Candidate, Found, Segment, Sent, Verdict};

pub struct Called<T>(T);

impl<T: Segment> Segment for Called<T> {
    type Circuits = T::Circuits;

    fn empty() -> Self {
        Called(T::empty())
    }

    #[inline(never)]
    fn fresh(&mut self, esi: &[u8]) -> u8 {
        self.0.fresh(esi)
    }

    #[inline(never)]
    fn announce(&mut self, route: &[u8], communities: &[u8]) -> Verdict {
        self.0.announce(route, communities)
    }

    #[inline(never)]
    fn withdraw(&mut self, address: Address) -> u8 {
        self.0.withdraw(address)
    }

    #[inline(never)]
    fn set_flow_algorithms(&mut self, source_group: u8, any_source: u8) -> u8 {
        self.0.set_flow_algorithms(source_group, any_source)
    }

    #[inline(never)]
    fn set_ranges(&mut self, run: &[u32]) -> u8 {
        self.0.set_ranges(run)
    }

    #[inline(never)]
    fn elect(&self, tag: u32, ready: &[u32]) -> Answer {
        self.0.elect(tag, ready)
    }

    #[inline(never)]
    fn elect_source_group(&self, source: &[u8], group: &[u8], tag: u32, ready: &[u32]) -> Answer {
        self.0.elect_source_group(source, group, tag, ready)
    }

    #[inline(never)]
    fn elect_any_source(&self, group: &[u8], tag: u32, ready: &[u32]) -> Answer {
        self.0.elect_any_source(group, tag, ready)
    }

    #[inline(never)]
    fn elect_by_circuits(&self, circuits: &T::Circuits, tag: u32) -> Answer {
        self.0.elect_by_circuits(circuits, tag)
    }

    #[inline(never)]
    fn name_backup(&self, tag: u32, ready: &[u32]) -> Backup {
        self.0.name_backup(tag, ready)
    }

    #[inline(never)]
    fn name_backup_by_circuits(&self, circuits: &T::Circuits, tag: u32) -> Backup {
        self.0.name_backup_by_circuits(circuits, tag)
    }

    #[inline(never)]
    fn returning(&self, address: Address, algorithm: u8, preference: u16, dp: bool) -> Sent {
        self.0.returning(address, algorithm, preference, dp)
    }

    #[inline(never)]
    fn digest(tag: u32, esi: &[u8; 10]) -> u32 {
        T::digest(tag, esi)
    }

    #[inline(never)]
    fn name_backup_in(list: &[Candidate], algorithm: u8) -> Backup {
        T::name_backup_in(list, algorithm)
    }

    #[inline(never)]
    fn last_announcement(first: &[u8], second: &[u8], address: Address) -> Found {
        T::last_announcement(first, second, address)
    }
}
