//! Stands for the packet pools: a pool that never runs out. Document 01 has no answer for an
//! empty pool but the packet's verdict 1, out of memory.

pub type Packet = [u8; 64];

pub trait PacketPool {
    type Packet: AsRef<[u8]> + AsMut<[u8]>;
    fn allocate() -> Option<Self::Packet>;
}

pub struct Pool;

impl PacketPool for Pool {
    type Packet = Packet;
    fn allocate() -> Option<Packet> {
        Some([0; 64])
    }
}
