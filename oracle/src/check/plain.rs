//! Plain sets and relations of packets, by which the operations are judged.
//! Packets have at most 6 fields, so that a set of them fits in 64 bits.

/// How many packets have `level` fields.
pub fn packets(level: u32) -> u32 {
    1 << level
}

/// A set of packets: bit p is set where packet p is a member.
#[derive(Clone, Debug, PartialEq, Eq, Hash)]
pub struct PacketSet {
    pub level: u32,
    bits: u64,
}

impl PacketSet {
    pub fn of(level: u32, member: impl Fn(u32) -> bool) -> PacketSet {
        PacketSet { level, bits: bits(level, member) }
    }

    pub fn has(&self, packet: u32) -> bool {
        self.bits >> packet & 1 == 1
    }

    pub fn is_empty(&self) -> bool {
        self.bits == 0
    }

    /// The members where field 0 is 0 and those where it is 1, without that field.
    pub fn split(&self) -> [PacketSet; 2] {
        let level = self.level - 1;
        halves(level, self.bits).map(|bits| PacketSet { level, bits })
    }

    /// The inverse of `split`.
    pub fn join([low, high]: [PacketSet; 2]) -> PacketSet {
        PacketSet { level: low.level + 1, bits: whole(low.level, low.bits, high.bits) }
    }

    pub fn all(level: u32) -> impl Iterator<Item = PacketSet> {
        (0..1 << packets(level)).map(move |bits| PacketSet { level, bits })
    }
}

/// A relation of packets: the outputs of each input, as the bits of a set.
#[derive(Clone, Debug, PartialEq, Eq, Hash)]
pub struct PacketRelation {
    pub level: u32,
    images: Vec<u64>,
}

impl PacketRelation {
    pub fn of(level: u32, related: impl Fn(u32, u32) -> bool) -> PacketRelation {
        let image = |input| bits(level, |output| related(input, output));
        PacketRelation { level, images: (0..packets(level)).map(image).collect() }
    }

    pub fn has(&self, input: u32, output: u32) -> bool {
        self.images[input as usize] >> output & 1 == 1
    }

    pub fn has_output(&self, input: u32) -> bool {
        self.images[input as usize] != 0
    }

    pub fn is_empty(&self) -> bool {
        self.images.iter().all(|&image| image == 0)
    }

    /// Any finite number of steps, none included: Warshall's closure.
    pub fn star(&self) -> PacketRelation {
        let mut steps = PacketRelation::of(self.level, |p, q| p == q || self.has(p, q));
        for through in 0..steps.images.len() {
            let onward = steps.images[through];
            for image in steps.images.iter_mut().filter(|image| **image >> through & 1 == 1) {
                *image |= onward;
            }
        }
        steps
    }

    /// The four parts by field 0 of input and output, 00, 01, 10, 11, without that field.
    pub fn split(&self) -> [PacketRelation; 4] {
        let level = self.level - 1;
        [[0, 0], [0, 1], [1, 0], [1, 1]].map(|[input, output]| {
            let images = self.images.iter().skip(input).step_by(2);
            let images = images.map(|&image| halves(level, image)[output]).collect();
            PacketRelation { level, images }
        })
    }

    /// The inverse of `split`.
    pub fn join(parts: [PacketRelation; 4]) -> PacketRelation {
        let level = parts[0].level;
        let images = (0..packets(level + 1) as usize).map(|input| {
            let [low, high] =
                [0, 1].map(|output| parts[2 * (input % 2) + output].images[input / 2]);
            whole(level, low, high)
        });
        PacketRelation { level: level + 1, images: images.collect() }
    }

    pub fn all(level: u32) -> impl Iterator<Item = PacketRelation> {
        let size = packets(level);
        (0..1_u64 << (size * size))
            .map(move |bits| PacketRelation::of(level, |p, q| bits >> (size * p + q) & 1 == 1))
    }
}

fn bits(level: u32, member: impl Fn(u32) -> bool) -> u64 {
    (0..packets(level)).map(|packet| u64::from(member(packet)) << packet).sum()
}

/// The two halves of a set's bits, each of packets of `level` fields: those of the even packets, whose field 0 is 0, and of the odd ones.
fn halves(level: u32, set: u64) -> [u64; 2] {
    [0, 1].map(|first| bits(level, |rest| set >> (2 * rest + first) & 1 == 1))
}

/// The inverse of `halves`.
fn whole(level: u32, low: u64, high: u64) -> u64 {
    bits(level + 1, |packet| [low, high][packet as usize % 2] >> (packet / 2) & 1 == 1)
}
