//! Option tables built by hand.

use second::options;

/// What an option may be, by the numbers of the table.
pub const BOUGHT_CALL: u8 = 0;
pub const BOUGHT_PUT: u8 = 1;
pub const SOLD_CALL: u8 = 2;
pub const SOLD_PUT: u8 = 3;

/// The fields of an option, in the order of the table.
#[derive(Clone, Copy, Debug)]
pub struct Opt {
    pub class: u8,
    pub group: u8,
    pub right: u8,
    pub kind: u8,
    pub value: u32,
    pub delta: u16,
    pub gamma: u16,
    pub vega: u16,
    pub volatility: u16,
    pub days: u16,
}

/// A bought call of a class on 100 of group 3, with a delta of a half and nothing else.
pub fn plain(class: u8) -> Opt {
    Opt {
        class,
        group: 3,
        right: BOUGHT_CALL,
        kind: u8::from(class == 2),
        value: 100,
        delta: 5_000,
        gamma: 0,
        vega: 0,
        volatility: 0,
        days: 0,
    }
}

impl Opt {
    /// The same of another group.
    pub fn of(self, group: u8) -> Opt {
        Opt { group, ..self }
    }

    /// The same with another right.
    pub fn right(self, right: u8) -> Opt {
        Opt { right, ..self }
    }

    /// The same with another amount and delta.
    pub fn delta(self, value: u32, delta: u16) -> Opt {
        Opt {
            value,
            delta,
            ..self
        }
    }

    /// The same with another amount and gamma.
    pub fn gamma(self, value: u32, gamma: u16) -> Opt {
        Opt {
            value,
            gamma,
            ..self
        }
    }

    /// The same with another vega and volatility.
    pub fn vega(self, vega: u16, volatility: u16) -> Opt {
        Opt {
            vega,
            volatility,
            ..self
        }
    }

    /// The 18 bytes of the option.
    pub fn bytes(&self) -> Vec<u8> {
        let head = [self.class, self.group, self.right, self.kind];
        let pairs = [
            self.delta,
            self.gamma,
            self.vega,
            self.volatility,
            self.days,
        ];
        let tail = pairs.map(u16::to_le_bytes).concat();
        [&head[..], &self.value.to_le_bytes(), &tail].concat()
    }
}

/// A table with this count and these options, whether they agree or not.
pub fn counted(count: u16, options: &[Opt]) -> Vec<u8> {
    let rows = options.iter().flat_map(Opt::bytes);
    count.to_le_bytes().into_iter().chain(rows).collect()
}

/// A table of these options.
pub fn option_table(options: &[Opt]) -> Vec<u8> {
    counted(options.len() as u16, options)
}

/// The entries of a call into so many bytes, each 0xa5 before, and these bytes.
pub fn called(table: &[u8], room: usize) -> ([u64; 17], Vec<u8>) {
    let mut out = vec![0xa5; room];
    let entries = options(table, &mut out).entries();
    (entries, out)
}

/// The gammas of classes 2, 3 and 4.
pub fn gammas(of: &[Opt]) -> [u64; 3] {
    options(&option_table(of), &mut [0; 16_008]).gammas
}

/// The vegas of classes 2, 3 and 4.
pub fn vegas(of: &[Opt]) -> [u64; 3] {
    options(&option_table(of), &mut [0; 16_008]).vegas
}
