// Put at the end of floor.rs: the ladder, and the fields as document 01 lays them out in the lent stores, and back.

/// Document 01's ladder, rounded upward as R-5 has it; T and TENS are written by oracle.py.
pub fn ladder(s: f64) -> f64 {
    if s.is_nan() {
        return f64::NAN;
    }
    let i = (8.0 * s.clamp(-260.0, 400.0)).ceil() as i32;
    let q = i.div_euclid(80);
    let j = i - 80 * q;
    T[j as usize] as f64 * TENS[(q + 26) as usize]
}

/// The value of rung r, an eighth of a dB each, from -260 dB to 400 dB.
pub fn rung(r: usize) -> f64 {
    T[r % 80] as f64 * TENS[r / 80]
}

/// 0 dB, and the highest.
pub const ZERO_DB: usize = 2080;
pub const TOP: usize = 5280;

impl FloorBank {
    pub fn to_stores(&self) -> (Vec<u16>, Vec<f64>) {
        let phase = (self.hop_counter % DECIMATION_HOPS) as u16;
        let mut u = vec![self.channels.len() as u16, phase, self.smoothed_init as u16];
        u.extend(self.seed_pushes.iter().map(|&c| c as u16));
        for ch in &self.channels {
            u.extend_from_slice(&ch.ring);
            u.extend(ch.hist.iter().map(|&c| c as u16));
            u.extend([ch.ring_pos as u16, ch.filled as u16, ch.lead_silent]);
        }
        let f = [
            &self.floor_db,
            &self.usable_floor_db,
            &self.smoothed_lin,
            &self.rise_floor_db,
            &self.block_floor_db,
            &self.seed_sum_db,
        ];
        (u, f.into_iter().flatten().copied().collect())
    }

    /// Of sound stores.
    pub fn of_stores(u: &[u16], f: &[f64]) -> Self {
        let n = u[0] as usize;
        let blocks = n.div_ceil(BLOCK_CHANNELS);
        let channel = |c: &[u16]| ChannelFloor {
            ring: c[..RING_LEN].try_into().unwrap(),
            hist: std::array::from_fn(|b| c[RING_LEN + b] as u8),
            ring_pos: c[RING_LEN + HIST_BINS] as usize,
            filled: c[RING_LEN + HIST_BINS + 1] as usize,
            lead_silent: c[RING_LEN + HIST_BINS + 2],
        };
        let mut at = 0;
        let mut part = |len: usize| {
            at += len;
            f[at - len..at].to_vec()
        };
        FloorBank {
            channels: u[3 + blocks..].chunks_exact(RING_LEN + HIST_BINS + 3).map(channel).collect(),
            floor_db: part(n),
            usable_floor_db: part(n),
            hop_counter: u[1] as u64,
            smoothed_lin: part(n),
            smoothed_init: u[2] == 1,
            rise_floor_db: part(n),
            block_floor_db: part(blocks),
            seed_sum_db: part(blocks),
            seed_pushes: u[3..3 + blocks].iter().map(|&c| c as u32).collect(),
        }
    }

    pub fn rise_floor_db(&self, k: usize) -> f64 {
        self.rise_floor_db[k]
    }

    pub fn ring(&self, k: usize) -> &[u16] {
        &self.channels[k].ring
    }
}

/// An early level that is absent.
pub const ABSENT: i32 = 65535;

impl Gate {
    /// Levels on, off and early in eighths of a dB.
    pub fn made(n: usize, levels: [i32; 3], lengths: &[u16]) -> Self {
        let [on, off, early] = levels.map(|x| x as f32 / 8.0);
        let gate = Gate::new(n, on, off, lengths);
        if levels[2] == ABSENT { gate } else { gate.with_ema_rise(early) }
    }

    pub fn words(&self) -> Vec<u16> {
        let started = self.initialized[0];
        assert!(self.initialized.iter().all(|&s| s == started));
        let level = |x: f32| (x * 8.0 + 800.0) as u16;
        let early = self.ema_on_snr_db.map_or(ABSENT as u16, level);
        let n = self.smoothed_db.len() as u16;
        let mut u = vec![n, started as u16, level(self.on_snr_db), level(self.off_snr_db), early, self.looks.len() as u16];
        u.extend(self.looks.iter().flat_map(|l| [l.m as u16, l.cursor as u16, l.filled as u16]));
        u.resize(30, 0);
        u
    }

    /// The f64 store in its order: smoothed, then ring, recent and previous of each length, then the rise floors last used and
    /// their thresholds.
    pub fn floats(&self) -> Vec<&[f64]> {
        let looks = self.looks.iter().flat_map(|l| [&l.ring[..], &l.recent, &l.previous]);
        std::iter::once(&self.smoothed_db[..]).chain(looks).chain([&self.thr_src_db[..], &self.thr_lin]).collect()
    }

    pub fn to_stores(&self) -> (Vec<u16>, Vec<f64>) {
        (self.words(), self.floats().concat())
    }

    /// Of sound stores.
    pub fn of_stores(u: &[u16], f: &[f64]) -> Self {
        let n = u[0] as usize;
        let lengths: Vec<u16> = (0..u[5] as usize).map(|i| u[6 + 3 * i]).collect();
        let mut gate = Gate::made(n, [u[2], u[3], u[4]].map(|x| if x == 65535 { ABSENT } else { x as i32 - 800 }), &lengths);
        let mut at = 0;
        let mut part = |to: &mut [f64]| {
            to.copy_from_slice(&f[at..at + to.len()]);
            at += to.len();
        };
        gate.initialized.fill(u[1] == 1);
        part(&mut gate.smoothed_db);
        for (i, look) in gate.looks.iter_mut().enumerate() {
            look.cursor = u[7 + 3 * i] as usize;
            look.filled = u[8 + 3 * i] as usize;
            part(&mut look.ring);
            part(&mut look.recent);
            part(&mut look.previous);
        }
        part(&mut gate.thr_src_db);
        part(&mut gate.thr_lin);
        gate
    }
}
