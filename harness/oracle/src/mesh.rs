//! In place of the original's mesh.rs, which is not at hand: the morph rules
//! of the scope paper, "Morphed and baked vertices", over the fields that
//! skinning.rs and transform.rs read.

/// Joint index. The original's width is not known; u32 takes in every id that
/// the scope paper allows.
pub type JointIndex = u32;

#[derive(Clone, Debug, Default)]
pub struct InBetween {
    pub weight: f32,
    pub position: Option<Vec<[f32; 3]>>,
    pub normal: Option<Vec<[f32; 3]>>,
}

#[derive(Clone, Debug, Default)]
pub struct MorphTarget {
    pub position: Option<Vec<[f32; 3]>>,
    pub normal: Option<Vec<[f32; 3]>>,
    pub tangent: Option<Vec<[f32; 3]>>,
    pub inbetweens: Vec<InBetween>,
}

/// Stub: only `reverse_winding`, which is not compared, names it.
#[derive(Clone, Debug)]
pub enum Indices {
    U16(Vec<u16>),
    U32(Vec<u32>),
}

#[derive(Clone, Debug, Default)]
pub struct Primitive {
    pub positions: Vec<[f32; 3]>,
    pub normals: Option<Vec<[f32; 3]>>,
    pub tangents: Option<Vec<[f32; 4]>>,
    pub joints: Option<Vec<[JointIndex; 4]>>,
    pub weights: Option<Vec<[f32; 4]>>,
    pub indices: Option<Indices>,
    pub targets: Vec<MorphTarget>,
}

#[derive(Clone, Debug, Default)]
pub struct Mesh {
    pub name: Option<String>,
    pub primitives: Vec<Primitive>,
    pub weights: Vec<f32>,
    pub target_names: Vec<String>,
}

impl Primitive {
    /// The weighted targets added to the base, target after target.
    pub fn apply_morph_weights(&self, weights: &[f32]) -> Primitive {
        let mut out = self.clone();
        for (target, &w) in self.targets.iter().zip(weights) {
            if w == 0.0 {
                continue;
            }
            match stations(target) {
                None => add_plain(&mut out, target, w),
                Some(stops) => add_between_stations(&mut out, target, &stops, w),
            }
            add_tangents(&mut out, target, w);
        }
        out
    }

    /// `apply_morph_weights`, with the targets consumed.
    pub fn morphed(&self, weights: &[f32]) -> Primitive {
        let mut out = self.apply_morph_weights(weights);
        out.targets = Vec::new();
        out
    }

    /// Stub for `reverse_winding`, which is not compared.
    pub fn to_triangle_list(&self) -> Primitive {
        self.clone()
    }
}

type Slot<'a> = Option<&'a [[f32; 3]]>;

/// One stop of a target with in-betweens.
struct Station<'a> {
    weight: f32,
    position: Slot<'a>,
    normal: Slot<'a>,
}

fn is_valid(weight: f32) -> bool {
    weight.is_finite() && weight != 0.0 && weight != 1.0
}

/// The stations in rising order, or none where no in-between is valid.
fn stations(target: &MorphTarget) -> Option<Vec<Station<'_>>> {
    let all = &target.inbetweens;
    if !all.iter().any(|b| is_valid(b.weight)) {
        return None;
    }
    let rest = Station {
        weight: 0.0,
        position: None,
        normal: None,
    };
    let full = Station {
        weight: 1.0,
        position: target.position.as_deref(),
        normal: target.normal.as_deref(),
    };
    let mut stops = vec![rest, full];
    for b in all {
        let alone = all.iter().filter(|c| c.weight == b.weight).count() == 1;
        if is_valid(b.weight) && alone {
            stops.push(Station {
                weight: b.weight,
                position: b.position.as_deref(),
                normal: b.normal.as_deref(),
            });
        }
    }
    stops.sort_by(|a, b| a.weight.total_cmp(&b.weight));
    Some(stops)
}

fn add_plain(out: &mut Primitive, target: &MorphTarget, w: f32) {
    add_scaled(&mut out.positions, target.position.as_deref(), w);
    if let Some(normals) = &mut out.normals {
        add_scaled(normals, target.normal.as_deref(), w);
    }
}

fn add_between_stations(out: &mut Primitive, target: &MorphTarget, stops: &[Station], w: f32) {
    let last = stops.len() - 1;
    let upper = (1..last).find(|&k| stops[k].weight >= w).unwrap_or(last);
    let (low, high) = (&stops[upper - 1], &stops[upper]);
    let t = (w - low.weight) / (high.weight - low.weight);

    let positions = stops.iter().map(|s| s.position);
    if let Some(len) = blended_len(target.position.as_deref(), positions) {
        add_between(&mut out.positions, low.position, high.position, t, len);
    }
    let normals = stops.iter().map(|s| s.normal);
    if let (Some(len), Some(base)) = (
        blended_len(target.normal.as_deref(), normals),
        &mut out.normals,
    ) {
        add_between(base, low.normal, high.normal, t, len);
    }
}

/// Tangents have no stations; their fourth component is left alone.
fn add_tangents(out: &mut Primitive, target: &MorphTarget, w: f32) {
    if let (Some(tangents), Some(deltas)) = (&mut out.tangents, &target.tangent) {
        for (tangent, delta) in tangents.iter_mut().zip(deltas) {
            for c in 0..3 {
                tangent[c] += w * delta[c];
            }
        }
    }
}

/// Adds w * delta, up to the shorter of the two.
fn add_scaled(base: &mut [[f32; 3]], deltas: Slot, w: f32) {
    for (value, delta) in base.iter_mut().zip(deltas.unwrap_or(&[])) {
        for c in 0..3 {
            value[c] += w * delta[c];
        }
    }
}

/// Adds a + t (b - a), over `len` entries and up to the base's length.
fn add_between(base: &mut [[f32; 3]], low: Slot, high: Slot, t: f32, len: usize) {
    let entry = |slot: Slot, i: usize| slot.and_then(|s| s.get(i)).copied().unwrap_or([0.0; 3]);
    for (i, value) in base.iter_mut().take(len).enumerate() {
        let (a, b) = (entry(low, i), entry(high, i));
        for c in 0..3 {
            value[c] += a[c] + t * (b[c] - a[c]);
        }
    }
}

/// Length of the blended slot: the target's, else the longest station's.
fn blended_len<'a>(own: Slot, all: impl Iterator<Item = Slot<'a>>) -> Option<usize> {
    own.map(<[_]>::len)
        .or_else(|| all.flatten().map(<[_]>::len).max())
}
