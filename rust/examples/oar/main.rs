//! An oar whose blade is shaped from a planed blank while the oar is feathered, as one sheet of
//! A4 to print: the blade at five times, and three of its sections at full size to cut templates
//! from. The SVG goes to stdout; every line of the oar is drawn from vertices that were baked.
//! `examples/oar.c` of the repository writes the same bytes.

mod blade;
mod sheet;

use blade::{minus, Shape, LOOM_LENGTH};
use mesh3d::{
    Base, Buffers, Builder, Channel, Interpolation, Mesh, Node, OwnedScene, Primitive, Refusal,
    Target, Values, Vec3,
};
use sheet::Baked;
use std::{
    f32::consts::FRAC_1_SQRT_2,
    io::{self, Write},
    process::ExitCode,
};

const TIMES: [f32; 5] = [0.0, 0.25, 0.5, 0.75, 1.0];

/// A scene, and the nodes in it that are baked.
struct Oar {
    scene: OwnedScene,
    loom: u32,
    blade: u32,
}

fn mesh(shape: Shape, targets: Vec<Target>) -> Mesh {
    Mesh {
        weights: vec![0.0; targets.len()],
        primitives: vec![Primitive {
            positions: shape.points,
            normals: Some(shape.normals),
            targets,
            ..Primitive::default()
        }],
    }
}

/// The blank with one target: what makes it the finished blade.
fn blade_mesh() -> Mesh {
    let (blank, finished) = (blade::blade(false), blade::blade(true));
    let less =
        |to: &[Vec3], from: &[Vec3]| to.iter().zip(from).map(|(a, b)| minus(*a, *b)).collect();
    let target = Target {
        positions: Some(less(&finished.points, &blank.points)),
        normals: Some(less(&finished.normals, &blank.normals)),
        ..Target::default()
    };
    mesh(blank, vec![target])
}

fn track(node: u32, values: Values) -> Channel {
    Channel {
        node,
        interpolation: Interpolation::Linear,
        keys: vec![0.0, 1.0],
        values,
    }
}

/// The root carries the loom, and the loom the blade. The loom makes a quarter turn about its
/// axis while the blade's morph weight goes from 0 to 1.
fn oar() -> Result<Oar, Refusal> {
    let mut parts = Builder::new();
    let (loom_mesh, blade_mesh) = (mesh(blade::loom(), vec![]), blade_mesh());
    let blade = Node {
        base: Base::translation([LOOM_LENGTH, 0.0, 0.0]),
        mesh: Some(parts.mesh(blade_mesh)),
        ..Node::default()
    };
    let blade = parts.node(blade);
    let loom = Node {
        children: vec![blade],
        mesh: Some(parts.mesh(loom_mesh)),
        ..Node::default()
    };
    let loom = parts.node(loom);
    let root = parts.node(Node {
        children: vec![loom],
        ..Node::default()
    });
    parts.root(root);
    let turn = [FRAC_1_SQRT_2, 0.0, 0.0, FRAC_1_SQRT_2];
    let turns = vec![[0.0, 0.0, 0.0, 1.0], turn];
    parts.channel(track(loom, Values::Rotation(turns)));
    parts.channel(track(blade, Values::Weights(vec![0.0, 1.0])));
    let scene = parts.build()?;
    Ok(Oar { scene, loom, blade })
}

/// From the world into the node's own frame: the inverse of a rotation is its transpose.
fn take_back(world: &[f32], p: Vec3) -> Vec3 {
    let [x, y, z] = [p[0] - world[3], p[1] - world[7], p[2] - world[11]];
    [0, 1, 2].map(|j| world[j] * x + world[4 + j] * y + world[8 + j] * z)
}

fn bake(scene: &OwnedScene, node: u32, time: f32) -> Result<Baked, Refusal> {
    let lent = scene.as_scene();
    let mut buffers = Buffers::new(&lent.room(node)?);
    let (mut scratch, mut out) = buffers.slices();
    lent.bake(node, time, &mut scratch, &mut out)?;
    let world = &scratch.worlds[16 * node as usize..];
    let points = out.positions.as_chunks().0.to_vec();
    Ok(Baked {
        own: points.iter().map(|p| take_back(world, *p)).collect(),
        points,
        normals: out.normals.as_chunks().0.to_vec(),
    })
}

fn draw(oar: &Oar) -> Result<String, Refusal> {
    let bakes = |node| TIMES.map(|time| bake(&oar.scene, node, time)).into_iter();
    let looms: Vec<Baked> = bakes(oar.loom).collect::<Result<_, _>>()?;
    let blades: Vec<Baked> = bakes(oar.blade).collect::<Result<_, _>>()?;
    Ok(sheet::sheet(&looms, &blades))
}

/// The sheet, or in words why there is none.
fn draw_oar() -> Result<String, String> {
    let oar = oar().map_err(|refusal| refusal.to_string())?;
    draw(&oar).map_err(|refusal| match oar.scene.fault() {
        Some(fault) => format!("{refusal}\noar: {fault}"),
        None => refusal.to_string(),
    })
}

fn write(sheet: &str) -> Result<(), String> {
    let mut out = io::stdout();
    let written = out.write_all(sheet.as_bytes()).and_then(|()| out.flush());
    written.map_err(|_| "the sheet could not be written".to_string())
}

fn main() -> ExitCode {
    match draw_oar().and_then(|sheet| write(&sheet)) {
        Ok(()) => ExitCode::SUCCESS,
        Err(words) => {
            eprintln!("oar: {words}");
            ExitCode::FAILURE
        }
    }
}
