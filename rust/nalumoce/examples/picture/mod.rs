//! A mesh to look at: as OBJ, and as a PNG seen from above a corner, from +x, +y, +z.

use nalumoce::Mesh;

/// Wavefront OBJ, two triangles a quad.
pub fn obj(mesh: &Mesh) -> String {
    let vector = |kind: &str, floats: &[f32]| {
        let floats: Vec<String> = floats.iter().map(f32::to_string).collect();
        format!("{kind} {}\n", floats.join(" "))
    };
    let corner = |index: &u32| format!(" {0}/{0}/{0}", index + 1);
    let mut text = String::from("o chunk\n");
    text.extend(mesh.positions().iter().map(|position| vector("v", position)));
    text.extend(mesh.uvs().iter().map(|uv| vector("vt", uv)));
    text.extend(mesh.normals().iter().map(|normal| vector("vn", normal)));
    text.extend(mesh.indices().chunks_exact(3).map(|triangle| format!("f{}\n", triangle.iter().map(corner).collect::<String>())));
    text
}

type Colour = [u8; 3];

const BACKGROUND: Colour = [244, 244, 240];
const MARK: Colour = [230, 0, 0];
const MARGIN: f32 = 12.0;

/// A PNG with `scale` pixels to a unit of length; `colour` is asked for each quad. What looks away from the eye is not drawn, so that a
/// missing face is a hole. The quads `marked` shine through what is before them.
pub fn png(mesh: &Mesh, scale: f32, colour: impl Fn(usize) -> Colour, marked: &[usize]) -> Vec<u8> {
    let seen: Vec<[f32; 3]> = mesh.positions().iter().map(|&position| project(position, scale)).collect();
    let bound = |axis: usize, pick: fn(f32, f32) -> f32| seen.iter().map(|point| point[axis]).reduce(pick).unwrap_or(0.0);
    let (left, top) = (bound(0, f32::min) - MARGIN, bound(1, f32::min) - MARGIN);
    let (width, height) = (bound(0, f32::max) - left + MARGIN, bound(1, f32::max) - top + MARGIN);
    let mut image = Image::new(width.ceil() as usize, height.ceil() as usize);
    let corners = |quad: usize| [0, 1, 2].map(|i| 4 * quad + i).map(|i| [seen[i][0] - left, seen[i][1] - top, seen[i][2]]);
    let normals = mesh.normals().iter().copied().step_by(4);
    for (quad, normal) in normals.enumerate().filter(|(_, normal)| faces_the_eye(*normal)) {
        image.draw(corners(quad), shaded(colour(quad), normal));
    }
    for &quad in marked {
        image.shine(corners(quad), MARK);
    }
    image.png()
}

/// Across, down, and towards the eye.
fn project([x, y, z]: [f32; 3], scale: f32) -> [f32; 3] {
    [(x - z) * 0.866 * scale, (x + z) * 0.5 * scale - y * scale, x + y + z]
}

fn faces_the_eye(normal: [f32; 3]) -> bool {
    normal.into_iter().sum::<f32>() > 0.0
}

fn shaded(colour: Colour, [x, y, _]: [f32; 3]) -> Colour {
    let light = if y > 0.0 {
        1.0
    } else if x > 0.0 {
        0.8
    } else {
        0.62
    };
    colour.map(|part| (part as f32 * light) as u8)
}

struct Image {
    width: usize,
    pixels: Vec<Colour>,
    nearest: Vec<f32>,
}

impl Image {
    fn new(width: usize, height: usize) -> Image {
        Image { width, pixels: vec![BACKGROUND; width * height], nearest: vec![f32::MIN; width * height] }
    }

    /// A quad, a little darker along its edge, where nothing nearer was drawn.
    fn draw(&mut self, corners: [[f32; 3]; 3], colour: Colour) {
        self.each_pixel(corners, |pixel, nearest, near, edge| {
            if near > *nearest {
                *pixel = if edge { colour.map(|part| part / 4 * 3) } else { colour };
                *nearest = near;
            }
        });
    }

    /// A quad through whatever was drawn.
    fn shine(&mut self, corners: [[f32; 3]; 3], colour: Colour) {
        self.each_pixel(corners, |pixel, _, _, edge| {
            *pixel = if edge { colour } else { [0, 1, 2].map(|part| pixel[part] / 2 + colour[part] / 2) };
        });
    }

    /// The pixels of a quad, given by its first corner and the two beside it: each with how near the nearest drawn there is, how near
    /// the quad is, and whether it is at the quad's edge.
    fn each_pixel(&mut self, [first, second, third]: [[f32; 3]; 3], mut paint: impl FnMut(&mut Colour, &mut f32, f32, bool)) {
        let [a, b] = [second, third].map(|corner| [0, 1, 2].map(|axis| corner[axis] - first[axis]));
        let area = a[0] * b[1] - a[1] * b[0];
        if area.abs() < 1e-3 {
            return;
        }
        let reach = |axis: usize| {
            let ends = [first[axis], first[axis] + a[axis], first[axis] + b[axis], first[axis] + a[axis] + b[axis]];
            let (low, high) = (ends.into_iter().reduce(f32::min).unwrap(), ends.into_iter().reduce(f32::max).unwrap());
            low.max(0.0) as usize..high.ceil() as usize + 1
        };
        for row in reach(1) {
            for column in reach(0) {
                let (x, y) = (column as f32 + 0.5 - first[0], row as f32 + 0.5 - first[1]);
                let (s, t) = ((x * b[1] - y * b[0]) / area, (a[0] * y - a[1] * x) / area);
                let place = row * self.width + column;
                let inside = |part: f32| (-1e-4..=1.0001).contains(&part);
                if column < self.width && place < self.pixels.len() && inside(s) && inside(t) {
                    let edge = [s, t, 1.0 - s, 1.0 - t].into_iter().any(|part| part < 0.04);
                    paint(&mut self.pixels[place], &mut self.nearest[place], first[2] + s * a[2] + t * b[2], edge);
                }
            }
        }
    }

    fn png(&self) -> Vec<u8> {
        let rows = self.pixels.chunks(self.width);
        let raw: Vec<u8> = rows.clone().flat_map(|row| std::iter::once(0).chain(row.iter().flatten().copied())).collect();
        let mut head = vec![];
        head.extend((self.width as u32).to_be_bytes());
        head.extend((rows.len() as u32).to_be_bytes());
        head.extend([8, 2, 0, 0, 0]);
        let mut file = b"\x89PNG\r\n\x1a\n".to_vec();
        for (name, body) in [(b"IHDR", head), (b"IDAT", stored(&raw)), (b"IEND", vec![])] {
            let named = [&name[..], &body].concat();
            file.extend((body.len() as u32).to_be_bytes());
            file.extend(&named);
            file.extend(crc(&named).to_be_bytes());
        }
        file
    }
}

/// A zlib stream that packs nothing.
fn stored(raw: &[u8]) -> Vec<u8> {
    let mut stream = vec![0x78, 0x01];
    let last = raw.len().div_ceil(0xFFFF).saturating_sub(1);
    for (number, block) in raw.chunks(0xFFFF).enumerate() {
        let length = block.len() as u16;
        stream.push((number == last) as u8);
        stream.extend(length.to_le_bytes());
        stream.extend((!length).to_le_bytes());
        stream.extend(block);
    }
    let (a, b) = raw.iter().fold((1, 0), |(a, b), &byte| {
        let a = (a + byte as u32) % 65_521;
        (a, (b + a) % 65_521)
    });
    stream.extend((b << 16 | a).to_be_bytes());
    stream
}

fn crc(bytes: &[u8]) -> u32 {
    let shift = |word: u32, _| if word & 1 == 1 { word >> 1 ^ 0xEDB8_8320 } else { word >> 1 };
    !bytes.iter().fold(u32::MAX, |word, &byte| (0..8).fold(word ^ byte as u32, shift))
}
