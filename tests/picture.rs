//! Judges a rendered chart: of the size that its SVG has, with words in its title, lines below it, and the jam's colour exactly where boards are
//! jammed or a step is not allowed. That colour must be dark in grey too, and the background light.
//! usage: picture CHART.svg < CHART.ppm

use std::io::Read;

fn fail(why: &str) -> ! {
    println!("FAILED: {}", why);
    std::process::exit(1);
}

/// A pixel as it looks in grey, 0 to 255.
fn grey(p: &[u8]) -> u32 {
    (299 * p[0] as u32 + 587 * p[1] as u32 + 114 * p[2] as u32) / 1000
}

fn main() {
    let name = std::env::args().nth(1).unwrap_or_else(|| fail("usage: picture CHART.svg < CHART.ppm"));
    let svg = std::fs::read_to_string(&name).unwrap_or_else(|_| fail(&format!("{} cannot be read", name)));
    let size = |word: &str| -> usize {
        let after = svg.split(&format!(" {}=\"", word)).nth(1).and_then(|r| r.split('"').next());
        after.and_then(|n| n.parse().ok()).unwrap_or_else(|| fail(&format!("{} has no {}", name, word)))
    };
    let mut picture = Vec::new();
    std::io::stdin().read_to_end(&mut picture).expect("the picture is read");
    let head = format!("P6\n{} {}\n255\n", size("width"), size("height"));
    let Some(pixels) = picture.strip_prefix(head.as_bytes()) else { fail(&format!("{} is rendered in another size than {:?}", name, head)) };
    let (width, height) = (size("width"), size("height"));
    if pixels.len() != 3 * width * height || width > 2_000 || height > 32_767 {
        fail(&format!("{} is larger than a page may be, or not rendered whole", name));
    }
    let at = |x: usize, y: usize| &pixels[3 * (y * width + x)..][..3];
    let dark = |from: usize, to: usize| (from..to).flat_map(|y| (12..width - 12).map(move |x| (x, y))).filter(|(x, y)| grey(at(*x, *y)) < 128).count();
    if dark(16, 40) < 100 || dark(46, 62) < 50 {
        fail(&format!("{} is rendered without its title", name));
    }
    let boards = svg.contains(">board ");
    if boards && dark(64, height - 8) < 500 {
        fail(&format!("{} is rendered without its lines", name));
    }
    let jam = |p: &[u8]| p[0] > 2 * p[1] + 40 && p[0] > 2 * p[2] + 40 && grey(p) < 96;
    let jammed = pixels.chunks(3).filter(|p| jam(p)).count();
    if svg.contains("class=\"n\"") != (jammed > 500) {
        fail(&format!("{} has {} pixels in the jam's colour", name, jammed));
    }
    let light = pixels.chunks(3).filter(|p| grey(p) > 230).count();
    if light < pixels.len() / 3 / 2 {
        fail(&format!("{} is not on a light background", name));
    }
}
