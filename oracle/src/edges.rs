//! Pies of one pixel that lies within 0.005 degree of a whole degree, with an edge there: a wrong angle takes it or leaves it.

const NEAR: f64 = 0.005;

/// Where the pixel is from the pie's centre, to the right and up, in halves.
#[derive(Clone, Copy)]
pub struct Direction {
    pub right: i64,
    pub up: i64,
}

impl Direction {
    /// The nearest whole degree.
    fn edge(self) -> i64 {
        self.degrees().round() as i64
    }

    /// How far from it.
    pub fn beside(self) -> f64 {
        (self.degrees() - self.edge() as f64).abs()
    }

    fn degrees(self) -> f64 {
        (self.up as f64).atan2(self.right as f64).to_degrees()
    }

    /// Sweeps that begin or end at the edge, either way, from it, from 0, and turns away.
    pub fn pies(self) -> [String; 10] {
        let edge = self.edge();
        let turned = edge.rem_euclid(360);
        let sweeps = [
            (edge, 1),
            (edge - 1, 1),
            (edge + 1, -1),
            (edge, -1),
            (turned, 90),
            (0, turned),
            (turned + 360, 30),
            (turned - 720, 30),
            (turned + 330, 30),
            (turned - 690, -30),
        ];
        sweeps.map(|(start, sweep)| self.pie(start, sweep))
    }

    /// The box is so big that its ellipse has the pixel, and its sides put the centre on halves.
    fn pie(self, start: i64, sweep: i64) -> String {
        let Direction { right, up } = self;
        let reach = 2 * right.abs().max(up.abs());
        let (across, down) = (reach + (right & 1), reach + (up & 1));
        let (x, y) = (-(right + across) / 2, (up - down) / 2);
        format!("0 1 1 0 z pie {x} {y} {} {} {start} {sweep} 255 255 255 255 0 0 1 1", across + 1, down + 1)
    }
}

/// The directions of halves up to so much, but for those that a pie takes at any angle.
pub fn directions(reach: i64) -> impl Iterator<Item = Direction> + Send {
    let halves = -2 * reach..=2 * reach;
    let all = halves.clone().flat_map(move |up| halves.clone().map(move |right| Direction { right, up }));
    all.filter(|d| d.right * d.right + d.up * d.up >= 4 && d.beside() <= NEAR)
}

/// Their pies; every third has a canvas with a tail, of one pixel to nine.
pub fn cases(reach: i64) -> impl Iterator<Item = String> + Send {
    let with_row = |(n, pie): (usize, String)| match n % 3 {
        0 => pie.replacen(" z ", &format!(" z row={} ", 2 + n / 3 % 9), 1),
        _ => pie,
    };
    directions(reach).flat_map(Direction::pies).enumerate().map(with_row)
}
