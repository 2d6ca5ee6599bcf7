//! Shapes and points: everyday ones, and ones at the edges of their types.

use super::{Maker, Profile};
use crate::composition::access;
use crate::{SurfaceDescriptor, SurfaceRect};

impl Maker {
    fn extreme(&mut self) -> bool {
        match self.profile {
            Profile::Geometry => self.rng.percent(70),
            Profile::Wild => self.rng.percent(25),
            _ => false,
        }
    }

    /// A number of an i32 field at or near an edge.
    pub fn edge(&mut self) -> i32 {
        let any = self.rng.next() as i32;
        let small = self.rng.range(-40, 40) as i32;
        let close = self.rng.range(0, 2) as i32;
        self.rng.pick(&[
            i32::MIN + close,
            i32::MAX - close,
            0,
            1,
            -1,
            small,
            any,
            any,
            32_767,
            32_768,
            -32_768,
            -32_769,
            65_536,
            -65_536,
            2_147_418_112,
            1 << 30,
        ])
    }

    fn entry(&mut self) -> i32 {
        let any = self.rng.next() as i32;
        let narrow = (self.rng.next() as i32) >> self.rng.range(1, 28);
        let close = self.rng.range(-2, 2) as i32;
        self.rng.pick(&[
            0,
            1,
            -1,
            2,
            3,
            65_536,
            -65_536,
            65_535,
            65_537,
            131_072,
            32_768,
            43_691,
            i32::MIN,
            i32::MAX,
            134_217_728 + close,
            -134_217_728 + close,
            any,
            any,
            narrow,
            narrow,
        ])
    }

    /// m11 m12 m21 m22.
    pub fn matrix(&mut self) -> [i32; 4] {
        const ONE: i32 = 65_536;
        if self.extreme() {
            return match self.rng.below(12) {
                0 => [134_217_728, 134_217_729, 134_217_727, 134_217_728],
                1 => {
                    let close = self.rng.range(0, 3) as i32;
                    [i32::MIN + close, i32::MAX - close, i32::MIN + 1, i32::MAX]
                }
                2 => [1, 0, 0, 1],
                3 => [131_072, 0, 0, 131_072],
                10 | 11 => {
                    // Large products and a small determinant, for the points of `cancelling`.
                    let (a, near) = (self.rng.next() as i32, self.rng.below(24) as u32);
                    let b = a.saturating_add((self.rng.next() as i32) >> near.max(8));
                    let c = self.rng.range(1, 4) as i32;
                    if self.rng.percent(50) {
                        [c, c, a, b]
                    } else {
                        [a, b, c, c]
                    }
                }
                4 => {
                    // Nearly singular: the determinant is small beside its products.
                    let (a, b) = (self.entry(), self.entry());
                    let close = self.rng.range(-1, 1) as i32;
                    [a, b, a.saturating_add(close), b.saturating_add(1)]
                }
                _ => [self.entry(), self.entry(), self.entry(), self.entry()],
            };
        }
        let even = [2, 6, 10, 14, 22, 26, 98, 198];
        match self.rng.below(13) {
            12 => [self.rng.pick(&even) * ONE, 0, 0, self.rng.pick(&even) * ONE],
            0 | 1 => [2 * ONE, 0, 0, 2 * ONE],
            2 => [ONE / 2, 0, 0, ONE / 2],
            3 => [0, ONE, -ONE, 0],
            4 => [-ONE, 0, 0, ONE],
            5 => [ONE, self.rng.range(-9, 9) as i32 * 1000, 0, ONE],
            _ => [ONE, 0, 0, ONE],
        }
    }

    /// A point at which the two products of a local coordinate nearly cancel, so that how each step
    /// is rounded shows. The numbers are the matrix and the translation.
    pub fn cancelling(&mut self, [m11, m12, m21, m22, tx, ty]: [i32; 6]) -> (i32, i32) {
        let (x, y) = if self.rng.percent(50) { (m21, m22) } else { (m11, m12) };
        let along = self.rng.range(-9, 9) as i32;
        let across = self.rng.range(-1, 1) as i32 * i32::from(self.rng.percent(30));
        (
            x.saturating_add(tx).saturating_add(along),
            y.saturating_add(ty).saturating_add(along + across),
        )
    }

    /// The point that the transform makes of a half, where it is a whole number.
    pub fn half(&mut self, [m11, m12, m21, m22, tx, ty]: [i32; 6]) -> (i32, i32) {
        let q = |entry: i32| f64::from(entry) / 65_536.0;
        let (x, y) = (self.rng.range(-999, 999) as f64 + 0.5, self.rng.range(-9, 9) as f64 + 0.5);
        let seen_x = q(m11) * x + q(m21) * y + f64::from(tx);
        let seen_y = q(m12) * x + q(m22) * y + f64::from(ty);
        (seen_x.round() as i32, seen_y.round() as i32)
    }

    /// The fields of an inverse point whose local x lies less than 1 beside the end of the i32 range.
    pub fn brink(&mut self) -> String {
        let scale = self.rng.range(65_537, 131_071);
        let end = self.rng.pick(&[i64::from(i32::MIN), i64::from(i32::MAX)]);
        let seen = (end * scale).div_euclid(65_536) + self.rng.below(2) as i64;
        let x = end - end.signum() * self.rng.below(1000) as i64;
        let other = self.rng.pick(&[65_536, -65_536, 1, 131_072]);
        format!("{scale} 0 0 {other} {} 0 {x} {}", x - seen, self.rng.range(-9, 9))
    }

    fn singular(matrix: [i32; 4]) -> bool {
        let [m11, m12, m21, m22] = matrix.map(i64::from);
        m11 * m22 == m12 * m21
    }

    /// R: an optional rectangle.
    fn rect(&mut self, often: u64) -> String {
        if !self.rng.percent(often) {
            return "0 0 0 0 0".to_string();
        }
        let (x, y, mut width, mut height): (i32, i32, u32, u32);
        if self.extreme() {
            let any = self.rng.next() as u32 | 1;
            let sides = [1, 2, u32::MAX, u32::MAX - 1, 1 << 31, (1 << 31) - 1, any, any];
            (x, y) = (self.edge(), self.edge());
            (width, height) = (self.rng.pick(&sides), self.rng.pick(&sides));
        } else {
            (x, y) = (self.rng.pick(&[-500, 0, 100]), self.rng.pick(&[-500, 0, 100]));
            (width, height) = (self.rng.pick(&[1000, 500, 1]), self.rng.pick(&[1000, 500]));
        }
        if self.wrong() {
            width = 0;
        } else if self.wrong() {
            height = 0;
        }
        format!("1 {x} {y} {width} {height}")
    }

    /// G: a panel's geometry.
    pub fn geometry(&mut self) -> String {
        let bounds = self.rect(50);
        let clip = self.rect(25);
        let wanted = self.wrong();
        let mut matrix = self.matrix();
        while Self::singular(matrix) != wanted {
            matrix = if wanted { [self.edge(), 0, 0, 0] } else { self.matrix() };
        }
        let [m11, m12, m21, m22] = matrix;
        let (x, y) = if self.extreme() {
            (self.edge(), self.edge())
        } else {
            (self.rng.pick(&[0, 0, 250, -100]), self.rng.pick(&[0, 0, 250, -100]))
        };
        let opacity = self.rng.pick(&[65_535, 65_535, 0, 32_768]);
        let hit = u8::from(self.rng.percent(90));
        format!("{bounds} {clip} {m11} {m12} {m21} {m22} {x} {y} {opacity} {hit}")
    }

    /// A point for a hit test: often at the edge of a panel's rectangle, seen through its transform.
    pub fn point(&mut self) -> (i32, i32) {
        if self.rng.percent(55) {
            let panels = access::surfaces(&self.session.registry);
            if let Some(panel) = self.rng.pick_some(&panels) {
                if let Ok(descriptor) = self.session.registry.surface_descriptor(panel) {
                    return self.point_at(&descriptor);
                }
            }
        }
        if self.extreme() {
            return (self.edge(), self.edge());
        }
        let near = [-501, -500, -1, 0, 1, 99, 100, 250, 499, 500, 999, 1000];
        (self.rng.pick(&near), self.rng.pick(&near))
    }

    fn point_at(&mut self, descriptor: &SurfaceDescriptor) -> (i32, i32) {
        let geometry = descriptor.geometry;
        let whole = SurfaceRect { x_milli: -5, y_milli: -5, width_milli: 10, height_milli: 10 };
        let rect = match self.rng.below(3) {
            0 => geometry.clip.or(geometry.bounds),
            _ => geometry.bounds.or(geometry.clip),
        };
        let rect = rect.unwrap_or(whole);
        let x = self.along(rect.x_milli, rect.width_milli);
        let y = self.along(rect.y_milli, rect.height_milli);
        let t = geometry.transform;
        if self.profile == Profile::Geometry && self.rng.percent(15) {
            let (tx, ty) = (t.translate_x_milli, t.translate_y_milli);
            return self.cancelling([t.m11_q16, t.m12_q16, t.m21_q16, t.m22_q16, tx, ty]);
        }
        let q = |entry: i32| f64::from(entry) / 65_536.0;
        let seen_x = q(t.m11_q16) * x + q(t.m21_q16) * y + f64::from(t.translate_x_milli);
        let seen_y = q(t.m12_q16) * x + q(t.m22_q16) * y + f64::from(t.translate_y_milli);
        let off = self.rng.range(-1, 1) as f64 * f64::from(u8::from(self.rng.percent(30)));
        ((seen_x.round() + off) as i32, seen_y.round() as i32)
    }

    /// A place on one axis of a rectangle: at an edge, just outside or within.
    fn along(&mut self, from: i32, length: u32) -> f64 {
        let (from, length) = (f64::from(from), f64::from(length));
        let places =
            [from - 1.0, from, from + 0.5, from + length - 1.0, from + length - 0.5, from + length];
        if self.rng.percent(60) {
            return (from + length / 2.0).floor();
        }
        self.rng.pick(&places)
    }
}
