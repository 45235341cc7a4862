//! Points of a picture and curves through them.
//!
//! The plane is the page: x to the right, y downward. Angles are in degrees, counterclockwise as the reader sees it, so
//! "counterclockwise" in document 01 is counterclockwise in every picture.

use std::ops::{Add, Mul, Neg, Sub};

#[derive(Clone, Copy, Debug, PartialEq)]
pub struct P {
    pub x: f64,
    pub y: f64,
}

pub fn p(x: f64, y: f64) -> P {
    P { x, y }
}

impl Add for P {
    type Output = P;
    fn add(self, o: P) -> P {
        p(self.x + o.x, self.y + o.y)
    }
}

impl Sub for P {
    type Output = P;
    fn sub(self, o: P) -> P {
        p(self.x - o.x, self.y - o.y)
    }
}

impl Mul<f64> for P {
    type Output = P;
    fn mul(self, by: f64) -> P {
        p(self.x * by, self.y * by)
    }
}

impl Neg for P {
    type Output = P;
    fn neg(self) -> P {
        p(-self.x, -self.y)
    }
}

impl P {
    pub fn length(self) -> f64 {
        (self.x * self.x + self.y * self.y).sqrt()
    }

    pub fn unit(self) -> P {
        self * (1.0 / self.length())
    }

    /// A quarter turn counterclockwise: what lies to the left of one who travels this way.
    pub fn left(self) -> P {
        p(self.y, -self.x)
    }

    /// This direction turned counterclockwise.
    pub fn turned(self, degrees: f64) -> P {
        self * cosine(degrees) + self.left() * sine(degrees)
    }

    /// The direction's angle, from 0 up to 360.
    pub fn angle(self) -> f64 {
        (-self.y).atan2(self.x).to_degrees().rem_euclid(360.0)
    }

    pub fn between(self, o: P, part: f64) -> P {
        self * (1.0 - part) + o * part
    }
}

/// The direction at an angle, of length 1.
pub fn direction(degrees: f64) -> P {
    p(1.0, 0.0).turned(degrees)
}

pub fn polar(centre: P, radius: f64, degrees: f64) -> P {
    centre + direction(degrees) * radius
}

/// The sine by its series: additions and multiplications alone, which give the same digits on every machine.
pub fn sine(degrees: f64) -> f64 {
    let x = ((degrees + 180.0).rem_euclid(360.0) - 180.0) * (std::f64::consts::PI / 180.0);
    let (mut term, mut sum, mut i) = (x, x, 1.0);
    while i < 40.0 {
        term = -term * x * x / ((i + 1.0) * (i + 2.0));
        sum += term;
        i += 2.0;
    }
    sum
}

pub fn cosine(degrees: f64) -> f64 {
    sine(degrees + 90.0)
}

/// A cubic Bezier curve.
#[derive(Clone, Copy, Debug)]
pub struct Curve(pub [P; 4]);

impl Curve {
    pub fn at(&self, part: f64) -> P {
        let [a, b, c, d] = self.0;
        let (q, r) = (1.0 - part, part);
        a * (q * q * q) + b * (3.0 * q * q * r) + c * (3.0 * q * r * r) + d * (r * r * r)
    }

    pub fn heading(&self, part: f64) -> P {
        let [a, b, c, d] = self.0;
        let (q, r) = (1.0 - part, part);
        ((b - a) * (q * q) + (c - b) * (2.0 * q * r) + (d - c) * (r * r)).unit()
    }

    /// The points along it, without those closer than `start` to its start and `end` to its end.
    pub fn points(&self, start: f64, end: f64) -> Vec<P> {
        const PIECES: usize = 96;
        let [first, _, _, last] = self.0;
        let all = (0..=PIECES).map(|i| self.at(i as f64 / PIECES as f64));
        all.filter(|&q| (q - first).length() >= start && (q - last).length() >= end).collect()
    }
}

/// The points of an arc, from one angle to another, counterclockwise if the second is larger.
pub fn arc(centre: P, radius: f64, from: f64, to: f64) -> Vec<P> {
    let pieces = ((to - from).abs() / 5.0).ceil().max(2.0);
    (0..=pieces as usize).map(|i| polar(centre, radius, from + (to - from) * i as f64 / pieces)).collect()
}
