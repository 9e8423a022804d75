//! The two sides of the comparison. Both stand behind the same C functions, so that a call costs
//! both the same.

type Four = unsafe extern "C" fn(f32, f32, f32, f32) -> f32;

pub struct Side {
    pub root: unsafe extern "C" fn(f32) -> f32,
    pub dot: Four,
    pub determinant: Four,
    pub times: unsafe extern "C" fn(f32, f32, f32, f32, f32, f32, *mut f32, usize) -> u8,
    pub inverse: unsafe extern "C" fn(f32, f32, f32, f32, *mut f32, usize) -> u8,
}

pub struct Sides {
    pub proved: Side,
    pub rust: Side,
}

/// The calls are safe: a pointer and a length are always those of one slice.
impl Side {
    pub fn root(&self, [x]: [f32; 1]) -> [f32; 1] {
        [unsafe { (self.root)(x) }]
    }

    pub fn dot(&self, [ux, uy, vx, vy]: [f32; 4]) -> [f32; 1] {
        [unsafe { (self.dot)(ux, uy, vx, vy) }]
    }

    pub fn determinant(&self, [c0x, c0y, c1x, c1y]: [f32; 4]) -> [f32; 1] {
        [unsafe { (self.determinant)(c0x, c0y, c1x, c1y) }]
    }

    pub fn times_into(&self, given: [f32; 6], out: &mut [f32]) -> u8 {
        let [c0x, c0y, c1x, c1y, vx, vy] = given;
        unsafe { (self.times)(c0x, c0y, c1x, c1y, vx, vy, out.as_mut_ptr(), out.len()) }
    }

    pub fn inverse_into(&self, [c0x, c0y, c1x, c1y]: [f32; 4], out: &mut [f32]) -> u8 {
        unsafe { (self.inverse)(c0x, c0y, c1x, c1y, out.as_mut_ptr(), out.len()) }
    }

    pub fn times(&self, given: [f32; 6]) -> [f32; 2] {
        let mut out = [0.0; 2];
        assert_eq!(self.times_into(given, &mut out), 0, "times refused");
        out
    }

    pub fn inverse(&self, given: [f32; 4]) -> [f32; 4] {
        let mut out = [0.0; 4];
        assert_eq!(self.inverse_into(given, &mut out), 0, "inverse refused");
        out
    }
}
