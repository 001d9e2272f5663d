//! The functions of the static library `geometry_c`, over a line that meets what their contracts ask.

type Triple = [f32; 3];

#[repr(C)]
#[derive(Clone, Copy)]
struct Ends {
    given: bool,
    start: Vector,
    end: Vector,
}

/// A point or a vector. Across C, a struct of three floats is passed otherwise than an array of three.
#[repr(C)]
#[derive(Clone, Copy)]
struct Vector {
    x: f32,
    y: f32,
    z: f32,
}

#[repr(C)]
struct Posed {
    position: Vector,
    heading: Vector,
}

#[repr(C)]
struct Projected {
    s: f32,
    point: Vector,
    offset: f32,
}

#[repr(C)]
pub struct Located {
    pub segment: usize,
    pub t: f32,
}

#[repr(C)]
pub struct Centerline {
    pub on: bool,
    pub s: f32,
}

extern "C" {
    // A slice is a pointer and a length.
    fn kartsodi_write_cumulative(points: *const f32, points_len: usize, cumulative: *mut f32, cumulative_len: usize);
    fn kartsodi_write_tangents(points: *const f32, points_len: usize, n: usize, ends: Ends, tangents: *mut f32, tangents_len: usize);
    fn kartsodi_locate(cumulative: *const f32, cumulative_len: usize, s: f32) -> Located;
    fn kartsodi_point_at(points: *const f32, points_len: usize, cumulative: *const f32, cumulative_len: usize, s: f32) -> Vector;
    fn kartsodi_pose_at(
        points: *const f32, points_len: usize, cumulative: *const f32, cumulative_len: usize,
        tangents: *const f32, tangents_len: usize, s: f32,
    ) -> Posed;
    fn kartsodi_project(points: *const f32, points_len: usize, cumulative: *const f32, cumulative_len: usize, p: Vector) -> Projected;
    fn kartsodi_project_segments(
        points: *const f32, points_len: usize, cumulative: *const f32, cumulative_len: usize,
        p: Vector, first: usize, end: usize,
    ) -> Projected;
    fn kartsodi_along(
        points: *const f32, points_len: usize, cumulative: *const f32, cumulative_len: usize,
        stations: *const f64, stations_len: usize, s: f64,
    ) -> f32;
    fn kartsodi_station_at(
        points: *const f32, points_len: usize, cumulative: *const f32, cumulative_len: usize,
        stations: *const f64, stations_len: usize, arc: f32,
    ) -> f64;
    fn kartsodi_centerline_s(
        start: f64, end: f64, points: *const f32, points_len: usize, cumulative: *const f32, cumulative_len: usize,
        stations: *const f64, stations_len: usize, s: f64,
    ) -> Centerline;
}

pub struct Pose {
    pub position: Triple,
    pub heading: Triple,
}

pub struct Projection {
    pub s: f32,
    pub point: Triple,
    pub offset: f32,
}

fn from([x, y, z]: Triple) -> Vector {
    Vector { x, y, z }
}

fn to(v: Vector) -> Triple {
    [v.x, v.y, v.z]
}

fn projection(p: Projected) -> Projection {
    Projection { s: p.s, point: to(p.point), offset: p.offset }
}

/// A line in flat tables. Its points are two or more and no coordinate is a NaN or infinite, so that its arc lengths rise.
pub struct Line {
    points: Vec<f32>,
    pub cumulative: Vec<f32>,
    pub tangents: Vec<f32>,
}

// Each pointer handed over is that of a slice that lives through the call, with its own length.
impl Line {
    pub fn new(points: &[Triple], ends: Option<[Triple; 2]>) -> Self {
        assert!(points.len() >= 2 && points.iter().flatten().all(|c| c.is_finite()));
        let n = points.len();
        let mut line = Line { points: points.concat(), cumulative: vec![0.0; n], tangents: vec![0.0; 3 * n] };
        let [start, end] = ends.unwrap_or_default().map(from);
        let ends = Ends { given: ends.is_some(), start, end };
        let (ps, cs, ts) = (&line.points, &mut line.cumulative, &mut line.tangents);
        unsafe {
            kartsodi_write_cumulative(ps.as_ptr(), ps.len(), cs.as_mut_ptr(), cs.len());
            kartsodi_write_tangents(ps.as_ptr(), ps.len(), n, ends, ts.as_mut_ptr(), ts.len());
        }
        line
    }

    pub fn locate(&self, s: f32) -> Located {
        unsafe { kartsodi_locate(self.cumulative.as_ptr(), self.cumulative.len(), s) }
    }

    pub fn point_at(&self, s: f32) -> Triple {
        let (ps, cs) = (&self.points, &self.cumulative);
        to(unsafe { kartsodi_point_at(ps.as_ptr(), ps.len(), cs.as_ptr(), cs.len(), s) })
    }

    pub fn pose_at(&self, s: f32) -> Pose {
        let (ps, cs, ts) = (&self.points, &self.cumulative, &self.tangents);
        let pose = unsafe { kartsodi_pose_at(ps.as_ptr(), ps.len(), cs.as_ptr(), cs.len(), ts.as_ptr(), ts.len(), s) };
        Pose { position: to(pose.position), heading: to(pose.heading) }
    }

    pub fn project(&self, p: Triple) -> Projection {
        let (ps, cs) = (&self.points, &self.cumulative);
        projection(unsafe { kartsodi_project(ps.as_ptr(), ps.len(), cs.as_ptr(), cs.len(), from(p)) })
    }

    /// Both `first` and `end` are below the number of points.
    pub fn project_segments(&self, p: Triple, first: usize, end: usize) -> Projection {
        let (ps, cs) = (&self.points, &self.cumulative);
        assert!(first < cs.len() && end < cs.len());
        projection(unsafe { kartsodi_project_segments(ps.as_ptr(), ps.len(), cs.as_ptr(), cs.len(), from(p), first, end) })
    }

    /// The stations rise, one for each point; so for the next two.
    pub fn along(&self, stations: &[f64], s: f64) -> f32 {
        let (ps, cs) = (&self.points, &self.cumulative);
        unsafe { kartsodi_along(ps.as_ptr(), ps.len(), cs.as_ptr(), cs.len(), stations.as_ptr(), stations.len(), s) }
    }

    pub fn station_at(&self, stations: &[f64], arc: f32) -> f64 {
        let (ps, cs) = (&self.points, &self.cumulative);
        unsafe { kartsodi_station_at(ps.as_ptr(), ps.len(), cs.as_ptr(), cs.len(), stations.as_ptr(), stations.len(), arc) }
    }

    pub fn centerline_s(&self, (start, end): (f64, f64), stations: &[f64], s: f64) -> Centerline {
        let (ps, cs) = (&self.points, &self.cumulative);
        let (sts, n) = (stations.as_ptr(), stations.len());
        unsafe { kartsodi_centerline_s(start, end, ps.as_ptr(), ps.len(), cs.as_ptr(), cs.len(), sts, n, s) }
    }
}
